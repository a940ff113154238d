// A library that is loaded before the program's C library (LD_PRELOAD), and lets each call of one kind fail in turn: at each
// such call the process is split in two. One half is told that the call failed, and goes on to its end. The other waits for it,
// writes a line on how it ended, and goes on as if nothing had been. So one run tries every call of a kind, by number, to the end.
//
// What is written on standard output and error is gathered, and only the whole run's own comes out, at its end. Files are read at
// places that each half keeps for itself. It is set by words of the environment:
//
//   FAIL=open|read|write|close|memory   the calls that fail; memory: malloc and realloc
//   WITH=NUMBER    the error number (errno) that the call fails with; 0: a write that takes nothing
//   ONWARD=1       all later calls of the kind fail too
//   SLOW=1         each read and each write moves one byte
//   OUTPUT=FILE    what the program writes on standard output where nothing fails
//   ERROR=FILE     the same for standard error
//   LOG=FILE       where the lines are appended
//
// A line is like `7 read file 3: status 3, output none, error dvgcheck: cannot read the certificate`. The files are numbered as
// they were opened. A stream is told as `none`, `all` that it should be where nothing fails, `as before` the failed write and a
// prefix of that, a few lines as they are, with ` / ` between two of them, or `wrong`.
#define _GNU_SOURCE
#include <errno.h>
#include <fcntl.h>
#include <stdio.h>
#include <stdlib.h>
#include <string.h>
#include <sys/mman.h>
#include <sys/stat.h>
#include <sys/syscall.h>
#include <sys/wait.h>
#include <unistd.h>

void *__libc_malloc(size_t);
void *__libc_realloc(void *, size_t);

enum { MOST_BYTES = 1 << 21, MOST_FILES = 64, MOST_TEXT = 4000 };

struct stream {
  size_t length;
  char bytes[MOST_BYTES];
};

static struct stream *streams; // standard output and error: both halves see them, and a half only appends to them
static struct stream *whole;   // what they are where nothing fails
static off_t place[MOST_FILES]; // how far each file was read
static int order[MOST_FILES];   // as which it was opened
static int opened, calls, log_file;
static int error, onward, slow;
static const char *kind; // of the calls that fail; null until the library is ready
static int failing;      // whether this half was told that a call failed

static _Noreturn void give_up(const char *why) {
  dprintf(2, "failing-calls: %s: %s\n", why, strerror(errno));
  _exit(99);
}

static void *shared(size_t size) {
  void *bytes = mmap(NULL, size, PROT_READ | PROT_WRITE, MAP_SHARED | MAP_ANONYMOUS, -1, 0);
  if (bytes == MAP_FAILED) give_up("no memory");
  return bytes;
}

static const char *word(const char *name) {
  const char *value = getenv(name);
  return value ? value : "";
}

static void load(struct stream *s, const char *name) {
  int file = openat(AT_FDCWD, name, O_RDONLY);
  ssize_t length = pread(file, s->bytes, MOST_BYTES, 0);
  if (length < 0) give_up(name);
  s->length = length;
  syscall(SYS_close, file);
}

__attribute__((constructor)) static void begin(void) {
  streams = shared(2 * sizeof *streams);
  whole = shared(2 * sizeof *whole);
  load(&whole[0], word("OUTPUT"));
  load(&whole[1], word("ERROR"));
  int file = openat(AT_FDCWD, word("LOG"), O_WRONLY | O_APPEND | O_CREAT, 0600);
  log_file = fcntl(file, F_DUPFD, MOST_FILES); // out of the program's way
  if (log_file < 0) give_up(word("LOG"));
  syscall(SYS_close, file);
  error = atoi(word("WITH"));
  onward = *word("ONWARD");
  slow = *word("SLOW");
  kind = word("FAIL");
}

__attribute__((destructor)) static void end(void) {
  if (failing) return;
  for (int i = 0; i < 2; i++)
    for (size_t at = 0; at < streams[i].length;) {
      ssize_t moved = syscall(SYS_write, i + 1, streams[i].bytes + at, streams[i].length - at);
      if (moved <= 0) give_up("cannot write");
      at += moved;
    }
}

// a stream that has a few lines, as one
static const char *as_line(const struct stream *s, char room[MOST_TEXT]) {
  size_t length = 0;
  for (size_t at = 0; at + 1 < s->length && length + 4 < MOST_TEXT; at++)
    length += snprintf(room + length, MOST_TEXT - length, s->bytes[at] == '\n' ? " / " : "%c", s->bytes[at]);
  room[length] = 0;
  return length + 4 < MOST_TEXT && s->bytes[s->length - 1] == '\n' ? room : "wrong";
}

// a stream as a line of the log has it; before: its length at the call that failed
static const char *shown(int i, size_t before, char room[MOST_TEXT]) {
  const struct stream *s = &streams[i], *all = &whole[i];
  int is_prefix = s->length <= all->length && !memcmp(s->bytes, all->bytes, s->length);
  if (is_prefix && s->length && s->length == all->length) return "all";
  if (is_prefix && s->length == before && !strcmp(kind, "write") && all->length) return "as before";
  return s->length ? as_line(s, room) : "none";
}

// how the half that was told of a failure ended
static void tell(const char *what, int status, const size_t before[2]) {
  char room[2][MOST_TEXT], line[4 * MOST_TEXT];
  int ended = WIFEXITED(status);
  int length = snprintf(line, sizeof line, "%d %s: %s %d, output %s, error %s\n", calls, what, ended ? "status" : "signal",
                        ended ? WEXITSTATUS(status) : WTERMSIG(status), shown(0, before[0], room[0]),
                        shown(1, before[1], room[1]));
  if (syscall(SYS_write, log_file, line, length) != length) give_up("cannot write the log");
}

// whether this call of such a kind fails, here
static int fails(const char *of, const char *what, int number) {
  if (!kind || strcmp(kind, of)) return 0;
  calls++;
  errno = error;
  if (failing) return onward;
  size_t before[2] = {streams[0].length, streams[1].length};
  pid_t half = fork();
  if (half < 0) give_up("cannot split");
  if (!half) {
    alarm(60);
    errno = error;
    return failing = 1;
  }
  int status;
  while (waitpid(half, &status, 0) < 0)
    if (errno != EINTR) give_up("cannot wait");
  char name[40];
  snprintf(name, sizeof name, number ? "%s %s %d" : "%s %s", of, what, number);
  tell(name, status, before);
  for (int i = 0; i < 2; i++) streams[i].length = before[i];
  return 0;
}

int open(const char *path, int flags, ...) {
  opened++;
  if (fails("open", "file", opened)) return -1;
  int file = openat(AT_FDCWD, path, flags);
  if (file >= MOST_FILES) give_up("too many files");
  if (file >= 0) {
    place[file] = 0;
    order[file] = opened;
  }
  return file;
}

static void must_be(int file, int first, int end) {
  if (file >= first && file < end) return;
  errno = EBADF;
  give_up("no file of the program's");
}

ssize_t read(int file, void *bytes, size_t room) {
  must_be(file, 0, MOST_FILES);
  if (fails("read", "file", order[file])) return -1;
  ssize_t moved = pread(file, bytes, slow && room ? 1 : room, place[file]);
  if (moved > 0) place[file] += moved;
  return moved;
}

ssize_t write(int file, const void *bytes, size_t length) {
  must_be(file, 1, 3);
  if (fails("write", file == 1 ? "output" : "error", 0)) return error ? -1 : 0;
  struct stream *s = &streams[file - 1];
  if (slow && length) length = 1;
  if (length > MOST_BYTES - s->length) give_up("too much output");
  memcpy(s->bytes + s->length, bytes, length);
  s->length += length;
  return length;
}

ssize_t __write(int file, const void *bytes, size_t length) { return write(file, bytes, length); }

int close(int file) {
  must_be(file, 0, MOST_FILES);
  if (fails("close", "file", order[file])) return -1;
  return syscall(SYS_close, file);
}

void *malloc(size_t size) { return fails("memory", "block", 0) ? NULL : __libc_malloc(size); }

void *realloc(void *block, size_t size) { return fails("memory", "block", 0) ? NULL : __libc_realloc(block, size); }
