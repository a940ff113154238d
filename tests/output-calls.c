// A library that is loaded before the program's C library (LD_PRELOAD), for a program that writes a file anew: it notes the calls
// by which that is done, and lets one of them fail. It also notes what is written on standard output and error. It is set by words
// of the environment:
//
//   CALLS=FILE     where the calls are noted, a line for each: create, mode, write, sync, rename or remove
//   FAIL=CALL      the call of this kind that fails, with EIO; `write` is the second, when one piece stands in the file
//   MEMORY=NUMBER  the number of the malloc or realloc that finds no memory
//   WRITES=FILE    where each write on standard output and error is noted, a line for each: the stream and how many bytes it took
#define _GNU_SOURCE
#include <errno.h>
#include <fcntl.h>
#include <stdarg.h>
#include <stdio.h>
#include <stdlib.h>
#include <string.h>
#include <sys/stat.h>
#include <sys/syscall.h>
#include <unistd.h>

void *__libc_malloc(size_t);
void *__libc_realloc(void *, size_t);

static const char *kind = "", *notes, *writes;
static int pieces;
static long blocks, refused;

__attribute__((constructor)) static void begin(void) {
  const char *memory = getenv("MEMORY");
  notes = getenv("CALLS");
  writes = getenv("WRITES");
  if (getenv("FAIL")) kind = getenv("FAIL");
  blocks = 0;
  refused = memory ? atol(memory) : 0;
}

static void note(const char *name, const char *line) {
  int file = openat(AT_FDCWD, name ? name : "/dev/null", O_WRONLY | O_APPEND | O_CREAT, 0600);
  ssize_t length = strlen(line);
  if (file < 0 || syscall(SYS_write, file, line, length) != length) _exit(99);
  syscall(SYS_close, file);
}

static int fails(const char *call) {
  char line[20];
  snprintf(line, sizeof line, "%s\n", call);
  note(notes, line);
  errno = EIO;
  return !strcmp(kind, call) && (strcmp(call, "write") || ++pieces == 2);
}

int open(const char *path, int flags, ...) {
  va_list words;
  va_start(words, flags);
  mode_t mode = flags & O_CREAT ? va_arg(words, mode_t) : 0;
  va_end(words);
  if (flags & O_CREAT && fails("create")) return -1;
  return openat(AT_FDCWD, path, flags, mode);
}

int fchmod(int file, mode_t mode) { return fails("mode") ? -1 : syscall(SYS_fchmod, file, mode); }

ssize_t write(int file, const void *bytes, size_t length) {
  if (file > 2 && fails("write")) return -1;
  ssize_t moved = syscall(SYS_write, file, bytes, length);
  if (file <= 2 && writes) {
    char line[40];
    int error = errno;
    snprintf(line, sizeof line, "%d %zd\n", file, moved);
    note(writes, line);
    errno = error;
  }
  return moved;
}

ssize_t __write(int file, const void *bytes, size_t length) { return write(file, bytes, length); }

int fsync(int file) { return fails("sync") ? -1 : syscall(SYS_fsync, file); }

int rename(const char *from, const char *to) { return fails("rename") ? -1 : syscall(SYS_rename, from, to); }

int unlink(const char *path) { return fails("remove") ? -1 : syscall(SYS_unlink, path); }

void *malloc(size_t size) { return ++blocks == refused ? NULL : __libc_malloc(size); }

void *realloc(void *block, size_t size) { return ++blocks == refused ? NULL : __libc_realloc(block, size); }
