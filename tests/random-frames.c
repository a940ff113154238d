// Makes random small ROMs, frames and certificates, in the folder that it is run in: random-frames SEED ROMS
//
// The certificates are those of another maker than `dvgcheck make`, written by docs/CERTIFICATE.md and docs/RULES.md alone: their
// boxes, words and depths are larger than they need be, an entry for `any` stands in the place of numbered ones, and there are
// entries that nothing calls. Whether the checker accepts them is its own to say: most it does.
//
// The files of a ROM of number R are R.rom, three certificates R-a.cert to R-c.cert, and for each of these four frames, as
// R-a-0.frame; R-a-0.started is that frame with the jump to the ROM's start in word 000, if it has one. A line on standard output
// tells what goes with the ROM: its number, its map, a budget, a window and, with some, a start: `7 A12/A2F 20000 0,1023,0,1023 005`.
#include <stdint.h>
#include <stdio.h>
#include <stdlib.h>
#include <string.h>

enum { MOST_WORDS = 1024, MOST_SHAPES = 200, ANY = 16, KEYS = 17, MAKERS = 3, FRAMES = 4 };

// ---- chance: splitmix64

static uint64_t seed;

static uint64_t chance(void) {
  uint64_t z = seed += 0x9E3779B97F4A7C15;
  z = (z ^ z >> 30) * 0xBF58476D1CE4E5B9;
  z = (z ^ z >> 27) * 0x94D049BB133111EB;
  return z ^ z >> 31;
}

static int from_to(int least, int most) { return least + (int)(chance() % (uint64_t)(most - least + 1)); }

static int one_in(int times) { return from_to(1, times) == 1; }

// ---- words

static uint16_t rom[MOST_WORDS], frame[MOST_WORDS];
static int first, length;               // where the ROM lies, and its words
static int shapes[MOST_SHAPES], made;   // the addresses at which its shapes begin
static int start;                       // where the frames start

static int any_scale(void) { return one_in(3) ? from_to(0, 15) : from_to(0, 2); }

static int intensity(void) { return one_in(2) ? 0 : from_to(1, 15); }

// a draw, a LABS or, rarely, what no shape may have, at a place in a list; answers the place behind it
static int put_item(uint16_t *words, int at) {
  int sign = from_to(0, 1) << 10, other = from_to(0, 1);
  switch (one_in(80) ? 0 : from_to(1, 19)) {
    case 0:
      words[at] = (uint16_t)chance();
      return at + 1;
    case 1: case 2:
      words[at] = (uint16_t)(0xA000 | from_to(300, 700) | (one_in(60) ? 0x400 : 0));
      words[at + 1] = (uint16_t)(any_scale() << 12 | from_to(300, 700));
      return at + 2;
    case 3: case 4: case 5:
      words[at] = (uint16_t)(from_to(0, 9) << 12 | sign | from_to(0, 40));
      words[at + 1] = (uint16_t)(intensity() << 12 | other << 10 | from_to(0, 40));
      return at + 2;
    default:
      words[at] = (uint16_t)(0xF000 | from_to(0, 1) << 11 | sign | from_to(0, 3) << 8 | intensity() << 4 | from_to(0, 1) << 3 |
                             other << 2 | from_to(0, 3));
      return at + 1;
  }
}

static int some_shape(void) { return one_in(50) ? from_to(first, first + length - 1) : shapes[from_to(0, made - 1)]; }

// a ROM of shapes, each of which calls some that stand before it
static void make_rom(void) {
  int whole = one_in(10), at = 0;
  length = whole ? 1024 : from_to(6, 60);
  first = whole ? 0x800 : from_to(0x400, 0xC00 - length);
  memset(rom, 0, sizeof rom);
  for (made = 0; at < (whole ? 60 : length) && made < MOST_SHAPES;) {
    int begun = first + at, items = from_to(0, 4);
    while (items-- && at < length - 3)
      if (made && one_in(3))
        rom[at++] = (uint16_t)(0xC000 | some_shape());
      else
        at = put_item(rom, at);
    rom[at++] = made && one_in(4) ? (uint16_t)(0xE000 | some_shape()) : 0xD000;
    shapes[made++] = begun;
  }
}

// a frame; answers its length
static int make_frame(void) {
  int at = 0, items = from_to(1, 12);
  if (start) {
    for (; at < start; at++) frame[at] = (uint16_t)chance();
    frame[0] = (uint16_t)(0xE000 | start);
  }
  if (!one_in(5)) {
    frame[at++] = (uint16_t)(0xA000 | from_to(350, 650));
    frame[at++] = (uint16_t)(any_scale() << 12 | from_to(350, 650));
  }
  while (items--)
    if (one_in(30)) {
      frame[at] = (uint16_t)(0xE000 | (at + 2));
      frame[at + 1] = (uint16_t)chance();
      at += 2;
    } else if (one_in(2))
      frame[at++] = (uint16_t)(0xC000 | some_shape());
    else
      at = put_item(frame, at);
  frame[at++] = one_in(50) ? 0xD000 : 0xB000;
  return at;
}

// ---- the other maker

enum place_kind { REL, ABS, LOST };

struct place {
  enum place_kind kind;
  int64_t x, y;
};

struct box {
  int has; // whether it is another than `none`
  int64_t x0, x1, y0, y1;
};

struct entry {
  enum { NEW, MAKING, MADE, IMPOSSIBLE } state;
  struct place end;
  struct box box;
  int depth, words, scale;
};

struct walk {
  struct place place;
  struct box box;
  int depth, words, scale;
};

static struct entry entries[MOST_WORDS][KEYS];

static enum { OPEN, NUMBERED, SHARED } chosen[MOST_WORDS][KEYS]; // which entry a call at a known scale names
static int sharing; // in a tenth of the calls, so many name an entry for `any`

static int64_t displacement(int size, int local, int global) {
  int t = (local + global) % 16;
  return (int64_t)size * (t < 10 ? 2 << t : 1);
}

static int with_sign(int size, int minus) { return minus ? -size : size; }

static void join(struct box *box, int64_t x0, int64_t x1, int64_t y0, int64_t y1) {
  if (!box->has) *box = (struct box){1, x0, x1, y0, y1};
  if (x0 < box->x0) box->x0 = x0;
  if (x1 > box->x1) box->x1 = x1;
  if (y0 < box->y0) box->y0 = y0;
  if (y1 > box->y1) box->y1 = y1;
}

// a draw by these sizes; answers whether it may stand in a shape
static int draw(struct walk *w, int local, int x, int y, int lit) {
  struct place *p = &w->place;
  if (w->scale == ANY) {
    p->kind = LOST;
    return !lit;
  }
  if (lit && p->kind == LOST) return 0;
  int64_t to_x = p->x + displacement(x, local, w->scale), to_y = p->y + displacement(y, local, w->scale);
  if (lit && p->kind == REL) {
    join(&w->box, p->x, p->x, p->y, p->y);
    join(&w->box, to_x, to_x, to_y, to_y);
  }
  p->x = to_x;
  p->y = to_y;
  return 1;
}

// a call, or with tail a jump, of what has this entry
static int pass(struct walk *w, const struct entry *e, int tail) {
  struct place *p = &w->place;
  if (p->kind == LOST && e->box.has) return 0;
  if (p->kind == REL && e->box.has)
    join(&w->box, p->x + e->box.x0, p->x + e->box.x1, p->y + e->box.y0, p->y + e->box.y1);
  if (e->end.kind != REL)
    *p = e->end;
  else if (p->kind != LOST) {
    p->x += e->end.x;
    p->y += e->end.y;
  }
  int depth = e->depth + !tail;
  if (depth > w->depth) w->depth = depth;
  w->words += e->words;
  w->scale = e->scale;
  return w->depth <= 3 && w->words <= 100000;
}

static const struct entry *asked(int addr, int scale);

// takes the item at this place of a shape; answers the place behind it, 0 after the last, -1 where it may not stand there
static int take(struct walk *w, int at) {
  if (at < first || at >= first + length) return -1;
  int word = rom[at - first], op = word >> 12;
  if (op <= 10) {
    if (at + 1 >= first + length) return -1;
    int next = rom[at + 1 - first];
    w->words += 2;
    if (op < 10)
      return draw(w, op, with_sign(next & 0x3FF, next & 0x400), with_sign(word & 0x3FF, word & 0x400), next >> 12) ? at + 2 : -1;
    if ((word | next) & 0xC00) return -1;
    w->place = (struct place){ABS, (next & 0x3FF) * 1024, (word & 0x3FF) * 1024};
    w->scale = next >> 12;
    return at + 2;
  }
  w->words += 1;
  if (op == 15) {
    int local = 2 + (word >> 11 & 1) + 2 * (word >> 3 & 1);
    int x = with_sign(256 * (word & 3), word & 4), y = with_sign(256 * (word >> 8 & 3), word & 0x400);
    return draw(w, local, x, y, word >> 4 & 15) ? at + 1 : -1;
  }
  if (op == 13) return 0;
  if (op == 11) return -1;
  const struct entry *e = asked(word & 0xFFF, w->scale);
  if (!e || !pass(w, e, op == 14)) return -1;
  return op == 14 ? 0 : at + 1;
}

// claims more than is needed
static void loosen(struct entry *e) {
  if (one_in(2)) e->words += from_to(0, 9);
  if (one_in(2) && e->depth < 3) e->depth += from_to(0, 3 - e->depth);
  if (one_in(2) && e->box.has) {
    e->box.x0 -= from_to(0, 20000);
    e->box.x1 += from_to(0, 20000);
    e->box.y0 -= from_to(0, 20000);
    e->box.y1 += from_to(0, 20000);
  }
  if (one_in(12)) join(&e->box, from_to(-3000, 0), from_to(0, 3000), 0, from_to(0, 3000));
}

// the entry at an address and key, made where it was not yet; null where it can't be
static const struct entry *entry_at(int addr, int key) {
  if (addr < first || addr >= first + length) return NULL;
  struct entry *e = &entries[addr - first][key];
  if (e->state == NEW) {
    struct walk w = {.place = {REL, 0, 0}, .scale = key};
    int at = addr;
    e->state = MAKING;
    while (at > 0) at = take(&w, at);
    *e = (struct entry){at < 0 ? IMPOSSIBLE : MADE, w.place, w.box, w.depth, w.words, w.scale};
    loosen(e);
  }
  return e->state == MADE ? e : NULL;
}

// the entry that a call at this scale is to name
static const struct entry *asked(int addr, int scale) {
  if (addr < first || addr >= first + length) return NULL;
  if (scale == ANY) return entry_at(addr, ANY);
  if (chosen[addr - first][scale] == OPEN) {
    int shared = from_to(0, 9) < sharing;
    if (!entry_at(addr, shared ? ANY : scale)) shared = !shared;
    chosen[addr - first][scale] = shared ? SHARED : NUMBERED;
  }
  return entry_at(addr, chosen[addr - first][scale] == SHARED ? ANY : scale);
}

// makes what a frame calls
static void serve(int count) {
  int scale = ANY;
  for (int at = 0; at < count; at++) {
    int word = frame[at], op = word >> 12;
    if (op == 11 || op == 13) return;
    if (op == 10 && at + 1 < count) scale = frame[at + 1] >> 12;
    if (op <= 10) at++;
    if (op == 14) {
      if ((word & 0xFFF) <= at) return;
      at = (word & 0xFFF) - 1;
    }
    if (op == 12) {
      const struct entry *e = asked(word & 0xFFF, scale);
      scale = e ? e->scale : ANY;
    }
  }
}

// ---- files

static FILE *created(const char *name) {
  FILE *file = fopen(name, "w");
  if (!file) {
    perror(name);
    exit(1);
  }
  return file;
}

static void put_words(const char *name, const uint16_t *words, int count) {
  FILE *file = created(name);
  for (int i = 0; i < count; i++) {
    fputc(words[i] & 255, file);
    fputc(words[i] >> 8, file);
  }
  fclose(file);
}

static void put_key(FILE *file, int key) {
  if (key == ANY)
    fprintf(file, "any");
  else
    fprintf(file, "%d", key);
}

static void put_entry(FILE *file, int addr, int key, const struct entry *e) {
  fprintf(file, "shape %03X ", addr);
  put_key(file, key);
  if (e->end.kind == LOST)
    fprintf(file, " end lost");
  else
    fprintf(file, " end %s %lld %lld", e->end.kind == ABS ? "abs" : "rel", (long long)e->end.x, (long long)e->end.y);
  if (e->box.has)
    fprintf(file, " box %lld %lld %lld %lld", (long long)e->box.x0, (long long)e->box.x1, (long long)e->box.y0, (long long)e->box.y1);
  else
    fprintf(file, " box none");
  fprintf(file, " depth %d words %d scale ", e->depth, e->words);
  put_key(file, e->scale);
  fputc('\n', file);
}

static void put_cert(const char *name) {
  FILE *file = created(name);
  int count = 0;
  if (first == 0x800 && length == 1024)
    fprintf(file, "dvgcert 1\n");
  else
    fprintf(file, "dvgcert 2\nrom %03X %03X\n", first, first + length - 1);
  for (int at = 0; at < length; at++)
    for (int key = 0; key < KEYS; key++)
      if (entries[at][key].state == MADE) {
        put_entry(file, first + at, key, &entries[at][key]);
        count++;
      }
  fprintf(file, "done %d\n", count);
  fclose(file);
}

int main(int argc, char **argv) {
  if (argc != 3) return 2;
  seed = strtoull(argv[1], NULL, 10);
  for (int number = 0; number < atoi(argv[2]); number++) {
    char name[64];
    make_rom();
    start = one_in(5) ? from_to(1, 6) : 0;
    snprintf(name, sizeof name, "%d.rom", number);
    put_words(name, rom, length);
    for (int maker = 0; maker < MAKERS; maker++) {
      memset(entries, 0, sizeof entries);
      memset(chosen, 0, sizeof chosen);
      sharing = 4 * maker;
      for (int n = 0; n < FRAMES; n++) {
        int count = make_frame();
        serve(count);
        snprintf(name, sizeof name, "%d-%c-%d.started", number, 'a' + maker, n);
        put_words(name, frame, count);
        if (start) frame[0] = (uint16_t)chance();
        snprintf(name, sizeof name, "%d-%c-%d.frame", number, 'a' + maker, n);
        put_words(name, frame, count);
      }
      for (int n = from_to(0, 4); n > 0; n--) asked(some_shape(), from_to(0, 16));
      snprintf(name, sizeof name, "%d-%c.cert", number, 'a' + maker);
      put_cert(name);
    }
    printf("%d %03X/%03X %d ", number, first, first + length - 1, one_in(6) ? from_to(1, 60) : 20000);
    if (one_in(4))
      printf("%d,%d,%d,%d", from_to(0, 350), from_to(650, 1023), from_to(0, 350), from_to(650, 1023));
    else
      printf("0,1023,0,1023");
    if (start) printf(" %03X", start);
    printf("\n");
  }
  return 0;
}
