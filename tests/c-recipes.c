/*
 * Calls the functions of dvgcheck.h that take a recipe, and says what is not as it should be. The line of an answer, as the program
 * writes it behind a name, goes to standard output, and the frame that shows why to the file that is named. It is linked by
 * tests/c-recipes, with malloc and its kin counted and refused in turn.
 *
 *     recipes recipe ROM FIRST LAST RECIPE BUDGET WINDOW FRAME
 *     recipes belongs ROM FIRST LAST RECIPE FRAME
 *
 * WINDOW is screen, clip or part, which is {10, 20, 30, 40}.
 */
#include <pthread.h>
#include <stdio.h>
#include <stdlib.h>
#include <string.h>

#include "dvgcheck.h"

/* Each field stands where the library has it: users name fields, or give them by their order. */
#define STANDS(field, place) _Static_assert(offsetof(struct dvgcheck_recipe_answer, field) == (place), "as the library has it")

STANDS(length, 0);
STANDS(shapes, sizeof(size_t));
STANDS(words, sizeof(size_t) + 4);
STANDS(line, sizeof(size_t) + 8);
STANDS(word, sizeof(size_t) + 12);
STANDS(shape, sizeof(size_t) + 14);
STANDS(scale, sizeof(size_t) + 16);
STANDS(depth, sizeof(size_t) + 17);
STANDS(number, sizeof(size_t) + 18);
STANDS(witness, sizeof(size_t) + 19);
_Static_assert(sizeof(struct dvgcheck_recipe_answer) == 2 * sizeof(size_t) + 16, "as the library has it");

enum { MOST = 1 << 20, MOST_FRAME = 2048, UNTOUCHED = 0xA5, TURNS = 20 };

struct bytes {
    uint8_t at[MOST];
    size_t length;
};

/* A recipe over a ROM, and a frame that may be one of it. */
struct given {
    uint32_t budget;
    struct dvgcheck_window window;
    struct dvgcheck_map map;
    struct bytes rom, recipe, frame;
};

static int failed;

static void expect(int line, const char *what, long is, long wanted) {
    if (is == wanted) return;
    fprintf(stderr, "FAILED: line %d: %s is %ld, not %ld\n", line, what, is, wanted);
    failed = 1;
}

#define EXPECT(is, wanted) expect(__LINE__, #is, (long)(is), (long)(wanted))

/* ---- memory: how many blocks were taken and given back, and which is refused, by each thread */

void *__real_malloc(size_t size);
void *__real_realloc(void *block, size_t size);
void __real_free(void *block);

static _Thread_local long taken, given_back, asked, refused;

static int is_refused(void) { return ++asked == refused; }

void *__wrap_malloc(size_t size) {
    if (is_refused()) return NULL;
    taken++;
    return __real_malloc(size);
}

void *__wrap_realloc(void *block, size_t size) {
    if (is_refused()) return NULL;
    taken += block == NULL;
    return __real_realloc(block, size);
}

void __wrap_free(void *block) {
    given_back += block != NULL;
    __real_free(block);
}

/* ---- the calls */

static struct dvgcheck_recipe_answer judge(const struct given *g, uint8_t *frame, size_t size) {
    return dvgcheck_recipe(g->rom.at, g->rom.length, g->map, g->recipe.at, g->recipe.length, g->budget, g->window, frame, size);
}

static struct dvgcheck_recipe_answer belongs(const struct given *g, const uint8_t *frame, size_t length) {
    return dvgcheck_belongs(g->rom.at, g->rom.length, g->map, g->recipe.at, g->recipe.length, frame, length);
}

static int same(struct dvgcheck_recipe_answer a, struct dvgcheck_recipe_answer b) {
    return a.length == b.length && a.shapes == b.shapes && a.words == b.words && a.line == b.line && a.word == b.word &&
           a.shape == b.shape && a.scale == b.scale && a.depth == b.depth && a.number == b.number && a.witness == b.witness;
}

static uint8_t shown[MOST_FRAME + 1];

static int is_untouched(size_t from) {
    for (size_t i = from; i < sizeof shown; i++)
        if (shown[i] != UNTOUCHED) return 0;
    return 1;
}

/* ---- the line of an answer; each field that its number does not speak of is 0 */

static void tell_recipe(struct dvgcheck_recipe_answer a) {
    struct dvgcheck_recipe_answer told = {.length = a.length, .number = a.number};
    if (a.number == 0) {
        told.shapes = a.shapes, told.words = a.words, told.depth = a.depth;
        printf("accepted shapes=%u words=%u depth=%u\n", (unsigned)a.shapes, (unsigned)a.words, a.depth);
    } else if (a.number == 25) {
        told.shape = a.shape, told.scale = a.scale, told.word = a.word;
        printf("refused 25 shape %03X/", a.shape);
        if (a.scale == DVGCHECK_ANY_SCALE) printf("any");
        else printf("%u", a.scale);
        printf(" at %03X\n", a.word);
    } else if (a.number == 60) {
        told.word = a.word, told.line = a.line;
        printf("refused 60 at %03X for recipe line %u\n", a.word, (unsigned)a.line);
    } else if (a.number == 61 || a.number == 62) {
        told.line = a.line;
        printf("refused %u for recipe line %u\n", a.number, (unsigned)a.line);
    } else if (a.number == 1 || a.number == 49) {
        printf("refused %u\n", a.number);
    } else {
        told.line = a.line;
        printf("refused %u recipe line %u\n", a.number, (unsigned)a.line);
    }
    EXPECT(same(a, told), 1);
}

static void tell_frame(struct dvgcheck_recipe_answer a) {
    struct dvgcheck_recipe_answer told = {.number = a.number};
    if (a.number == 0) {
        printf("belongs\n");
    } else if (a.number == 2) {
        printf("refused 2\n");
    } else if (a.number == DVGCHECK_OUTSIDE) {
        told.word = a.word;
        printf("outside at %03X\n", a.word);
    } else {
        tell_recipe(a);
        return;
    }
    EXPECT(same(a, told), 1);
}

/* ---- the frame that shows why: in a buffer that is just long enough; one that is a byte shorter, and none, are left as they are */

static struct dvgcheck_recipe_answer show(const struct given *g) {
    memset(shown, UNTOUCHED, sizeof shown);
    struct dvgcheck_recipe_answer none = judge(g, shown, 0), a = judge(g, shown, sizeof shown);
    size_t length = a.length;
    EXPECT(a.witness, 0);
    EXPECT(is_untouched(length), 1);
    if (length == 0) {
        EXPECT(same(none, a), 1);
        return a;
    }
    memset(shown, UNTOUCHED, sizeof shown);
    struct dvgcheck_recipe_answer shorter = judge(g, shown, length - 1);
    EXPECT(is_untouched(0), 1);
    EXPECT(none.witness, DVGCHECK_SHORT_BUFFER);
    EXPECT(same(none, shorter), 1);
    none.witness = 0;
    EXPECT(same(none, a), 1);
    EXPECT(same(judge(g, shown, length), a), 1);
    EXPECT(is_untouched(length), 1);
    EXPECT(length <= MOST_FRAME, 1);
    EXPECT(belongs(g, shown, length).number, 0);
    struct dvgcheck_answer alone = dvgcheck_frame_alone(DVGCHECK_BOARD, g->rom.at, g->rom.length, g->map, shown, length, g->budget,
                                                        g->window);
    EXPECT(alone.number, a.number);
    return a;
}

/*
 * ---- each allocation is refused in turn, or a thousand of more: that is told by these numbers alone, nothing is written but a whole frame,
 * and all is given back
 */

enum { MOST_REFUSED = 1000 };

/* By how many to go on from one allocation that is refused to the next, where so many are asked for. */
static long step_of(long count) { return 1 + count / MOST_REFUSED; }

static void refuse_memory(const struct given *g, struct dvgcheck_recipe_answer wanted) {
    long texts = 0, judgements = 0, witnesses = 0;
    asked = taken = given_back = 0;
    EXPECT(same(judge(g, shown, sizeof shown), wanted), 1);
    long count = asked, step = step_of(count);
    for (refused = 1; refused <= count; refused += step) {
        asked = 0;
        memset(shown, UNTOUCHED, sizeof shown);
        struct dvgcheck_recipe_answer a = judge(g, shown, sizeof shown);
        EXPECT(taken, given_back);
        EXPECT(is_untouched(a.length), 1);
        texts += a.number == 56 && a.line > 0;
        judgements += a.number == 63;
        witnesses += a.witness == DVGCHECK_NO_MEMORY;
        if (a.number == 56 || a.number == 63) EXPECT(a.witness + a.length, 0);
        else EXPECT(a.number, wanted.number);
        if (failed) exit(failed);
    }
    refused = 0;
    EXPECT(same(judge(g, shown, sizeof shown), wanted), 1);
    if (wanted.number < 49 && wanted.number != 1) EXPECT(texts > 0 && judgements > 0, 1);
    if (wanted.length > 0) EXPECT(witnesses > 0, 1);
}

static void refuse_frame_memory(const struct given *g, struct dvgcheck_recipe_answer wanted) {
    asked = taken = given_back = 0;
    EXPECT(same(belongs(g, g->frame.at, g->frame.length), wanted), 1);
    long count = asked, step = step_of(count);
    for (refused = 1; refused <= count; refused += step) {
        asked = 0;
        struct dvgcheck_recipe_answer a = belongs(g, g->frame.at, g->frame.length);
        EXPECT(taken, given_back);
        if (a.number != 56 && a.number != 63) EXPECT(same(a, wanted), 1);
        if (failed) exit(failed);
    }
    refused = 0;
}

/* ---- two threads at once */

struct thread {
    const struct given *given;
    struct dvgcheck_recipe_answer wanted;
    int is_of_frame, right;
};

static int is_shown_again(const struct given *g, struct dvgcheck_recipe_answer wanted) {
    uint8_t *buffer = malloc(wanted.length + 1);
    if (buffer == NULL) return 0;
    int right = same(judge(g, buffer, wanted.length), wanted) && memcmp(buffer, shown, wanted.length) == 0;
    free(buffer);
    return right;
}

static void *run(void *argument) {
    struct thread *t = argument;
    t->right = 1;
    for (int i = 0; i < TURNS && t->right; i++)
        t->right = t->is_of_frame ? same(belongs(t->given, t->given->frame.at, t->given->frame.length), t->wanted)
                                  : is_shown_again(t->given, t->wanted);
    return NULL;
}

static void at_once(const struct given *g, struct dvgcheck_recipe_answer wanted, int is_of_frame) {
    struct thread threads[2];
    pthread_t ids[2];
    for (int i = 0; i < 2; i++) {
        threads[i] = (struct thread){.given = g, .wanted = wanted, .is_of_frame = is_of_frame};
        if (pthread_create(&ids[i], NULL, run, &threads[i]) != 0) exit(2);
    }
    for (int i = 0; i < 2; i++) {
        pthread_join(ids[i], NULL);
        EXPECT(threads[i].right, 1);
    }
}

/* ---- the words */

static void read_whole(const char *name, struct bytes *into) {
    FILE *file = fopen(name, "rb");
    if (file == NULL) exit(2);
    into->length = fread(into->at, 1, MOST, file);
    fclose(file);
}

static const struct dvgcheck_window screen = DVGCHECK_SCREEN, zone = DVGCHECK_CLIPPED, part = {10, 20, 30, 40};

static struct dvgcheck_window window_of(const char *word) {
    if (strcmp(word, "clip") == 0) return zone;
    return strcmp(word, "part") == 0 ? part : screen;
}

static void expect_alone(struct dvgcheck_recipe_answer a, uint8_t number) {
    EXPECT(same(a, (struct dvgcheck_recipe_answer){.number = number}), 1);
}

/* 83 comes before 80, and both before all else. */
static void out_of_range(struct given *g) {
    static const struct dvgcheck_map maps[] = {{0x3FF, 0xBFF}, {0x800, 0xC00}, {0x801, 0x800}, {0, 0xFFFF}};
    static const struct dvgcheck_window windows[] = {{1, 0, 0, 1023}, {0, 1024, 0, 1023}, {-1, 1023, 0, 1023}, {-1024, 2047, -1024, 2048}};
    struct dvgcheck_map map = g->map;
    struct dvgcheck_window window = g->window;
    memset(shown, UNTOUCHED, sizeof shown);
    for (size_t i = 0; i < sizeof windows / sizeof *windows; i++) {
        g->window = windows[i];
        expect_alone(judge(g, shown, sizeof shown), DVGCHECK_BAD_WINDOW);
    }
    for (size_t i = 0; i < sizeof maps / sizeof *maps; i++) {
        g->map = maps[i];
        expect_alone(judge(g, shown, sizeof shown), DVGCHECK_BAD_MAP);
        expect_alone(belongs(g, g->frame.at, g->frame.length), DVGCHECK_BAD_MAP);
    }
    EXPECT(is_untouched(0), 1);
    g->map = map;
    g->window = window;
}

static void read_given(struct given *g, char **words) {
    read_whole(words[0], &g->rom);
    g->map.first = (uint16_t)strtoul(words[1], NULL, 16);
    g->map.last = (uint16_t)strtoul(words[2], NULL, 16);
    read_whole(words[3], &g->recipe);
}

static int recipe(char **words) {
    static struct given g;
    read_given(&g, words);
    g.budget = (uint32_t)atol(words[4]);
    g.window = window_of(words[5]);
    out_of_range(&g);
    struct dvgcheck_recipe_answer a = show(&g);
    tell_recipe(a);
    at_once(&g, a, 0);
    refuse_memory(&g, a);
    if (a.length == 0) return failed;
    FILE *file = fopen(words[6], "wb");
    if (file == NULL) exit(2);
    fwrite(shown, 1, a.length, file);
    fclose(file);
    return failed;
}

static int member(char **words) {
    static struct given g;
    read_given(&g, words);
    read_whole(words[4], &g.frame);
    struct dvgcheck_recipe_answer a = belongs(&g, g.frame.at, g.frame.length);
    tell_frame(a);
    at_once(&g, a, 1);
    refuse_frame_memory(&g, a);
    return failed;
}

int main(int count, char **words) {
    if (count == 9 && strcmp(words[1], "recipe") == 0) return recipe(words + 2);
    if (count == 7 && strcmp(words[1], "belongs") == 0) return member(words + 2);
    return 2;
}
