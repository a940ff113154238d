/*
 * Calls the functions of dvgcheck.h that take no certificate, and says what is not as it should be; the text that the first line of
 * `main` names goes to standard output. It is linked by tests/c-texts, with malloc and its kin counted and refused in turn.
 *
 *     texts account MACHINE WINDOW ROM FIRST LAST BUDGET FRAME
 *     texts make MACHINE ROM FIRST LAST [ROOT SCALE].. -- FRAME..
 *     texts version
 *
 * WINDOW is screen, clip or part, which is {10, 20, 30, 40}.
 */
#include <pthread.h>
#include <stdio.h>
#include <stdlib.h>
#include <string.h>

#include "dvgcheck.h"

/* Each field stands where the library has it: users name fields, or give them by their order. */
#define STANDS(name, field, place) _Static_assert(offsetof(struct dvgcheck_##name, field) == (place), "as the library has it")
#define TAKES(name, size) _Static_assert(sizeof(struct dvgcheck_##name) == (size), "as the library has it")

STANDS(window, x_min, 0);
STANDS(window, x_max, 2);
STANDS(window, y_min, 4);
STANDS(window, y_max, 6);
TAKES(window, 8);
STANDS(map, first, 0);
STANDS(map, last, 2);
TAKES(map, 4);
STANDS(root, address, 0);
STANDS(root, scale, 2);
TAKES(root, 4);
STANDS(answer, clocks, 0);
STANDS(answer, shapes, 8);
STANDS(answer, words, 12);
STANDS(answer, line, 16);
STANDS(answer, word, 20);
STANDS(answer, shape, 22);
STANDS(answer, scale, 24);
STANDS(answer, depth, 25);
STANDS(answer, number, 26);
STANDS(answer, call, 28);
TAKES(answer, 32);
STANDS(text, length, 0);
STANDS(text, frame, sizeof(size_t));
STANDS(text, answer, 2 * sizeof(size_t));
STANDS(text, number, 2 * sizeof(size_t) + 32);

enum { MOST = 4097, MOST_TEXT = 1 << 20, MOST_FRAMES = 16, UNTOUCHED = 0xA5, TURNS = 50 };

struct bytes {
    uint8_t at[MOST];
    size_t length;
};

/* What is judged. */
struct judged {
    uint32_t machine, budget;
    struct dvgcheck_window window;
    struct dvgcheck_map map;
    struct bytes rom, frame;
};

/* What is made. */
struct made {
    uint32_t machine;
    struct dvgcheck_map map;
    struct bytes rom;
    struct dvgcheck_root roots[MOST_FRAMES];
    uint8_t frames[MOST_FRAMES * MOST];
    uint32_t lengths[MOST_FRAMES];
    size_t root_count, frames_length, frame_count;
};

static int failed;

static void expect(int line, const char *what, long is, long wanted) {
    if (is == wanted) return;
    fprintf(stderr, "FAILED: line %d: %s is %ld, not %ld\n", line, what, is, wanted);
    failed = 1;
}

#define EXPECT(is, wanted) expect(__LINE__, #is, (long)(is), (long)(wanted))

/* ---- memory: how many blocks were taken and given back, and which is refused, by each thread */

void *__real_malloc(size_t size);
void *__real_realloc(void *block, size_t size);
void __real_free(void *block);

static _Thread_local long taken, given, asked, refused;

static int is_refused(void) { return ++asked == refused; }

void *__wrap_malloc(size_t size) {
    if (is_refused()) return NULL;
    taken++;
    return __real_malloc(size);
}

void *__wrap_realloc(void *block, size_t size) {
    if (is_refused()) return NULL;
    taken += block == NULL;
    return __real_realloc(block, size);
}

void __wrap_free(void *block) {
    given += block != NULL;
    __real_free(block);
}

/* ---- the calls */

static struct dvgcheck_answer alone(const struct judged *j) {
    return dvgcheck_frame_alone(j->machine, j->rom.at, j->rom.length, j->map, j->frame.at, j->frame.length, j->budget, j->window);
}

static struct dvgcheck_text explain(const struct judged *j, uint8_t *text, size_t size) {
    return dvgcheck_explain(j->machine, j->rom.at, j->rom.length, j->map, j->frame.at, j->frame.length, j->budget, j->window, text,
                            size);
}

static struct dvgcheck_text make(const struct made *m, uint8_t *text, size_t size) {
    return dvgcheck_make(m->machine, m->rom.at, m->rom.length, m->map, m->roots, m->root_count, m->frames, m->frames_length,
                         m->lengths, m->frame_count, text, size);
}

/* Either of them, so that both are held to the same. */
static struct dvgcheck_text text_of(const struct judged *j, const struct made *m, uint8_t *text, size_t size) {
    return j != NULL ? explain(j, text, size) : make(m, text, size);
}

static int same(struct dvgcheck_answer a, struct dvgcheck_answer b) {
    return a.number == b.number && a.shapes == b.shapes && a.words == b.words && a.depth == b.depth && a.line == b.line &&
           a.word == b.word && a.shape == b.shape && a.scale == b.scale && a.call == b.call;
}

static uint8_t text[MOST_TEXT];

static int is_untouched(size_t size) {
    for (size_t i = 0; i < size; i++)
        if (text[i] != UNTOUCHED) return 0;
    return 1;
}

/* The text, in a buffer that is just long enough; one that is a byte shorter, and none, are left as they are. */
static struct dvgcheck_text write_text(const struct judged *j, const struct made *m) {
    memset(text, UNTOUCHED, sizeof text);
    struct dvgcheck_text t = text_of(j, m, text, 0);
    size_t length = t.length;
    if (t.number != DVGCHECK_SHORT_BUFFER) {
        EXPECT(t.number, t.answer.number);
        EXPECT(length, 0);
        EXPECT(is_untouched(sizeof text), 1);
        return t;
    }
    t = text_of(j, m, text, length - 1);
    EXPECT(t.number, DVGCHECK_SHORT_BUFFER);
    EXPECT(t.length, length);
    EXPECT(is_untouched(sizeof text), 1);
    t = text_of(j, m, text, length);
    EXPECT(t.number, 0);
    EXPECT(t.length, length);
    EXPECT(text[length], UNTOUCHED);
    EXPECT(text[length - 1], '\n');
    return t;
}

/* Each allocation is refused in turn: that is told by these numbers alone, and all is given back. */
static void refuse_memory(const struct judged *j, const struct made *m, uint8_t wanted) {
    struct dvgcheck_text t = {.number = DVGCHECK_NO_MEMORY};
    taken = given = 0;
    for (refused = 1; t.number == DVGCHECK_NO_MEMORY || t.number == 63 || t.answer.number != wanted; refused++) {
        asked = 0;
        t = text_of(j, m, text, sizeof text);
        if (j == NULL && t.number != wanted) EXPECT(t.number, 63);
        if (j != NULL && t.number != 0) EXPECT(t.number, DVGCHECK_NO_MEMORY);
        if (t.answer.number != wanted && t.answer.number != 50) EXPECT(t.answer.number, 63);
        EXPECT(taken, given);
    }
    struct dvgcheck_answer a = {.number = 63};
    for (refused = 1; j != NULL && a.number != wanted; refused++) {
        asked = 0;
        a = alone(j);
        if (a.number != wanted && a.number != 50) EXPECT(a.number, 63);
        EXPECT(taken, given);
    }
    refused = 0;
}

/* ---- two threads at once */

struct thread {
    const struct judged *judged;
    const struct made *made;
    struct dvgcheck_text wanted;
    const uint8_t *text;
    int right;
};

static void *run(void *argument) {
    struct thread *t = argument;
    size_t size = t->wanted.length;
    uint8_t *buffer = malloc(size + 1);
    t->right = buffer != NULL;
    for (int i = 0; i < TURNS && t->right; i++) {
        memset(buffer, 0, size + 1);
        struct dvgcheck_text is = text_of(t->judged, t->made, buffer, size);
        t->right = is.number == t->wanted.number && is.length == size && same(is.answer, t->wanted.answer) &&
                   memcmp(buffer, t->text, size) == 0 && (t->judged == NULL || same(alone(t->judged), is.answer));
    }
    free(buffer);
    return NULL;
}

static void at_once(const struct judged *j, const struct made *m, struct dvgcheck_text wanted) {
    struct thread threads[2];
    pthread_t ids[2];
    for (int i = 0; i < 2; i++) {
        threads[i] = (struct thread){.judged = j, .made = m, .wanted = wanted, .text = text};
        if (pthread_create(&ids[i], NULL, run, &threads[i]) != 0) exit(2);
    }
    for (int i = 0; i < 2; i++) {
        pthread_join(ids[i], NULL);
        EXPECT(threads[i].right, 1);
    }
}

/* ---- the words */

static void read_whole(const char *name, struct bytes *into) {
    FILE *file = fopen(name, "rb");
    if (file == NULL) exit(2);
    into->length = fread(into->at, 1, MOST, file);
    fclose(file);
}

static uint16_t address(const char *word) { return (uint16_t)strtoul(word, NULL, 16); }

static const struct dvgcheck_window screen = DVGCHECK_SCREEN, zone = DVGCHECK_CLIPPED, part = {10, 20, 30, 40};

static const struct dvgcheck_map asteroids = DVGCHECK_ASTEROIDS;

static void initializers(void) {
    const struct dvgcheck_window whole = {.x_min = 0, .x_max = 1023, .y_min = 0, .y_max = 1023};
    const struct dvgcheck_window clipped = {.x_min = -1024, .x_max = 2047, .y_min = -1024, .y_max = 2047};
    EXPECT(memcmp(&screen, &whole, sizeof whole), 0);
    EXPECT(memcmp(&zone, &clipped, sizeof clipped), 0);
    EXPECT(asteroids.first, 0x800);
    EXPECT(asteroids.last, 0xBFF);
}

static struct dvgcheck_window window_of(const char *word) {
    if (strcmp(word, "clip") == 0) return zone;
    return strcmp(word, "part") == 0 ? part : screen;
}

static void out_of_range(struct judged j) {
    struct judged other = j;
    other.machine = 2;
    EXPECT(alone(&other).number, DVGCHECK_BAD_MACHINE);
    EXPECT(explain(&other, text, sizeof text).number, DVGCHECK_BAD_MACHINE);
    other = j;
    other.map.first = 0x3FF;
    EXPECT(alone(&other).number, DVGCHECK_BAD_MAP);
    other.map.first = (uint16_t)(j.map.last + 1);
    EXPECT(explain(&other, text, sizeof text).number, DVGCHECK_BAD_MAP);
    other = j;
    other.window.x_max = 1024;
    EXPECT(alone(&other).number, DVGCHECK_BAD_WINDOW);
    EXPECT(explain(&other, text, sizeof text).answer.number, DVGCHECK_BAD_WINDOW);
    other.window = zone;
    other.machine = DVGCHECK_PROFILE;
    EXPECT(alone(&other).number, DVGCHECK_BAD_WINDOW);
}

static void tell(struct dvgcheck_answer a) {
    fprintf(stderr, "number %u shapes %u words %u depth %u word %03X shape %03X scale %u call %03X\n", a.number, (unsigned)a.shapes,
            (unsigned)a.words, a.depth, a.word, a.shape, a.scale, a.call);
}

static int account(char **words) {
    static struct judged j;
    j.machine = (uint32_t)atoi(words[0]);
    j.window = window_of(words[1]);
    read_whole(words[2], &j.rom);
    j.map.first = address(words[3]);
    j.map.last = address(words[4]);
    j.budget = (uint32_t)atol(words[5]);
    read_whole(words[6], &j.frame);
    out_of_range(j);
    struct dvgcheck_answer answer = alone(&j);
    struct dvgcheck_text t = write_text(&j, NULL);
    EXPECT(t.number, 0);
    EXPECT(same(t.answer, answer), 1);
    at_once(&j, NULL, t);
    refuse_memory(&j, NULL, answer.number);
    fwrite(text, 1, t.length, stdout);
    tell(answer);
    return failed;
}

static int make_of(int count, char **words) {
    static struct made m;
    m.machine = (uint32_t)atoi(words[0]);
    read_whole(words[1], &m.rom);
    m.map.first = address(words[2]);
    m.map.last = address(words[3]);
    int i = 4;
    for (; i < count && strcmp(words[i], "--") != 0; i += 2, m.root_count++) {
        m.roots[m.root_count].address = address(words[i]);
        m.roots[m.root_count].scale = (uint8_t)atoi(words[i + 1]);
    }
    for (i++; i < count; i++, m.frame_count++) {
        static struct bytes frame;
        read_whole(words[i], &frame);
        memcpy(m.frames + m.frames_length, frame.at, frame.length);
        m.frames_length += frame.length;
        m.lengths[m.frame_count] = (uint32_t)frame.length;
    }
    struct dvgcheck_text t = write_text(NULL, &m);
    if (t.number == 0) at_once(NULL, &m, t);
    refuse_memory(NULL, &m, t.answer.number);
    fwrite(text, 1, t.length, stdout);
    fprintf(stderr, "frame %zu ", t.frame);
    tell(t.answer);
    m.lengths[0]++;
    m.frame_count = m.frame_count == 0 ? 1 : m.frame_count;
    EXPECT(make(&m, text, sizeof text).number, DVGCHECK_BAD_LENGTHS);
    m.lengths[0] = 0;
    m.frames_length++;
    EXPECT(make(&m, text, sizeof text).number, DVGCHECK_BAD_LENGTHS);
    m.map.last = 0xC00;
    EXPECT(make(&m, text, sizeof text).number, DVGCHECK_BAD_MAP);
    m.machine = 2;
    EXPECT(make(&m, text, sizeof text).number, DVGCHECK_BAD_MACHINE);
    return failed;
}

int main(int count, char **words) {
    if (count == 9 && strcmp(words[1], "account") == 0) return account(words + 2);
    if (count > 6 && strcmp(words[1], "make") == 0) return make_of(count - 2, words + 2);
    if (count != 2 || strcmp(words[1], "version") != 0) return 2;
    initializers();
    unsigned version = dvgcheck_version();
    EXPECT(version, DVGCHECK_VERSION);
    printf("%u.%u.%u\n", version / 10000, version / 100 % 100, version % 100);
    return failed;
}
