/*
 * Judges frames by certificates, with malloc and its kin counted and refused in turn, and says what is not as it should be.
 * It is linked by tests/c-library, and run in examples/.
 */
#include <pthread.h>
#include <stdio.h>
#include <stdlib.h>
#include <string.h>

#include "dvgcheck.h"

enum { BUDGET = 20000, MOST = 1 << 20, TURNS = 50 };

struct bytes {
    uint8_t at[MOST];
    size_t length;
};

static struct bytes rom, cert, frame, loose, short_rom, crossing_rom, crossing_cert, crossing;

static int failed;

/* ---- memory: how many blocks were taken and given back, and which is refused, by each thread */

void *__real_malloc(size_t size);
void *__real_realloc(void *block, size_t size);
void __real_free(void *block);

static _Thread_local long taken, given, asked, refused;

static int is_refused(void) { return ++asked == refused; }

void *__wrap_malloc(size_t size) {
    if (is_refused()) return NULL;
    taken++;
    return __real_malloc(size);
}

void *__wrap_realloc(void *block, size_t size) {
    if (is_refused()) return NULL;
    taken += block == NULL;
    return __real_realloc(block, size);
}

void __wrap_free(void *block) {
    given += block != NULL;
    __real_free(block);
}

/* ---- what is expected */

static void expect(int line, const char *what, long is, long wanted) {
    if (is == wanted) return;
    printf("FAILED: line %d: %s is %ld, not %ld\n", line, what, is, wanted);
    failed = 1;
}

#define EXPECT(is, wanted) expect(__LINE__, #is, (long)(is), (long)(wanted))

static void read_whole(const char *name, struct bytes *into) {
    FILE *file = fopen(name, "rb");
    if (file == NULL) exit(2);
    into->length = fread(into->at, 1, MOST, file);
    fclose(file);
}

/* ---- the calls */

static const struct dvgcheck_map asteroids = DVGCHECK_ASTEROIDS;

static const struct dvgcheck_window screen = DVGCHECK_SCREEN, zone = DVGCHECK_CLIPPED;

static const struct dvgcheck_window turned = {1, 0, 0, 1023}, wide = {0, 1024, 0, 1023};

static int same(struct dvgcheck_answer a, struct dvgcheck_answer b) {
    return a.number == b.number && a.shapes == b.shapes && a.words == b.words && a.depth == b.depth && a.line == b.line &&
           a.word == b.word && a.shape == b.shape && a.scale == b.scale && a.call == b.call && a.clocks == b.clocks;
}

/* The frame by a certificate, on the profile. */
static struct dvgcheck_answer judge(uint32_t mode, const struct bytes *r, const struct bytes *c, struct dvgcheck_window window) {
    return dvgcheck_frame_by_certificate(DVGCHECK_PROFILE, mode, r->at, r->length, c->at, c->length, frame.at, frame.length, BUDGET,
                                         window);
}

/* So many bytes of the frame by a certificate of its ROM. */
static struct dvgcheck_answer check(uint32_t mode, const struct bytes *c, size_t length, uint32_t budget) {
    return dvgcheck_frame_by_certificate(DVGCHECK_PROFILE, mode, rom.at, rom.length, c->at, c->length, frame.at, length, budget,
                                         screen);
}

static struct dvgcheck_answer bound(size_t length, uint32_t budget) { return check(DVGCHECK_BOUND, &cert, length, budget); }

/* ---- the rows */

/* 82, 87 and 80 come in this order, and before what is wrong with the bytes. */
static void out_of_range(void) {
    static const uint32_t none[] = {2, 256, UINT32_MAX};
    for (size_t i = 0; i < sizeof none / sizeof *none; i++) {
        uint32_t n = none[i];
        EXPECT(dvgcheck_frame_by_certificate(n, n, rom.at, 0, cert.at, 0, frame.at, 0, 0, turned).number, DVGCHECK_BAD_MACHINE);
        EXPECT(dvgcheck_frame_by_certificate(n, 0, rom.at, 0, cert.at, 0, frame.at, 0, 0, screen).number, DVGCHECK_BAD_MACHINE);
        EXPECT(dvgcheck_frame_by_certificate(1, n, rom.at, 0, cert.at, 0, frame.at, 0, 0, turned).number, DVGCHECK_BAD_MODE);
        EXPECT(judge(n, &rom, &cert, screen).number, DVGCHECK_BAD_MODE);
    }
    for (uint32_t machine = DVGCHECK_PROFILE; machine <= DVGCHECK_BOARD; machine++)
        for (uint32_t mode = DVGCHECK_BOUND; mode <= DVGCHECK_EXACT; mode++) {
            struct dvgcheck_answer a =
                dvgcheck_frame_by_certificate(machine, mode, rom.at, 0, cert.at, 0, frame.at, 0, 0, turned);
            EXPECT(a.number, DVGCHECK_BAD_WINDOW);
            a = dvgcheck_frame_by_certificate(machine, mode, rom.at, 0, cert.at, 0, frame.at, 0, 0, wide);
            EXPECT(a.number, DVGCHECK_BAD_WINDOW);
            a = dvgcheck_frame_by_certificate(machine, mode, rom.at, 0, cert.at, 0, frame.at, 0, 0, screen);
            EXPECT(a.number, 2);
        }
    EXPECT(judge(DVGCHECK_BOUND, &rom, &cert, screen).number, 0);
    EXPECT(judge(DVGCHECK_EXACT, &rom, &cert, screen).number, 0);
}

static void refusals(void) {
    struct dvgcheck_answer a = judge(DVGCHECK_BOUND, &short_rom, &cert, screen);
    EXPECT(a.number, 1);
    a = judge(DVGCHECK_BOUND, &rom, &rom, screen);
    EXPECT(a.number, 15);
    EXPECT(a.line, 1);
    a = judge(DVGCHECK_BOUND, &crossing_rom, &cert, screen);
    EXPECT(a.number, 31);
    EXPECT(a.shape, 0x800);
    EXPECT(a.scale, 1);
    EXPECT(a.word, 0x802);
    a = judge(DVGCHECK_BOUND, &rom, &loose, screen);
    EXPECT(a.number, 0);
    EXPECT(a.shapes, 102);
    a = judge(DVGCHECK_EXACT, &rom, &loose, screen);
    EXPECT(a.number, 32);
    EXPECT(a.shape, 0xA17);
    EXPECT(a.scale, DVGCHECK_ANY_SCALE);
    EXPECT(a.word, 0xA5F);
}

static void frames(void) {
    EXPECT(bound(0, BUDGET).number, 2);
    EXPECT(bound(2050, BUDGET).number, 2);
    EXPECT(bound(0, 0).number, 2);
    EXPECT(bound(frame.length, 0).number, 49);
    EXPECT(bound(frame.length, 1000001).number, 49);
    EXPECT(check(DVGCHECK_BOUND, &rom, frame.length, 0).number, 49);
    struct dvgcheck_answer a = bound(frame.length, 551);
    EXPECT(a.number, 0);
    EXPECT(a.shapes, 102);
    EXPECT(a.words, 551);
    EXPECT(a.depth, 2);
    EXPECT(bound(frame.length, 550).number, 48);
}

/*
 * A certificate whose counts are exact gets the same answer in either mode, and where it gets a frame accepted, so does the ROM alone,
 * with no more words or depth.
 */
static void compare(size_t length) {
    struct dvgcheck_answer a = bound(length, BUDGET);
    EXPECT(same(a, check(DVGCHECK_EXACT, &cert, length, BUDGET)), 1);
    if (a.number != 0) return;
    struct dvgcheck_answer alone =
        dvgcheck_frame_alone(DVGCHECK_PROFILE, rom.at, rom.length, asteroids, frame.at, length, BUDGET, screen);
    EXPECT(alone.number, 0);
    EXPECT(alone.words <= a.words, 1);
    EXPECT(alone.depth <= a.depth, 1);
}

/* Each beginning of the frame, and the frame with each byte turned. */
static void agree(void) {
    for (size_t length = 0; length <= frame.length; length++) compare(length);
    for (size_t i = 0; i < frame.length; i++) {
        frame.at[i] ^= 0xFF;
        compare(frame.length);
        frame.at[i] ^= 0xFF;
    }
}

/* ---- the machines: a shape of two draws up by half a place each, its certificates for both, and a frame that calls it near the top */

static const uint8_t half_frame[] = {0xFE, 0xA3, 0, 0, 0, 0xC8, 0, 0xB0}; /* A3FE 0000 C800 B000 */

static uint8_t half_rom[2048] = {0, 1, 0, 0x70, 0, 1, 0, 0x70, 0, 0xD0}; /* 0100 7000 0100 7000 D000 at 800 */

static const char *const half_certs[] = {
    "dvgcert 1\nshape 800 0 end rel 0 1024 box 0 0 0 1024 depth 0 words 5 scale 0\ndone 1\n",
    "dvgcert 1\nshape 800 0 end rel 0 2048 box 0 0 0 2048 depth 0 words 5 scale 0\ndone 1\n",
};

/* On a machine, by the certificate for that of this number; the same in either mode. */
static struct dvgcheck_answer half_check(uint32_t machine, int by) {
    const uint8_t *c = (const uint8_t *)half_certs[by];
    struct dvgcheck_answer answers[2];
    for (uint32_t mode = DVGCHECK_BOUND; mode <= DVGCHECK_EXACT; mode++)
        answers[mode] = dvgcheck_frame_by_certificate(machine, mode, half_rom, sizeof half_rom, c, strlen(half_certs[by]), half_frame,
                                                      sizeof half_frame, BUDGET, screen);
    EXPECT(same(answers[0], answers[1]), 1);
    return answers[0];
}

static void machines(void) {
    struct dvgcheck_answer a = half_check(DVGCHECK_PROFILE, DVGCHECK_PROFILE);
    EXPECT(a.number, 0);
    EXPECT(a.words, 9);
    a = half_check(DVGCHECK_BOARD, DVGCHECK_BOARD);
    EXPECT(a.number, 46);
    EXPECT(a.word, 2);
    a = half_check(DVGCHECK_BOARD, DVGCHECK_PROFILE);
    EXPECT(a.number, 31);
    EXPECT(a.word, 0x802);
    a = half_check(DVGCHECK_PROFILE, DVGCHECK_BOARD);
    EXPECT(a.number, 29);
    EXPECT(a.word, 0x804);
    EXPECT(half_check(2, DVGCHECK_BOARD).number, DVGCHECK_BAD_MACHINE);
    EXPECT(half_check(UINT32_MAX, DVGCHECK_BOARD).number, DVGCHECK_BAD_MACHINE);
}

/* ---- the zone that a board clips: a frame with a rock one place past the screen's left edge, and one stroke near the zone's */

/* What only looks like the zone: one of its ends one place off, one of its axes alone, its ends turned, more of what is around it. */
static const struct dvgcheck_window not_zones[] = {
    {-1025, 2047, -1024, 2047}, {-1023, 2047, -1024, 2047}, {-1024, 2046, -1024, 2047}, {-1024, 2048, -1024, 2047},
    {-1024, 2047, -1025, 2047}, {-1024, 2047, -1023, 2047}, {-1024, 2047, -1024, 2046}, {-1024, 2047, -1024, 2048},
    {-1024, 2047, 0, 1023},     {0, 1023, -1024, 2047},     {2047, -1024, 2047, -1024}, {-32768, 32767, -32768, 32767},
    {-1, 1023, 0, 1023},        {0, 1023, -1, 1023},        {-1, -1, -1, -1},           {0, 1023, 0, 1024},
};

static struct dvgcheck_answer crossing_check(uint32_t machine, struct dvgcheck_window window) {
    struct dvgcheck_answer answers[2];
    for (uint32_t mode = DVGCHECK_BOUND; mode <= DVGCHECK_EXACT; mode++)
        answers[mode] =
            dvgcheck_frame_by_certificate(machine, mode, crossing_rom.at, crossing_rom.length, crossing_cert.at, crossing_cert.length,
                                          crossing.at, crossing.length, BUDGET, window);
    EXPECT(same(answers[0], answers[1]), 1);
    return answers[0];
}

/* A064 0C01 9000 740n B000: from -1023, 100 a stroke by n places to the left, over no shapes; the zone ends at -1024. */
static struct dvgcheck_answer stroke_check(uint8_t n) {
    const uint8_t stroke[] = {0x64, 0xA0, 0x01, 0x0C, 0, 0x90, n, 0x74, 0, 0xB0};
    static const char none[] = "dvgcert 1\ndone 0\n";
    return dvgcheck_frame_by_certificate(DVGCHECK_BOARD, DVGCHECK_BOUND, half_rom, sizeof half_rom, (const uint8_t *)none,
                                         strlen(none), stroke, sizeof stroke, BUDGET, zone);
}

static void clipped(void) {
    struct dvgcheck_answer a = crossing_check(DVGCHECK_BOARD, zone);
    EXPECT(a.number, 0);
    EXPECT(a.shapes, 10);
    EXPECT(a.words, 130);
    EXPECT(a.depth, 2);
    a = crossing_check(DVGCHECK_BOARD, screen);
    EXPECT(a.number, 46);
    EXPECT(a.word, 7);

    EXPECT(stroke_check(1).number, 0);
    a = stroke_check(2);
    EXPECT(a.number, 46);
    EXPECT(a.word, 2);

    EXPECT(crossing_check(DVGCHECK_PROFILE, zone).number, DVGCHECK_BAD_WINDOW);
    EXPECT(crossing_check(2, zone).number, DVGCHECK_BAD_MACHINE);
    EXPECT(judge(DVGCHECK_BOUND, &rom, &cert, zone).number, DVGCHECK_BAD_WINDOW);
    EXPECT(judge(DVGCHECK_EXACT, &rom, &cert, zone).number, DVGCHECK_BAD_WINDOW);
    for (size_t i = 0; i < sizeof not_zones / sizeof *not_zones; i++)
        for (uint32_t machine = DVGCHECK_PROFILE; machine <= DVGCHECK_BOARD; machine++)
            EXPECT(crossing_check(machine, not_zones[i]).number, DVGCHECK_BAD_WINDOW);
}

/* ---- memory, and threads */

static void memory(void) {
    EXPECT(taken, given);
    for (uint32_t mode = DVGCHECK_BOUND; mode <= DVGCHECK_EXACT; mode++) {
        struct dvgcheck_answer a = {.number = 1};
        for (refused = 1; a.number != 0; refused++) {
            asked = 0;
            a = check(mode, &cert, frame.length, BUDGET);
            if (a.number != 0 && a.number != 50) EXPECT(a.number, 16);
            EXPECT(taken, given);
        }
        refused = 0;
    }
    asked = 0;
    EXPECT(judge(2, &rom, &cert, screen).number, DVGCHECK_BAD_MODE);
    EXPECT(bound(0, BUDGET).number, 2);
    EXPECT(asked, 0);
}

/* Judges the frame many times; answers its argument where an answer is not what it is without threads, else null. */
static void *run(void *wrong) {
    for (int i = 0; i < TURNS; i++) {
        struct dvgcheck_answer a = bound(frame.length, 551), b = check(DVGCHECK_EXACT, &loose, frame.length, BUDGET);
        if (a.number != 0 || a.words != 551 || a.depth != 2 || b.number != 32 || taken != given) return wrong;
    }
    return NULL;
}

static void at_once(void) {
    pthread_t threads[2];
    for (int i = 0; i < 2; i++)
        if (pthread_create(&threads[i], NULL, run, &failed) != 0) exit(2);
    for (int i = 0; i < 2; i++) {
        void *wrong;
        pthread_join(threads[i], &wrong);
        EXPECT(wrong == NULL, 1);
    }
}

/* The word is the name of arcade.cert with one word too many in its last entry. */
int main(int count, char **words) {
    if (count != 2) return 2;
    read_whole("arcade.rom", &rom);
    read_whole("arcade.cert", &cert);
    read_whole("game.frame", &frame);
    read_whole("lower.rom", &short_rom);
    read_whole("homebrew.rom", &crossing_rom);
    read_whole("homebrew.cert", &crossing_cert);
    read_whole("homebrew-too-far.frame", &crossing);
    read_whole(words[1], &loose);
    taken = given = 0;
    out_of_range();
    refusals();
    frames();
    agree();
    machines();
    clipped();
    memory();
    at_once();
    return failed;
}
