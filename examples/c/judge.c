/*
 * Judges frames by a certificate of their vector ROM, and then the last one a thousand times, by the certificate and from the ROM
 * alone, and says how long that took:
 *
 *     judge ROM CERT FRAME..
 */
#include <stdio.h>
#include <time.h>

#include "dvgcheck.h"

enum { MACHINE = DVGCHECK_PROFILE, TIMES = 1000, BUDGET = 20000, MOST_ROM = 4097, MOST_CERT = 819801, MOST_FRAME = 2049 };

/* What was read of a file. */
struct file {
    uint8_t *at;
    size_t most, length;
};

static uint8_t rom_bytes[MOST_ROM], cert_bytes[MOST_CERT], frame_bytes[MOST_FRAME];

static struct file rom = {rom_bytes, MOST_ROM, 0}, cert = {cert_bytes, MOST_CERT, 0}, frame = {frame_bytes, MOST_FRAME, 0};

static const struct dvgcheck_map map = DVGCHECK_ASTEROIDS;

static const struct dvgcheck_window screen = DVGCHECK_SCREEN;

/* Reads a file to its limit, which is one more than a good file has; 0 where it can't be read. */
static int read_file(const char *name, struct file *into) {
    FILE *file = fopen(name, "rb");
    int is_read = file != NULL;
    if (is_read) {
        into->length = fread(into->at, 1, into->most, file);
        is_read = !ferror(file);
        fclose(file);
    }
    if (!is_read) fprintf(stderr, "judge: cannot read %s\n", name);
    return is_read;
}

static struct dvgcheck_answer by_certificate(void) {
    return dvgcheck_frame_by_certificate(MACHINE, DVGCHECK_BOUND, rom.at, rom.length, cert.at, cert.length, frame.at, frame.length,
                                         BUDGET, screen);
}

static struct dvgcheck_answer alone(void) {
    return dvgcheck_frame_alone(MACHINE, rom.at, rom.length, map, frame.at, frame.length, BUDGET, screen);
}

static void say(const char *name, struct dvgcheck_answer a) {
    printf("%s: ", name);
    if (a.number == DVGCHECK_ACCEPTED)
        printf("accepted shapes=%u words=%u depth=%u\n", (unsigned)a.shapes, (unsigned)a.words, a.depth);
    else if (a.number >= 10 && a.number <= 16)
        printf("refused %u certificate line %u\n", a.number, (unsigned)a.line);
    else if (a.number >= 20 && a.number <= 33 && a.scale == DVGCHECK_ANY_SCALE)
        printf("refused %u shape %03X/any at %03X\n", a.number, a.shape, a.word);
    else if (a.number >= 20 && a.number <= 33)
        printf("refused %u shape %03X/%u at %03X\n", a.number, a.shape, a.scale, a.word);
    else if (a.number >= 40 && a.number <= 48)
        printf("refused %u frame at %03X\n", a.number, a.word);
    else
        printf("refused %u\n", a.number);
}

/* Whether a number is about the frame, and not about the ROM or the certificate. */
static int is_of_frame(uint8_t number) { return number == DVGCHECK_ACCEPTED || number == 2 || (number >= 40 && number <= 48); }

/* How long a call takes, in microseconds. */
static void time_call(const char *what, struct dvgcheck_answer (*call)(void)) {
    clock_t from = clock();
    for (int i = 0; i < TIMES; i++) call();
    printf("%d times %s: %.1f microseconds each\n", TIMES, what, 1e6 * (double)(clock() - from) / CLOCKS_PER_SEC / TIMES);
}

int main(int count, char **words) {
    if (count < 4) {
        fprintf(stderr, "usage: judge ROM CERT FRAME..\n");
        return 2;
    }
    if (!read_file(words[1], &rom) || !read_file(words[2], &cert)) return 2;
    struct dvgcheck_answer answer = {0};
    for (int i = 3; i < count; i++) {
        if (!read_file(words[i], &frame)) return 2;
        answer = by_certificate();
        if (!is_of_frame(answer.number)) {
            say(words[2], answer);
            return 1;
        }
        say(words[i], answer);
    }
    time_call("by the certificate", by_certificate);
    time_call("from the ROM alone", alone);
    return answer.number != DVGCHECK_ACCEPTED;
}
