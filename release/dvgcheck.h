/*
 * dvgcheck for C: whether a display list for Atari's Digital Vector Generator is safe.
 *
 * dvgcheck_frame_alone judges a frame from the ROM alone, and dvgcheck_explain tells why it is refused. dvgcheck_make makes the
 * certificate of a ROM's shapes, and dvgcheck_frame_by_certificate judges a frame by such a one. All of them take the machine first:
 * users of a board pass DVGCHECK_BOARD; DVGCHECK_PROFILE is the fixed-point profile (docs/MACHINE.md). dvgcheck_recipe judges all frames
 * of a recipe (docs/RECIPES.md), and dvgcheck_belongs tells whether a frame is one of them; their machine is the board.
 *
 * A ROM and a frame are bytes as the processor sees them, the low byte of each word first; a frame is vector RAM from 4000 on, 2 to
 * 2048 bytes.
 *
 * What the functions answer and write is proved, but for what is called only tested below. It rests on what nothing can test, so it is
 * yours to see to:
 *
 * - A pointer and the length after it are those of so many elements that can be read, and that nothing writes during the call. It is
 *   not null, also where the length is 0.
 * - The bytes of a buffer, `text` or the `frame` of dvgcheck_recipe, have some value, and nothing else reads or writes them during the
 *   call; what else is passed lies outside of it.
 * - The ROM of the machine has the bytes that were judged, where the map or the certificate says.
 * - malloc, realloc and free are those of one allocator, which aligns as the C standard asks. No call is made from a signal
 *   handler, or in the child that a process with threads forked. 64 KiB of the stack are free, 96 KiB for dvgcheck_explain, and
 *   160 KiB for dvgcheck_recipe and dvgcheck_belongs.
 *
 * Any number of threads may call these functions at once, each with a buffer of its own. No function keeps a pointer, or anything
 * else, once it has returned.
 */
#ifndef DVGCHECK_H
#define DVGCHECK_H

#include <stddef.h>
#include <stdint.h>

#ifdef __cplusplus
extern "C" {
#endif

/*
 * The version of this header, 2.0.3: its first number times 10,000, its second times 100, and its third. dvgcheck_version returns
 * that of the library, and `dvgcheck --version` prints that of the program.
 *
 * What went with 2.0.0, and what to call instead:
 *
 * - dvgcheck_judge, dvgcheck_judge_exact, dvgcheck_frame, each also with _on, with `struct dvgcheck_shapes` and DVGCHECK_NO_SHAPES, 81,
 *   which no answer has any more: dvgcheck_frame_alone, which needs no certificate; or dvgcheck_frame_by_certificate.
 * - dvgcheck_check, dvgcheck_check_exact, each also with _on: dvgcheck_frame_by_certificate, which takes the machine, as those with
 *   _on did, and then the mode, DVGCHECK_BOUND or DVGCHECK_EXACT. Those without _on were about DVGCHECK_PROFILE.
 */
#define DVGCHECK_VERSION 20003

/* The ends of where strokes may be lit, in whole screen places: of a part of the screen, 0 to 1023, or those of DVGCHECK_CLIPPED. */
struct dvgcheck_window {
    int16_t x_min, x_max, y_min, y_max;
};

/*
 * The whole screen. Like DVGCHECK_CLIPPED, it is an initializer:
 *
 *     struct dvgcheck_window screen = DVGCHECK_SCREEN;
 */
#define DVGCHECK_SCREEN {0, 1023, 0, 1023}

/*
 * The zone that a board clips: of what is lit in it a board shows just what lies on the screen (docs/MACHINE.md). It is a window of
 * the calls that are passed DVGCHECK_BOARD, and of no other call.
 */
#define DVGCHECK_CLIPPED {-1024, 2047, -1024, 2047}

/* Where a vector ROM lies: the word addresses of its first and of its last word, 0x400 <= first <= last <= 0xBFF. */
struct dvgcheck_map {
    uint16_t first, last;
};

/* The map of Asteroids, an initializer. */
#define DVGCHECK_ASTEROIDS {0x800, 0xBFF}

/*
 * A shape that a certificate is to have: its word address, and the global scale at its calls, 0 to 15, or DVGCHECK_ANY_SCALE. Another
 * scale, or an address outside the ROM, is refused with 60.
 */
struct dvgcheck_root {
    uint16_t address;
    uint8_t scale;
};

/* The numbers of an answer, beside those of the refusals (docs/RULES.md). */
enum {
    DVGCHECK_ACCEPTED = 0,
    DVGCHECK_BAD_WINDOW = 80,   /* the ends are not in order or not on the screen, and not those of DVGCHECK_CLIPPED on the board */
    DVGCHECK_BAD_MACHINE = 82,  /* the number stands for no machine */
    DVGCHECK_BAD_MAP = 83,      /* no ROM can lie there */
    DVGCHECK_SHORT_BUFFER = 84, /* of a text, or of a frame that shows why: the buffer is too short for it */
    DVGCHECK_NO_MEMORY = 85,    /* there was no memory: of dvgcheck_explain for the account, of dvgcheck_recipe to look for a frame */
    DVGCHECK_BAD_LENGTHS = 86,  /* the lengths of the frames don't add up to that of their bytes */
    DVGCHECK_BAD_MODE = 87,     /* the number stands for no mode */
    DVGCHECK_OUTSIDE = 88       /* of dvgcheck_belongs: the frame is none of the recipe's */
};

/* The machines. */
enum {
    DVGCHECK_PROFILE = 0, /* the fixed-point profile: draws by 1024ths of a place, LABS of ten bits */
    DVGCHECK_BOARD = 1    /* a board: draws rounded half up to whole places, LABS of twelve bits */
};

/* The modes: how the words and depths that a certificate claims are judged. */
enum {
    DVGCHECK_BOUND = 0, /* as bounds, which a shape may stay below */
    DVGCHECK_EXACT = 1  /* as exact, by the rules 32 and 33 besides */
};

/* What stands for any scale, and for the call of a root. */
enum { DVGCHECK_ANY_SCALE = 16, DVGCHECK_NO_CALL = 0xFFFF };

/*
 * An answer. A field that is not told with its number is 0: with 1, 2, 49, 50, 80, 82, 83, 86 and 87, with 63 unless `call` is told,
 * and with 0 by dvgcheck_make, only the number is told.
 */
struct dvgcheck_answer {
    uint64_t clocks; /* with 0, of dvgcheck_frame_alone on the board: how many clocks every run takes at most, 1,512 a millisecond; 0 where
                        there was no memory to count them */
    uint32_t shapes; /* with 0: how many shapes the certificate claims, given or made for the frame */
    uint32_t words;  /* with 0, of a frame: how many words every run fetches at most */
    uint32_t line;   /* with 10 to 16: the certificate's line, counted from 1 */
    uint16_t word;   /* with 20 to 33 and 40 to 48: the word address of the first item that breaks a rule; with 60: of what no
                        shape can have */
    uint16_t shape;  /* with 20 to 33: the word address of the entry whose shape has it */
    uint8_t scale;   /* with 20 to 33: the global scale of that entry, 0 to 15, or DVGCHECK_ANY_SCALE */
    uint8_t depth;   /* with 0, of a frame: how many return places every run stores at once at most */
    uint8_t number;  /* 0 where it is accepted, else the number of the refusal */
    uint16_t call;   /* with 60 to 62: the word address of the frame's item that calls what can't be made, or DVGCHECK_NO_CALL if a
                        root can't; of dvgcheck_make with 63, too, if memory ran out at a frame's call */
};

/* What a call that writes a text answers. */
struct dvgcheck_text {
    size_t length;                 /* with 0 and 84: how many bytes the text has; else 0 */
    size_t frame;                  /* of dvgcheck_make, with 2, and with 60 to 63 at a frame's call: which frame, from 0; else 0 */
    struct dvgcheck_answer answer; /* of dvgcheck_explain what it tells of, of dvgcheck_make why nothing is made */
    uint8_t number;                /* 0 where the whole text stands at the buffer's start, else 84 or why there is none */
};

/*
 * What dvgcheck_recipe and dvgcheck_belongs answer. A field that is not told with its number is 0: with 1, 2, 49, 63, 80 and 83, and with
 * 0 by dvgcheck_belongs, only the number is told.
 */
struct dvgcheck_recipe_answer {
    size_t length;   /* of dvgcheck_recipe: how many bytes the frame has that shows why; 0 where there is none, as with 0 */
    uint32_t shapes; /* with 0, of dvgcheck_recipe: how many entries are made for all calls of the recipe */
    uint32_t words;  /* with 0, of dvgcheck_recipe: how many words every run of any of its frames fetches at most */
    uint32_t line;   /* with 44 to 48, 51 to 57 and 59 to 62: the line of the recipe, counted from 1; of 60 to 62 that of the call */
    uint16_t word;   /* with 25: the word address of the first item that breaks the rule; with 60: of what no shape can have; with
                        DVGCHECK_OUTSIDE: of the frame's item with which it leaves the recipe */
    uint16_t shape;  /* with 25: the word address of the entry whose shape has it */
    uint8_t scale;   /* with 25: the global scale of that entry, 0 to 15, or DVGCHECK_ANY_SCALE */
    uint8_t depth;   /* with 0, of dvgcheck_recipe: how many return places every run of any of its frames stores at once at most */
    uint8_t number;  /* 0 where the recipe is accepted, or the frame belongs; else the number of the refusal, or DVGCHECK_OUTSIDE */
    uint8_t witness; /* of dvgcheck_recipe: 0 where the frame that shows why stands whole at the buffer's start, or there is none;
                        84 where the buffer is too short for it; 85 where there was no memory to look for it */
};

/*
 * Judges a frame, as bytes, from the ROM alone, by the certificate that is made for it: no certificate does better. `map` is where
 * the ROM lies, `budget` how many words the frame may take at most, 1 to 1,000,000, and `window` bounds what is lit. The number is 82,
 * 83, 80, or the first that applies of 2, 49, 1, 60 to 63, 25, 40 to 44, 46 and 48, or 0. Where it is 0, every run of the generator
 * from the frame's first word, at any beam place and any global scale, reaches HALT, fetches just `words` words, stores just `depth`
 * return places at once, and four at most, fetches only words of the ROM and the frame, and draws no lit stroke that leaves the window
 * on either axis; on the board so does every run of its circuit, within `clocks` clocks, unless these are 0; and no certificate gets the
 * frame accepted with less. 60 to 62 are those of the first call whose entry can't be made: `call` is the word address of it, and with 60 `word` that of what no shape can
 * have. Takes memory for the certificate's entries, their index and the clocks of their shapes, and gives it back; where there is none,
 * the number is 63, or there are no clocks. At most 64 KiB of the stack.
 */
struct dvgcheck_answer dvgcheck_frame_alone(uint32_t machine, const uint8_t *rom, size_t rom_length, struct dvgcheck_map map,
                                            const uint8_t *frame, size_t frame_length, uint32_t budget,
                                            struct dvgcheck_window window);

/*
 * The account of a frame: what `dvgcheck explain frames` prints for it behind `NAME: `, the line of its answer and the lines below
 * it, with no labels. `answer` is one of dvgcheck_frame_alone, but without clocks. `text` is not null, also where `text_size` is 0. The number is 0, and
 * the text is in the buffer, with no null byte behind it; or 84, and `length` is what the text needs, and the buffer is as it was; or
 * 85, and there was no memory for the account; or 82, 83 or 80, as that of the answer. Takes memory as dvgcheck_frame_alone does, and
 * for the account; at most 96 KiB of the stack.
 */
struct dvgcheck_text dvgcheck_explain(uint32_t machine, const uint8_t *rom, size_t rom_length, struct dvgcheck_map map,
                                      const uint8_t *frame, size_t frame_length, uint32_t budget, struct dvgcheck_window window,
                                      uint8_t *text, size_t text_size);

/*
 * Judges a frame by a certificate of the ROM's shapes, which says where the ROM lies; all three as bytes. `mode` is DVGCHECK_BOUND or
 * DVGCHECK_EXACT. The number is 82, 87, 80, or the first that applies of 2, 49, 10 to 16, 1, 50, 20 to 31, as exact 20 to 33, and 40 to
 * 48, or 0. Where it is 0, every run is safe as dvgcheck_frame_alone says, but with DVGCHECK_BOUND `words` and `depth` are bounds. Each
 * shape of the certificate is judged, at each call. A frame that is refused by a certificate may only call what that lacks. Takes
 * memory for the certificate's entries and their index, and gives it back; where there is none, the number is 16 or 50. At most 64 KiB
 * of the stack.
 */
struct dvgcheck_answer dvgcheck_frame_by_certificate(uint32_t machine, uint32_t mode, const uint8_t *rom, size_t rom_length,
                                                     const uint8_t *cert, size_t cert_length, const uint8_t *frame,
                                                     size_t frame_length, uint32_t budget, struct dvgcheck_window window);

/*
 * Makes the certificate of these roots and of all that these frames call, and writes its text: what `dvgcheck make` writes. The
 * frames lie one behind the other in `frames`, and `lengths` has how many bytes each of them has. The number is 82, 83, 86, or the
 * first that applies of 1, 2 and 60 to 63, and `answer` has it, too, with its place; or 0, and the text is in the buffer, with no
 * null byte behind it; or 84, and `length` is what the text needs, and the buffer is as it was. Takes memory for the entries, the
 * frames and the text, and gives it back; where there is none, the number is 63, in place of 86 or of any after it. At most 64 KiB of
 * the stack.
 */
struct dvgcheck_text dvgcheck_make(uint32_t machine, const uint8_t *rom, size_t rom_length, struct dvgcheck_map map,
                                   const struct dvgcheck_root *roots, size_t root_count, const uint8_t *frames,
                                   size_t frames_length, const uint32_t *lengths, size_t frame_count, uint8_t *text,
                                   size_t text_size);

/*
 * Judges all frames of a recipe over a ROM on the board at once, as `dvgcheck recipe` does. `recipe` is its text, as bytes. No labels
 * can be given: a label's name is refused with 52. The number is 83, 80, or the first that applies of 51 to 56, 49, 1, 57, 60 to 62, 59,
 * 25, 44, 46 and 48, or 0. Where it is 0, each frame of the recipe is safe as dvgcheck_frame_alone says of the board, but `words` and
 * `depth` are bounds for all of them. Which recipe the text spells is only tested. With 25, 44 to 48 and 60 to 62 a frame of the
 * recipe that is refused with the same number is written to `frame`, which is not null, also where `frame_size` is 0; 2048 bytes are
 * always enough. `length` is how many bytes it has, and `witness` is 0; or 84, and the buffer is as it was, as it also is where
 * `length` is 0. That this frame is one of the recipe's, and is refused so, is only tested. Takes memory for the recipe and for the
 * entries of its calls, and gives it back; where there is none, the number is 56 or 63, or `witness` is 85, or no frame is found. At
 * most 160 KiB of the stack.
 */
struct dvgcheck_recipe_answer dvgcheck_recipe(const uint8_t *rom, size_t rom_length, struct dvgcheck_map map, const uint8_t *recipe,
                                              size_t recipe_length, uint32_t budget, struct dvgcheck_window window, uint8_t *frame,
                                              size_t frame_size);

/*
 * Tells whether a frame, as bytes, is one of a recipe's, as `dvgcheck belongs` does. Of the ROM only the length is looked at, unless a
 * draw of the recipe has to lead somewhere. `recipe` is the text, as that of dvgcheck_recipe. The number is 83, or the first that applies of 51 to 56, 1, 57, 2 and
 * DVGCHECK_OUTSIDE; or 0, and the frame is one of the recipe's. So where this is 0, and dvgcheck_recipe accepts the recipe over the
 * same ROM, the frame is safe. Takes memory for the recipe and for the frame's items, and gives it back; where there is none, the
 * number is 56 or 63. At most 160 KiB of the stack.
 */
struct dvgcheck_recipe_answer dvgcheck_belongs(const uint8_t *rom, size_t rom_length, struct dvgcheck_map map, const uint8_t *recipe,
                                               size_t recipe_length, const uint8_t *frame, size_t frame_length);

/* The version of the library, as DVGCHECK_VERSION has that of the header. */
uint32_t dvgcheck_version(void);

#ifdef __cplusplus
}
#endif

#endif
