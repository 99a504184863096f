/* The deed runner's jobs for C and whatever calls C: link target/staticlib/libjobs.a (x86-64 Linux; `rt staticlib jobs` makes it).
 *
 * A lent array is a pointer and how many elements it has. What is asked of a caller:
 *   - each pointer is not null and is aligned for its type, also where the length is 0;
 *   - what is lent for writing overlaps nothing else that is lent;
 *   - the stack has room: 1 MB (the most that was measured is 607,828 bytes, of deed_translate_scheme).
 * Nothing else: any bytes, any words, any lengths and any limit are answered. No memory is kept from one call to the next, so that any number
 * of threads may call.
 *
 * Each function gives back the answer's number (paper 01, "Numbered answers") and writes its place; docs/PROMISES.md has what is promised.
 *
 * Version 6 (change request 6, reals) asks this of callers of version 5; the declarations of the functions are the same:
 *   - a cell takes two of the store's numbers: lend DEED_STORE numbers, or twice as many as before, for as many cells; an odd last one is not used;
 *   - an output entry is three numbers, DEED_WHOLE, the whole number and 0, or DEED_REAL and the real's bits, low half first: lend three times as
 *     many as before for as many entries, and read entries; *written counts numbers, and DEED_OUTPUT_FULL means that fewer than three are free;
 *   - code made by an earlier deed_translate is to be made again: some operands have another meaning, and there are five more operations.
 * A table is as before, with a type 3 (real), a node 34 (a number with a point) and the environment's number 4 (outreal).
 *
 * Change request 8 (capitals) asks nothing of callers. Two names that differ in letter case alone are one name, and delimiter
 * words match in any case, so a source that has such names or words may be answered otherwise; every other source is answered as before.
 */
#ifndef DEED_H
#define DEED_H

#include <stddef.h>
#include <stdint.h>

#ifdef __cplusplus
extern "C" {
#endif

/* The greatest change request up to which all are in. Besides, 8 (capitals) and 9 (the display, which no
 * caller sees) are in, of 7 deed_read_two and deed_translate_scheme, of 11 deed_replay, of 12 deed_report, and of 13 deed_compare. */
enum { DEED_VERSION = 6 };

/* The lengths that the jobs want or use. */
enum {
    DEED_SOURCE = 16384, /* bytes of a source, at most */
    DEED_TABLE = 32768,  /* words of a table, at least */
    DEED_HALF = 16384,   /* .. of which each scheme of deed_read_two has its half */
    DEED_BEYOND = 32768, /* added to the places of a prelude */
    DEED_CODE = 16384,   /* words of code, at least for translate, at most for run */
    DEED_CELLS = 8192,   /* cells that a run uses, at most */
    DEED_CELL = 2,       /* numbers of the store that a cell takes */
    DEED_STORE = 16384,  /* .. that a run uses, at most */
    DEED_ENTRY = 3       /* numbers of an output entry */
};

/* An output entry's first number. */
enum {
    DEED_WHOLE = 0, /* then the whole number, and 0 */
    DEED_REAL = 1   /* then the lower and the upper half of the bits of a real of 64 bits (a C double), each as a number of 32 bits:
                     * uint64_t bits = (uint32_t)entry[1] | (uint64_t)(uint32_t)entry[2] << 32; */
};

/* The answers. */
enum {
    DEED_ACCEPTED = 0,
    DEED_ENDED = 0,
    DEED_SHORT = 1,
    DEED_LONG = 2,
    DEED_NO_SYMBOL = 3,
    DEED_TOO_LARGE = 4,
    DEED_GRAMMAR = 5,
    DEED_DEPTH = 6,
    DEED_TWICE = 7,
    DEED_UNDECLARED = 8,
    DEED_HEADING = 9,
    DEED_TYPES = 10,
    DEED_LIMIT = 20,
    DEED_RANGE = 21,
    DEED_ZERO_DIVISOR = 22,
    DEED_UNASSIGNED = 23,
    DEED_INPUT_ENDED = 24,
    DEED_OUTPUT_FULL = 25,
    DEED_NO_CELL = 26,
    DEED_ACTIVATIONS = 27,
    DEED_CHANNEL = 28,
    DEED_NO_INSTRUCTION = 29,
    DEED_NO_VARIABLE = 30,
    DEED_TOO_MANY_SETS = 31
};

/* Source to table. 0 to 10. The table's words are laid down in docs/TABLE.md; after a refusal but 1 the first DEED_TABLE are zero. */
uint16_t deed_read(const uint8_t *source, size_t source_length,
                   uint16_t *table, size_t table_length,
                   size_t *place);

/* Source to code. 0 to 10, as deed_read has them. The code's words are laid down in docs/MACHINE.md; after a refusal but 1 the first
 * DEED_CODE are zero. */
uint16_t deed_translate(const uint8_t *source, size_t source_length,
                        uint32_t *code, size_t code_length,
                        size_t *place);

/* A prelude and two schemes, each read behind it. Gives back the first scheme's answer, 0 to 10, and writes its place; the second's go to *other and *there.
 * 1 for both where the table has less than DEED_TABLE words; a refusal of the prelude, its place with DEED_BEYOND added, is the answer to both; otherwise
 * each scheme has its own, and is refused by 4 where it and the prelude have more than 1,024 symbols. The first DEED_HALF words are the first scheme's uses,
 * declarations and nodes (docs/TABLE.md), the next DEED_HALF the second's, and words beyond are as they were; after a refusal but 1 a half is zero. What is left
 * of a scheme depends on the prelude and on that scheme alone; nothing is kept of a prelude, so that after a change of it both schemes are read again. */
uint16_t deed_read_two(const uint8_t *prelude, size_t prelude_length,
                       const uint8_t *first, size_t first_length,
                       const uint8_t *second, size_t second_length,
                       uint16_t *table, size_t table_length,
                       size_t *place, uint16_t *other, size_t *there);

/* A scheme behind a prelude to code. 0 to 10, as deed_read_two has them for that scheme but for 1, which is as deed_translate has it; the code's words are as
 * deed_translate leaves them. Faults of a run inside the prelude have places with DEED_BEYOND added. */
uint16_t deed_translate_scheme(const uint8_t *prelude, size_t prelude_length,
                               const uint8_t *scheme, size_t scheme_length,
                               uint32_t *code, size_t code_length,
                               size_t *place);

/* Source to its text in the house layout. 0 to 10, as deed_read has them but for 1 and 2: 1 where the room is shorter than the text, 2 also where
 * the text is over DEED_SOURCE bytes. The first *length bytes of the room are the text, and behind it they are as they were; after a refusal
 * *length is 0 and the whole room is as it was. */
uint16_t deed_write(const uint8_t *source, size_t source_length,
                    uint8_t *room, size_t room_length,
                    size_t *place, size_t *length);

/* What deed_check says. */
enum {
    DEED_IS_LIST = 0,
    DEED_REFUSED = 1,
    DEED_WRONG_WORD = 2
};

/* A source, and a list of numbers that somebody sent as its uses: their count, then three words for each (docs/TABLE.md). DEED_IS_LIST where the
 * list is that; DEED_REFUSED where the source is refused, with the answer's number (2 to 10) and place; DEED_WRONG_WORD with the index, from 0, of
 * the first wrong word for the place: of a short list its length. Where there is no refusal the number is 0. */
uint16_t deed_check(const uint8_t *source, size_t source_length,
                    const int64_t *list, size_t list_length,
                    uint16_t *number, size_t *place);

/* What deed_compare says. */
enum {
    DEED_LISTED = 0,
    DEED_FIRST_REFUSED = 1,
    DEED_SECOND_REFUSED = 2,
    DEED_NO_ROOM = 3
};

/* Two editions of a deed. DEED_LISTED where the room has the numbers, from 0 in source order, of the uses that do not mean the same in both, rising, the
 * extra uses of either edition last; *place is how many they are. A use means the same if its kind is the same and the number, in source order, of the
 * declaring name, or the environment's number: letters and places are not compared, nor types, nor value or name. DEED_FIRST_REFUSED or DEED_SECOND_REFUSED with
 * the answer's number (2 to 10) and place; DEED_NO_ROOM where the room is shorter than the list, with the number DEED_SHORT. As many words as the edition
 * with more uses has uses are always enough. Words behind the list are as they were, and all are after any other answer. */
uint16_t deed_compare(const uint8_t *first, size_t first_length,
                      const uint8_t *second, size_t second_length,
                      uint16_t *room, size_t room_length,
                      uint16_t *number, size_t *place);

/* Code to a run. 0 or 20 to 30. The numbers of the first DEED_CELLS cells of the store, or of fewer if fewer were lent, are zero afterwards, and
 * the others as they were; the output holds what was written, entry behind entry, and behind it what it held. *done counts instructions, *taken
 * input numbers, *written output numbers. */
uint16_t deed_run(const uint32_t *code, size_t code_length,
                  const int32_t *input, size_t input_length,
                  uint64_t limit,
                  int64_t *store, size_t store_length,
                  int32_t *output, size_t output_length,
                  size_t *place, uint64_t *done, size_t *taken, size_t *written);

/* What deed_replay says. */
enum {
    DEED_AGREES = 0,
    DEED_DIFFERS = 1,
    DEED_BAD_WORD = 2,
    DEED_TOO_SHORT = 3
};

/* Code and the record of a run: six sections, each after its count: the input numbers; the limit, as its low and its high half; how many numbers the
 * store has; how many the output has; the answer; the output entries, three numbers each (DECISIONS.md, "Records"). DEED_AGREES where a fresh run gives
 * the same answer and entries; DEED_DIFFERS with the first entry that differs for the place, 0 the answer and j the j-th output entry; DEED_BAD_WORD with
 * the index, from 0, of the first bad word: of a record that ends too soon its length; DEED_TOO_SHORT where the store or the output is shorter than the
 * record says, with the number DEED_SHORT. Else the number is 0. The run is deed_run's on as many of the store's and the output's first numbers as the
 * record says; the others are as they were, and so is everything after DEED_BAD_WORD and DEED_TOO_SHORT. */
uint16_t deed_replay(const uint32_t *code, size_t code_length,
                     const int32_t *record, size_t record_length,
                     int64_t *store, size_t store_length,
                     int32_t *output, size_t output_length,
                     uint16_t *number, size_t *place);

/* What deed_report says, the most sets that it takes, and how many figures a report has. */
enum {
    DEED_REPORT = 0,
    DEED_TOO_MANY = 1,
    DEED_BAD_SET = 2,
    DEED_SETS = 65535,
    DEED_FIGURES = 16
};

/* Code and sets of input: their number, and for each set how many numbers it has and these. Each set has a run of its own, as deed_run does it, in the
 * whole store and output that are lent and with the same limit. DEED_REPORT with the figures: how many runs ended with each answer, 0 and 20 to 30; how
 * many ended without a whole-number output; and of the first whole-number output of the others that ended the least, the greatest and the sum, 0 where
 * there are none. They go into the first DEED_FIGURES numbers of `figures`, or as many as are lent. DEED_TOO_MANY where the sets are more than DEED_SETS,
 * with the number DEED_TOO_MANY_SETS; DEED_BAD_SET with the index, from 0, of the first bad word for the place, as deed_replay has it. Else the number
 * is 0. After a report the whole output is zero, and the store is as a run leaves it; else nothing has changed. */
uint16_t deed_report(const uint32_t *code, size_t code_length,
                     const int32_t *sets, size_t sets_length,
                     uint64_t limit,
                     int64_t *store, size_t store_length,
                     int32_t *output, size_t output_length,
                     int64_t *figures, size_t figures_length,
                     uint16_t *number, size_t *place);

#ifdef __cplusplus
}
#endif

#endif
