/*
 * The planner for C: one call makes the sheet of a book.
 *
 * A book holds valve benches, tracks and jobs; the sheet holds one answer for each job, in the order of the jobs. Both
 * formats stand in docs/FILES.md, and how to build, link and use the call in docs/DRIVE.md.
 *
 * Nothing is kept from one call to the next, and nothing is allocated. A call takes about 180 KiB of stack. Calls may be made
 * from several threads at once, each with a sheet buffer of its own.
 */
#ifndef JIDORAFU_H
#define JIDORAFU_H

#include <stddef.h>
#include <stdint.h>

#ifdef __cplusplus
extern "C" {
#endif

/* No sheet is longer, so a buffer of so many bytes always has room. */
#define JIDORAFU_SHEET_MOST 33538

/* A book has at most so many bytes. A longer one may be passed; it has a fault. */
#define JIDORAFU_BOOK_MOST 65535

/*
 * Plans every job of the book and writes the sheet to the front of the buffer.
 *
 * book           the bytes of the book; they are read and not written
 * book_length    how many they are; any number is allowed
 * sheet          the buffer for the sheet
 * sheet_length   how many bytes the buffer has; any number is allowed
 *
 * Both pointers must not be null, also where the length is 0; a pointer of length 0 is not followed and may point anywhere,
 * also just past the end of an array. (jidorafu_write_sheet below takes null too.) The book and the buffer must not overlap,
 * and nothing else may write to either during the call.
 *
 * The answer is the length of the sheet, 2 to JIDORAFU_SHEET_MOST, or a fault: jidorafu_is_fault tells which. A fault has a
 * layer, a number and a byte, packed as 65536 * (256 * layer + number) + byte; see the functions below.
 *
 *   answer                    the buffer afterwards
 *   length of the sheet       the sheet at the front, the bytes behind it as they were
 *   fault 10, 11, 12 or 14    as it was
 *   fault 13                  every byte zero
 *
 * The faults of the book, in the order of the checks, come first; then 14; then 13.
 */
uint64_t jidorafu_book_to_sheet(const uint8_t *book, size_t book_length, uint8_t *sheet, size_t sheet_length);

/* The layer that a fault belongs to. */
enum jidorafu_layer {
    JIDORAFU_FILE = 1,
    JIDORAFU_CONTENTS = 2,
    JIDORAFU_BODY = 3,
    JIDORAFU_SHEET = 4
};

/* The number of a fault. */
enum jidorafu_number {
    JIDORAFU_LENGTH = 10,         /* the book is too short or too long */
    JIDORAFU_WRONG_CONTENTS = 11, /* the number of entries, or a row of the contents, is wrong */
    JIDORAFU_WRONG_BODY = 12,     /* a body breaks the rule of its kind */
    JIDORAFU_SHORT_SHEET = 13,    /* the buffer has no room for the sheet */
    JIDORAFU_NO_BOOK = 14         /* the file has a steps body, so it is no book */
};

/* Whether an answer is a fault, and not the length of a sheet. */
static inline int jidorafu_is_fault(uint64_t answer)
{
    return answer >= 65536;
}

/* The layer of a fault, 1 to 4. */
static inline unsigned jidorafu_fault_layer(uint64_t answer)
{
    return (unsigned)(answer >> 24);
}

/* The number of a fault, 10 to 14. */
static inline unsigned jidorafu_fault_number(uint64_t answer)
{
    return (unsigned)(answer >> 16 & 255);
}

/* The byte that a fault names: a place in the book, or the buffer's length with 13. */
static inline unsigned jidorafu_fault_byte(uint64_t answer)
{
    return (unsigned)(answer & 65535);
}

/* The layer of a fault in a word. */
static inline const char *jidorafu_fault_word(uint64_t answer)
{
    switch (jidorafu_fault_layer(answer)) {
    case JIDORAFU_FILE:
        return "file";
    case JIDORAFU_CONTENTS:
        return "contents";
    case JIDORAFU_BODY:
        return "body";
    case JIDORAFU_SHEET:
        return "sheet";
    default:
        return "unknown";
    }
}

/* The same call, where a pointer may also be null if its length is 0: an empty book, a buffer without room. */
static inline uint64_t jidorafu_write_sheet(const uint8_t *book, size_t book_length, uint8_t *sheet, size_t sheet_length)
{
    const uint8_t no_book = 0;
    uint8_t no_sheet = 0;

    return jidorafu_book_to_sheet(book_length == 0 ? &no_book : book, book_length,
                                  sheet_length == 0 ? &no_sheet : sheet, sheet_length);
}

#ifdef __cplusplus
}
#endif

#endif
