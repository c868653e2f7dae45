/*
 * A small drive program: makes the sheet of a book and prints the operations of each job.
 *
 *   drive [BOOK [SHEET]]
 *
 * The book is read from the file BOOK, or from standard input. For each job there is a line with its operations and the count
 * of settings expanded, or with the number of the refusal:
 *
 *   job 1: 0 2 0 3 (count 16)
 *   job 2: nothing to do (count 0)
 *   job 3: refused 7
 *
 * A fault is one line, as `fault file 10 1`. The bytes of the sheet go to the file SHEET, if one is named.
 *
 * Exit status: 0 the sheet was made; 1 a fault; 2 a file could not be read or written, or the sheet makes no sense.
 */
#include <stdio.h>

#include "jidorafu.h"

/* One byte more than a book may have: a longer file has the same fault, however long it is. */
static uint8_t book[JIDORAFU_BOOK_MOST + 1];
static uint8_t sheet[JIDORAFU_SHEET_MOST];

static uint64_t number_at(const uint8_t *at, unsigned bytes)
{
    uint64_t number = 0;

    while (bytes > 0)
        number = number << 8 | at[--bytes];
    return number;
}

/* Prints the line of one job; 0 where the body makes no sense. */
static int print_job(unsigned job, const uint8_t *body, size_t length)
{
    if (length < 10 || length % 2 != 0)
        return 0;
    printf("job %u:", job);
    if (body[0] != 0) {
        printf(" refused %u\n", body[0]);
        return length == 10;
    }
    if (length == 10)
        printf(" nothing to do");
    for (size_t at = 10; at < length; at += 2)
        printf(" %u", (unsigned)number_at(body + at, 2));
    printf(" (count %llu)\n", (unsigned long long)number_at(body + 2, 8));
    return 1;
}

/* Prints a line for each job of a sheet of so many bytes; 0 where the sheet makes no sense. */
static int print_sheet(const uint8_t *bytes, size_t length)
{
    size_t place;

    if (length < 2 || length < 2 + 4 * (size_t)bytes[0])
        return 0;
    place = 2 + 4 * (size_t)bytes[0];
    for (unsigned i = 0; i < bytes[0]; i++) {
        const uint8_t *row = bytes + 2 + 4 * (size_t)i;
        size_t body_length = (size_t)number_at(row + 2, 2);

        if (row[0] != 4 || row[1] != 0 || body_length > length - place)
            return 0;
        if (!print_job(i + 1, bytes + place, body_length))
            return 0;
        place += body_length;
    }
    return place == length;
}

static int read_book(const char *name, size_t *length)
{
    FILE *in = name == NULL ? stdin : fopen(name, "rb");
    int failed;

    if (in == NULL)
        return 0;
    *length = fread(book, 1, sizeof book, in);
    failed = ferror(in);
    if (in != stdin)
        fclose(in);
    return !failed;
}

static int write_sheet(const char *name, size_t length)
{
    FILE *out = fopen(name, "wb");
    int written;

    if (out == NULL)
        return 0;
    written = fwrite(sheet, 1, length, out) == length;
    return fclose(out) == 0 && written;
}

int main(int argc, char **argv)
{
    size_t length;
    uint64_t answer;

    if (argc > 3) {
        fprintf(stderr, "usage: drive [BOOK [SHEET]]\n");
        return 2;
    }
    if (!read_book(argc > 1 ? argv[1] : NULL, &length)) {
        fprintf(stderr, "drive: the book cannot be read\n");
        return 2;
    }
    answer = jidorafu_book_to_sheet(book, length, sheet, sizeof sheet);
    if (jidorafu_is_fault(answer)) {
        printf("fault %s %u %u\n", jidorafu_fault_word(answer), jidorafu_fault_number(answer), jidorafu_fault_byte(answer));
        return 1;
    }
    if (answer > sizeof sheet || !print_sheet(sheet, (size_t)answer)) {
        fprintf(stderr, "drive: the sheet makes no sense\n");
        return 2;
    }
    if (argc > 2 && !write_sheet(argv[2], (size_t)answer)) {
        fprintf(stderr, "drive: the sheet cannot be written\n");
        return 2;
    }
    return 0;
}
