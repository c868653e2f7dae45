/*
 * Tries the call at its edges, against the reference planner.
 *
 *   edges limits            the shortest and the longest books, short buffers, and every pointer that is allowed
 *   edges longest           the longest sheet that a book can have, in buffers about its length
 *   edges room BOOK..       each book with a buffer of every length, from 0 to one more than its sheet has
 *   edges damage BOOK..     each book cut short at every byte, made longer, and with every byte changed to some values
 *   edges random COUNT      so many books made at random, one in four of them damaged
 *
 * Books and buffers stand in memory of exactly their size, so that valgrind sees a byte too far. Each try holds the answer and
 * every byte of the buffer to the reference, sees that the book is as it was, and makes the call once more on what it left.
 *
 * Exit status: 0 all tries agree; 1 one does not; 2 a book cannot be read.
 */
#include <stdio.h>
#include <stdlib.h>
#include <string.h>

#include "jidorafu.h"
#include "reference.h"

static unsigned long tries;

static uint8_t *exactly(size_t length)
{
    uint8_t *memory = malloc(length);

    if (memory == NULL && length > 0) {
        fprintf(stderr, "edges: no memory\n");
        exit(2);
    }
    return memory;
}

static void print_answer(const char *who, uint64_t answer)
{
    if (jidorafu_is_fault(answer))
        fprintf(stderr, "  %s: fault %s %u %u\n", who, jidorafu_fault_word(answer), jidorafu_fault_number(answer),
                jidorafu_fault_byte(answer));
    else
        fprintf(stderr, "  %s: a sheet of %llu bytes\n", who, (unsigned long long)answer);
}

static void hold(int agrees, const char *what, const uint8_t *book, size_t length, size_t room, uint64_t want, uint64_t got)
{
    tries++;
    if (agrees)
        return;
    fprintf(stderr, "edges: %s differs, with a buffer of %zu bytes and a book of %zu:\n ", what, room, length);
    for (size_t k = 0; k < length && k < 400; k++)
        fprintf(stderr, " %02X", book[k]);
    fprintf(stderr, "\n");
    print_answer("wanted", want);
    print_answer("got", got);
    exit(1);
}

/* One try: a book, and a buffer of so many bytes that holds something already. Answers what the reference does. */
static uint64_t try_call(const uint8_t *bytes, size_t length, size_t room)
{
    uint8_t *book = exactly(length), *sheet = exactly(room), *want_sheet = exactly(room + 1);
    uint64_t want, got;

    if (length > 0)
        memcpy(book, bytes, length);
    for (size_t k = 0; k < room; k++)
        sheet[k] = want_sheet[k] = (uint8_t)(37 * k % 255 + 1);
    want = reference_book_to_sheet(bytes, length, want_sheet, room);
    for (int again = 0; again < 2; again++) {
        got = jidorafu_write_sheet(book, length, sheet, room);
        hold(got == want, again ? "the answer of a second call" : "the answer", bytes, length, room, want, got);
        hold(room == 0 || memcmp(sheet, want_sheet, room) == 0, again ? "the buffer after a second call" : "the buffer", bytes,
             length, room, want, got);
        hold(length == 0 || memcmp(book, bytes, length) == 0, "the book afterwards", bytes, length, room, want, got);
    }
    free(book);
    free(sheet);
    free(want_sheet);
    return want;
}

/* ---- Limits ---- */

static void put_two(uint8_t *at, unsigned number)
{
    at[0] = (uint8_t)(number & 255);
    at[1] = (uint8_t)(number >> 8);
}

/* A row of stations, each linked to the next, and as many jobs as a book may have, each from one end to the other. */
static size_t longest_sheet(uint8_t *book)
{
    enum { STATIONS = 256, JOBS = 63 };
    size_t at = 2 + 4 * (1 + JOBS);

    memset(book, 0, at + 4 + 4 * (STATIONS - 1) + 12 * JOBS);
    book[0] = 1 + JOBS;
    book[2] = 2;
    put_two(book + 4, 4 + 4 * (STATIONS - 1));
    put_two(book + at, STATIONS);
    put_two(book + at + 2, STATIONS - 1);
    at += 4;
    for (unsigned s = 0; s + 1 < STATIONS; s++, at += 4) {
        put_two(book + at, s);
        put_two(book + at + 2, s + 1);
    }
    for (unsigned j = 1; j <= JOBS; j++, at += 12) {
        book[2 + 4 * j] = 3;
        put_two(book + 4 + 4 * j, 12);
        put_two(book + at + 2, 255);
        put_two(book + at + 4, j % 2 == 0 ? 0 : STATIONS - 1);
        put_two(book + at + 8, j % 2 == 0 ? STATIONS - 1 : 0);
    }
    return at;
}

static size_t put_track(uint8_t *body, unsigned stations, unsigned links)
{
    put_two(body, stations);
    put_two(body + 2, links);
    for (unsigned m = 0; m < links; m++) {
        put_two(body + 4 + 4 * (size_t)m, m % 512);
        put_two(body + 6 + 4 * (size_t)m, (m + 1 + m / 512) % 512);
    }
    return 4 + 4 * (size_t)links;
}

/* A bench of valves with four positions, and so many interlocks of valve 1 against valve 0. */
static size_t put_bench(uint8_t *body, unsigned valves, unsigned rows)
{
    const uint8_t row[4] = {1, 3, 0, 3};

    body[0] = (uint8_t)valves;
    body[1] = (uint8_t)rows;
    memset(body + 2, 4, valves);
    for (unsigned r = 0; r < rows; r++)
        memcpy(body + 2 + valves + 4 * (size_t)r, row, 4);
    return 2 + valves + 4 * (size_t)rows;
}

/* A book of 65,535 bytes: fifteen tracks and a bench with the most rows, a track of what is left, a job to no station. */
static size_t longest_book(uint8_t *book)
{
    enum { ENTRIES = 18 };
    size_t at = 2 + 4 * ENTRIES;

    memset(book, 0, JIDORAFU_BOOK_MOST);
    book[0] = ENTRIES;
    for (unsigned i = 0; i < ENTRIES; i++) {
        size_t length = 12;

        if (i < 15)
            length = put_track(book + at, 512, 1024);
        else if (i == 15)
            length = put_bench(book + at, 3, 32);
        else if (i == 16)
            length = put_track(book + at, 512, 953);
        book[2 + 4 * i] = i == 17 ? 3 : i == 15 ? 1 : 2;
        put_two(book + 4 + 4 * i, (unsigned)length);
        at += length;
    }
    put_two(book + at - 4, 512);
    return at;
}

/* Tries the book of one body, which stands behind the first 6 bytes of the memory given. */
static void try_body(uint8_t *book, unsigned kind, size_t length)
{
    const uint8_t head[4] = {1, 0, (uint8_t)kind, 0};

    memcpy(book, head, 4);
    put_two(book + 4, (unsigned)length);
    try_call(book, 6 + length, 2);
}

/* Bodies with each count at both sides of its edges, and steps bodies of all lengths, answers and counts that matter. */
static void bodies(uint8_t *book)
{
    static const unsigned stations[] = {0, 1, 2, 511, 512, 513, 65535};
    static const unsigned links[] = {0, 1, 511, 1023, 1024, 1025};
    static const unsigned rows[] = {0, 1, 31, 32, 33, 255};
    static const size_t lengths[] = {0, 1, 9, 10, 11, 12, 13, 518, 519, 520, 521, 522};
    uint8_t *body = book + 6;

    for (size_t n = 0; n < sizeof stations / sizeof *stations; n++)
        for (size_t m = 0; m < sizeof links / sizeof *links; m++)
            try_body(book, 2, put_track(body, stations[n], links[m]));
    for (unsigned valves = 0; valves <= 14; valves++)
        for (size_t r = 0; r < sizeof rows / sizeof *rows; r++)
            try_body(book, 1, put_bench(body, valves, rows[r]));
    for (unsigned answer = 0; answer < 10; answer++)
        for (size_t n = 0; n < sizeof lengths / sizeof *lengths; n++)
            for (size_t wrong = 0; wrong < 11; wrong++) {
                memset(body, 0, 522);
                body[wrong] = 1;
                body[0] = (uint8_t)answer;
                try_body(book, 4, lengths[n]);
            }
}

static void is(const char *what, uint64_t want, uint64_t got)
{
    static const uint8_t nothing[1];

    hold(want == got, what, nothing, 0, 0, want, got);
}

static uint64_t told(unsigned layer, unsigned number, unsigned byte)
{
    return UINT64_C(65536) * (256 * layer + number) + byte;
}

static void limits(void)
{
    enum { LONGER = 70000 };
    uint8_t *book = exactly(LONGER);
    uint8_t *one_byte = exactly(1);
    uint8_t *two_bytes = exactly(2);
    const uint8_t empty_book[2] = {0, 0};
    size_t length;

    /* nothing at all, by null, by a pointer to no memory and by one past the end */
    one_byte[0] = 7;
    is("no book", told(JIDORAFU_FILE, JIDORAFU_LENGTH, 0), jidorafu_write_sheet(NULL, 0, one_byte, 1));
    is("no book and no buffer", told(JIDORAFU_FILE, JIDORAFU_LENGTH, 0), jidorafu_write_sheet(NULL, 0, NULL, 0));
    is("no book, past the end", told(JIDORAFU_FILE, JIDORAFU_LENGTH, 0), jidorafu_book_to_sheet(book + LONGER, 0, one_byte, 1));
    is("no buffer", told(JIDORAFU_SHEET, JIDORAFU_SHORT_SHEET, 0), jidorafu_write_sheet(empty_book, 2, NULL, 0));
    is("no buffer, past the end", told(JIDORAFU_SHEET, JIDORAFU_SHORT_SHEET, 0),
       jidorafu_book_to_sheet(empty_book, 2, one_byte + 1, 0));
    is("the byte before that", 7, one_byte[0]);
    is("a short buffer", told(JIDORAFU_SHEET, JIDORAFU_SHORT_SHEET, 1), jidorafu_write_sheet(empty_book, 2, one_byte, 1));
    is("its byte", 0, one_byte[0]);
    two_bytes[0] = two_bytes[1] = 7;
    is("the empty book", 2, jidorafu_write_sheet(empty_book, 2, two_bytes, 2));
    is("its sheet", 0, two_bytes[0] + two_bytes[1]);

    /* too long, whatever it holds */
    memset(book, 0, LONGER);
    is("a book too long", told(JIDORAFU_FILE, JIDORAFU_LENGTH, 65535), try_call(book, 65536, 2));
    is("a book far too long", told(JIDORAFU_FILE, JIDORAFU_LENGTH, 65535), try_call(book, LONGER, 0));
    is("zeros to the end", told(JIDORAFU_FILE, JIDORAFU_LENGTH, 2), try_call(book, 65535, 2));
    memset(book, 255, LONGER);
    is("a book too long, of high bytes", told(JIDORAFU_FILE, JIDORAFU_LENGTH, 65535), try_call(book, 65536, 2));
    is("high bytes to the end", told(JIDORAFU_CONTENTS, JIDORAFU_WRONG_CONTENTS, 0), try_call(book, 65535, 2));

    /* every length of a short book, of each first byte */
    for (unsigned first = 0; first < 256; first++)
        for (length = 0; length <= 6; length++) {
            uint8_t bytes[6] = {(uint8_t)first, 0, 4, 0, 0, 0};

            try_call(bytes, length, length % 4);
        }

    /* the longest book */
    length = longest_book(book);
    is("the length of the longest book", JIDORAFU_BOOK_MOST, length);
    is("the longest book", 16, try_call(book, length, 16));
    is("the longest book, no room", told(JIDORAFU_SHEET, JIDORAFU_SHORT_SHEET, 15), try_call(book, length, 15));

    bodies(book);
    free(book);
    free(one_byte);
    free(two_bytes);
}

/* 63 lists of 255 operations */
static void longest(void)
{
    enum { LONGEST = 2 + 63 * (4 + 10 + 2 * 255) };
    uint8_t *book = exactly(4096);
    size_t length = longest_sheet(book);

    is("the longest sheet", LONGEST, try_call(book, length, LONGEST));
    is("the longest sheet, one byte short", told(JIDORAFU_SHEET, JIDORAFU_SHORT_SHEET, LONGEST - 1),
       try_call(book, length, LONGEST - 1));
    is("the longest sheet, with the most room", LONGEST, try_call(book, length, JIDORAFU_SHEET_MOST));
    is("the longest sheet, with more room than a book can need", LONGEST, try_call(book, length, 70000));
    free(book);
}

/* ---- Books from files ---- */

static void room(const uint8_t *book, size_t length)
{
    uint8_t sheet[JIDORAFU_SHEET_MOST];
    uint64_t answer = reference_book_to_sheet(book, length, sheet, sizeof sheet);
    size_t most = jidorafu_is_fault(answer) ? 8 : (size_t)answer + 1;

    for (size_t k = 0; k <= most; k++)
        try_call(book, length, k);
}

static void damage(const uint8_t *book, size_t length)
{
    uint8_t sheet[JIDORAFU_SHEET_MOST];
    uint64_t answer = reference_book_to_sheet(book, length, sheet, sizeof sheet);
    size_t space = jidorafu_is_fault(answer) ? 64 : (size_t)answer;
    uint8_t *changed = exactly(length + 1);

    for (size_t cut = 0; cut < length; cut++)
        try_call(book, cut, space);

    memcpy(changed, book, length);
    for (unsigned last = 0; last < 256; last += 85) {
        changed[length] = (uint8_t)last;
        try_call(changed, length + 1, space);
    }

    for (size_t at = 0; at < length; at++) {
        const unsigned was = book[at];
        const unsigned values[] = {0, 1, 4, 65, 255, (was + 1) % 256, (was + 255) % 256, was ^ 128};

        for (size_t v = 0; v < sizeof values / sizeof *values; v++) {
            changed[at] = (uint8_t)values[v];
            try_call(changed, length, space);
        }
        changed[at] = (uint8_t)was;
    }
    free(changed);
}

static void each_file(char **names, int count, void (*act)(const uint8_t *, size_t))
{
    for (int i = 0; i < count; i++) {
        static uint8_t book[JIDORAFU_BOOK_MOST + 1];
        FILE *in = fopen(names[i], "rb");
        size_t length;

        if (in == NULL) {
            fprintf(stderr, "edges: %s cannot be read\n", names[i]);
            exit(2);
        }
        length = fread(book, 1, sizeof book, in);
        fclose(in);
        act(book, length);
    }
}

/* ---- Books made at random ---- */

static uint32_t state = 20070813;

/* A number below `limit`, the same ones in each run. */
static unsigned below(unsigned limit)
{
    state ^= state << 13;
    state ^= state >> 17;
    state ^= state << 5;
    return state % limit;
}

static size_t random_bench(uint8_t *body, unsigned *settings)
{
    unsigned valves = 1 + below(6), rows = valves < 2 ? 0 : below(8);
    size_t at = 2;

    body[0] = (uint8_t)valves;
    body[1] = (uint8_t)rows;
    *settings = 1;
    for (unsigned v = 0; v < valves; v++) {
        body[at] = (uint8_t)(2 + below(3));
        *settings *= body[at++];
    }
    for (unsigned r = 0; r < rows; r++) {
        unsigned a = below(valves), b = (a + 1 + below(valves - 1)) % valves;

        body[at++] = (uint8_t)a;
        body[at++] = (uint8_t)below(body[2 + a]);
        body[at++] = (uint8_t)b;
        body[at++] = (uint8_t)below(body[2 + b]);
    }
    return at;
}

static size_t random_track(uint8_t *body, unsigned *settings)
{
    unsigned stations = 1 + below(30), links = stations < 2 ? 0 : below(2 * stations);
    size_t at = 4;

    put_two(body, stations);
    put_two(body + 2, links);
    *settings = stations;
    for (unsigned m = 0; m < links; m++, at += 4) {
        unsigned one = below(stations);

        put_two(body + at, one);
        put_two(body + at + 2, (one + 1 + below(stations - 1)) % stations);
    }
    return at;
}

static size_t random_job(uint8_t *body, unsigned plant, unsigned settings)
{
    static const unsigned bounds[] = {0, 1, 2, 3, 4, 5, 6, 7, 8, 10, 12, 40, 254, 255, 255, 256};

    memset(body, 0, 12);
    body[0] = (uint8_t)plant;
    put_two(body + 2, bounds[below(16)]);
    put_two(body + 4, below(20) == 0 ? settings : below(settings));
    put_two(body + 8, below(20) == 0 ? settings : below(settings));
    return 12;
}

static size_t random_book(uint8_t *book)
{
    unsigned entries = 1 + below(8);
    unsigned plants = 0, plant[8], settings[8];
    size_t at = 2 + 4 * (size_t)entries;

    book[0] = (uint8_t)entries;
    book[1] = 0;
    for (unsigned i = 0; i < entries; i++) {
        unsigned kind = plants == 0 ? 1 + below(2) : below(3) == 0 ? 1 + below(2) : 3;
        size_t length;

        if (kind == 3) {
            unsigned p = below(plants);

            length = random_job(book + at, plant[p], settings[p]);
        } else {
            length = kind == 1 ? random_bench(book + at, &settings[plants]) : random_track(book + at, &settings[plants]);
            plant[plants++] = i;
        }
        book[2 + 4 * i] = (uint8_t)kind;
        book[3 + 4 * i] = 0;
        put_two(book + 4 + 4 * i, (unsigned)length);
        at += length;
    }
    return at;
}

static void random_books(unsigned long count)
{
    static uint8_t book[8192];

    for (unsigned long k = 0; k < count; k++) {
        size_t length = random_book(book);

        if (k % 4 == 3)
            book[below((unsigned)length)] = (uint8_t)below(256);
        try_call(book, length, k % 16 == 0 ? below(64) : 8192);
    }
}

int main(int argc, char **argv)
{
    if (argc == 2 && strcmp(argv[1], "limits") == 0)
        limits();
    else if (argc == 2 && strcmp(argv[1], "longest") == 0)
        longest();
    else if (argc > 2 && strcmp(argv[1], "room") == 0)
        each_file(argv + 2, argc - 2, room);
    else if (argc > 2 && strcmp(argv[1], "damage") == 0)
        each_file(argv + 2, argc - 2, damage);
    else if (argc == 3 && strcmp(argv[1], "random") == 0)
        random_books(strtoul(argv[2], NULL, 10));
    else {
        fprintf(stderr, "usage: edges limits | longest | room BOOK.. | damage BOOK.. | random COUNT\n");
        return 2;
    }
    printf("%lu\n", tries);
    return 0;
}
