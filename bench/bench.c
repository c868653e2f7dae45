/*
 * The proved search and planner against plain C, on the same legs and books, in one process.
 *
 *   bench BOOK..
 *
 * Every leg is run by the proved library and by both peers, every book by the proved library and by the reference planner.
 * Lengths, settings expanded, lists, counts and sheets have to agree, else the exit status is 1. Times are the least of some
 * runs. They include clearing: the library leaves its records zero, the peers clear their marks or tables at the start of a leg.
 * Memory is got beforehand, but for the tables of the hashing peer, which grow as they fill. The index is zero before the first
 * call and then handed on as the call before left it.
 */
#define _POSIX_C_SOURCE 200809L

#include <stdio.h>
#include <stdlib.h>
#include <string.h>
#include <time.h>

#include "../c/jidorafu.h"
#include "../c/reference.h"
#include "calls.h"
#include "peers.h"

enum {
    MOST_TRACK_BODY = 4 + 4 * MOST_LINKS,
    BOOK_RECORDS = 8192,
    LIST = 255
};

static double nanoseconds(void)
{
    struct timespec t;

    clock_gettime(CLOCK_MONOTONIC, &t);
    return 1e9 * (double)t.tv_sec + (double)t.tv_nsec;
}

static void *zeros(size_t count, size_t size)
{
    void *memory = calloc(count == 0 ? 1 : count, size);

    if (memory == NULL) {
        fprintf(stderr, "bench: no memory\n");
        exit(2);
    }
    return memory;
}

static void differs(const char *name, const char *what)
{
    fprintf(stderr, "bench: %s: %s\n", name, what);
    exit(1);
}

/*
 * The least time of some runs of a task: three runs at least, and more while they take under a fifth of a second together; one
 * alone where it takes over a second.
 */
static double least_time(void (*task)(void *), void *of)
{
    double least = 0, spent = 0;

    for (int runs = 0; runs < 1 || (runs < 3 && spent < 1e9) || spent < 2e8; runs++) {
        double begin = nanoseconds(), took;

        task(of);
        took = nanoseconds() - begin;
        spent += took;
        if (runs == 0 || took < least)
            least = took;
    }
    return least;
}

/* ---- Bodies ---- */

struct body {
    uint8_t byte[MOST_TRACK_BODY];
    size_t length;
};

/* Valves of these numbers of positions, and the first `rows` of a long row of interlocks that leaves nearly all within reach. */
static struct body bench_body(const char *positions, unsigned rows)
{
    struct body body = {{0}, 0};
    unsigned valves = (unsigned)strlen(positions);
    uint8_t *at = body.byte + 2;

    body.byte[0] = (uint8_t)valves;
    body.byte[1] = (uint8_t)rows;
    for (unsigned v = 0; v < valves; v++)
        *at++ = (uint8_t)(positions[v] - '0');
    for (unsigned r = 0; r < rows; r++) {
        unsigned round = r / valves, valve = r % valves, other = (valve + 1 + (1 + 3 * round) % (valves - 1)) % valves;

        *at++ = (uint8_t)valve;
        *at++ = (uint8_t)((r + round + 1) % body.byte[2 + valve]);
        *at++ = (uint8_t)other;
        *at++ = (uint8_t)((3 * r + 2) % body.byte[2 + other]);
    }
    body.length = (size_t)(at - body.byte);
    return body;
}

static void put_two(uint8_t *at, unsigned number)
{
    at[0] = (uint8_t)(number & 255);
    at[1] = (uint8_t)(number >> 8);
}

/* Stations in a row, each linked to the next; and links that leap over some. */
static struct body track_body(unsigned stations, unsigned links)
{
    struct body body = {{0}, 4 + 4 * (size_t)links};

    put_two(body.byte, stations);
    put_two(body.byte + 2, links);
    for (unsigned m = 0; m < links; m++) {
        unsigned one = m % stations;
        unsigned two = one + (m < stations ? 1 : 2 + 7 * one % 5);

        put_two(body.byte + 4 + 4 * (size_t)m, one);
        put_two(body.byte + 6 + 4 * (size_t)m, two < stations ? two : one - 1);
    }
    return body;
}

/* ---- One leg, by the library and by both peers ---- */

struct problem {
    const char *name;
    enum plant_kind kind;
    struct body first, second; /* the second of a pair alone */
    struct leg leg;
};

/* A leg in the making: what it works on, and what came of it. */
struct work {
    const struct problem *problem;
    struct plant plant, parts[2];
    uint32_t *records, *index;
    size_t record_count, index_count;
    struct measured peer;
    uint64_t answer, expanded;
};

static void by_marks(void *of)
{
    struct work *w = of;

    w->peer = marked_leg(&w->plant, &w->problem->leg);
}

static void by_hash(void *of)
{
    struct work *w = of;

    w->peer = hashed_leg(&w->plant, &w->problem->leg);
}

static void by_library(void *of)
{
    struct work *w = of;
    const struct problem *p = w->problem;
    const struct leg *leg = &p->leg;

    w->expanded = 0;
    switch (p->kind) {
    case BENCH:
        w->answer = jidorafu_measure_bench(p->first.byte, p->first.length, leg->start, leg->target, (uint16_t)leg->bound,
                                           w->records, w->record_count, w->index, w->index_count, &w->expanded);
        break;
    case TRACK:
        w->answer = jidorafu_measure_track(p->first.byte, p->first.length, leg->start, leg->target, (uint16_t)leg->bound,
                                           w->records, w->record_count, w->index, w->index_count, &w->expanded);
        break;
    case PAIR:
        w->answer = jidorafu_measure_pair(p->first.byte, p->first.length, p->second.byte, p->second.length, leg->start,
                                          leg->target, (uint16_t)leg->bound, w->records, w->record_count, w->index,
                                          w->index_count, &w->expanded);
        break;
    }
}

/* Nanoseconds for each setting expanded; 0 where it was not run. */
struct times {
    double marks, chains;           /* the library */
    double peer_marks, peer_hashes; /* the peers */
};

static void make_plants(struct work *w)
{
    const struct problem *p = w->problem;

    switch (p->kind) {
    case BENCH:
        make_bench(&w->plant, p->first.byte);
        break;
    case TRACK:
        make_track(&w->plant, p->first.byte);
        break;
    case PAIR:
        make_bench(&w->parts[0], p->first.byte);
        make_bench(&w->parts[1], p->second.byte);
        make_pair(&w->plant, &w->parts[0], &w->parts[1]);
        break;
    }
}

/* Runs the library in just the records that the leg needs, with an index of so many words, and holds it to the peer. */
static double library_time(struct work *w, const struct measured *want, size_t index_count)
{
    double took;

    w->record_count = (size_t)want->need;
    w->records = zeros(w->record_count, sizeof *w->records);
    w->index_count = index_count;
    w->index = zeros(index_count, sizeof *w->index);
    took = least_time(by_library, w);
    if (w->answer != (want->length == NO_LENGTH ? 256 * 7 : want->length))
        differs(w->problem->name, "the length differs");
    if (want->length != NO_LENGTH && w->expanded != want->expanded)
        differs(w->problem->name, "the settings expanded differ");
    free(w->records);
    free(w->index);
    return took / (double)want->expanded;
}

static void print_ratio(double of, double to)
{
    if (of == 0 || to == 0)
        printf(" %7s", "-");
    else
        printf(" %7.2f", of / to);
}

static void print_time(double time)
{
    if (time == 0)
        printf(" %9s", "-");
    else
        printf(" %9.1f", time);
}

static struct times compare_leg(const struct problem *problem)
{
    static struct work w;
    struct times t = {0};
    struct measured want;
    size_t words, most_chained;

    w.problem = problem;
    make_plants(&w);
    t.peer_marks = least_time(by_marks, &w);
    want = w.peer;
    t.peer_hashes = least_time(by_hash, &w);
    if (w.peer.length != want.length || w.peer.expanded != want.expanded || w.peer.need != want.need)
        differs(problem->name, "the peers differ");
    t.peer_marks /= (double)want.expanded;
    t.peer_hashes /= (double)want.expanded;

    /* chains are used where there are too few words for marks; they want one word a record, and as many again at least */
    words = ((size_t)w.plant.settings + 31) / 32;
    most_chained = words - 1;
    t.marks = library_time(&w, &want, words);
    if (2 * want.need <= most_chained)
        t.chains = library_time(&w, &want, 3 * want.need <= most_chained ? 3 * (size_t)want.need : most_chained);

    printf("%-34s %10u %9llu %9llu", problem->name, w.plant.settings, (unsigned long long)want.widest,
           (unsigned long long)want.expanded);
    print_time(t.marks);
    print_time(t.chains);
    print_time(t.peer_marks);
    print_time(t.peer_hashes);
    print_ratio(t.marks, t.peer_marks);
    print_ratio(t.marks, t.peer_hashes);
    print_ratio(t.chains, t.peer_hashes);
    printf("\n");
    fflush(stdout);
    return t;
}

/* ---- A plan, by the library and by the reference ---- */

struct plan_work {
    const struct problem *problem;
    struct jidorafu_record records[BOOK_RECORDS];
    uint32_t *index;
    size_t index_count;
    uint16_t list[LIST];
    uint64_t answer, count;
    uint8_t book[MOST_TRACK_BODY], sheet[JIDORAFU_SHEET_MOST];
    size_t book_length;
    uint64_t sheet_length;
};

static void plan_by_library(void *of)
{
    struct plan_work *w = of;
    const struct problem *p = w->problem;

    w->answer = jidorafu_plan_bench(p->first.byte, p->first.length, p->leg.start, p->leg.target, (uint16_t)p->leg.bound,
                                    w->records, BOOK_RECORDS, w->index, w->index_count, w->list, LIST, &w->count);
}

static void plan_by_reference(void *of)
{
    struct plan_work *w = of;

    w->sheet_length = reference_book_to_sheet(w->book, w->book_length, w->sheet, sizeof w->sheet);
}

/* A book of the bench and the one job. */
static void make_book(struct plan_work *w)
{
    const struct problem *p = w->problem;
    uint8_t *job = w->book + 10 + p->first.length;
    const uint8_t head[10] = {2, 0, 1, 0, (uint8_t)p->first.length, 0, 3, 0, 12, 0};

    memcpy(w->book, head, sizeof head);
    memcpy(w->book + 10, p->first.byte, p->first.length);
    memset(job, 0, 12);
    put_two(job + 2, p->leg.bound);
    put_two(job + 4, p->leg.start & 65535);
    put_two(job + 6, p->leg.start >> 16);
    put_two(job + 8, p->leg.target & 65535);
    put_two(job + 10, p->leg.target >> 16);
    w->book_length = 10 + p->first.length + 12;
}

static uint64_t number_at(const uint8_t *at, unsigned bytes)
{
    uint64_t number = 0;

    while (bytes > 0)
        number = number << 8 | at[--bytes];
    return number;
}

/* Plans with marks, or else with chains. */
static void compare_plan(const struct problem *problem, int marks)
{
    static struct plan_work w;
    struct plant plant;
    double library, reference;

    w.problem = problem;
    make_bench(&plant, problem->first.byte);
    w.index_count = marks ? ((size_t)plant.settings + 31) / 32 : 3 * (size_t)BOOK_RECORDS;
    w.index = zeros(w.index_count, sizeof *w.index);
    make_book(&w);
    reference = least_time(plan_by_reference, &w);
    library = least_time(plan_by_library, &w);
    free(w.index);

    if (w.sheet_length != 16 + 2 * w.answer || w.sheet[6] != 0)
        differs(problem->name, "the length of the list differs");
    if (number_at(w.sheet + 8, 8) != w.count)
        differs(problem->name, "the count differs");
    for (size_t k = 0; k < LIST; k++)
        if (w.list[k] != (k < w.answer ? number_at(w.sheet + 16 + 2 * k, 2) : 0))
            differs(problem->name, "the list differs");

    printf("%-34s %10u %9llu", problem->name, plant.settings, (unsigned long long)w.count);
    print_time(library / (double)w.count);
    print_time(reference / (double)w.count);
    print_ratio(library, reference);
    printf("\n");
}

/* ---- A book, by the library and by the reference ---- */

struct book_work {
    uint8_t book[JIDORAFU_BOOK_MOST + 1];
    size_t length;
    uint8_t sheet[JIDORAFU_SHEET_MOST], want[JIDORAFU_SHEET_MOST];
    uint64_t answer, wanted;
};

static void book_by_library(void *of)
{
    struct book_work *w = of;

    w->answer = jidorafu_book_to_sheet(w->book, w->length, w->sheet, sizeof w->sheet);
}

static void book_by_reference(void *of)
{
    struct book_work *w = of;

    w->wanted = reference_book_to_sheet(w->book, w->length, w->want, sizeof w->want);
}

/* Answers how many times as long the library took; 0 for a book that takes the reference under a millisecond. */
static double compare_book(const char *name)
{
    static struct book_work w;
    const char *last = strrchr(name, '/');
    FILE *in = fopen(name, "rb");
    double library, reference;

    if (in == NULL) {
        fprintf(stderr, "bench: %s cannot be read\n", name);
        exit(2);
    }
    w.length = fread(w.book, 1, sizeof w.book, in);
    fclose(in);
    reference = least_time(book_by_reference, &w);
    library = least_time(book_by_library, &w);
    if (w.answer != w.wanted || (!jidorafu_is_fault(w.answer) && memcmp(w.sheet, w.want, (size_t)w.answer) != 0))
        differs(name, "the sheet differs");
    printf("%-34s %10.1f %10.1f", last == NULL ? name : last + 1, library / 1e3, reference / 1e3);
    print_ratio(library, reference);
    printf("\n");
    fflush(stdout);
    return reference < 1e6 ? 0 : library / reference;
}

/* ---- The problems ---- */

static const uint8_t bench_a[] = {2, 1, 3, 2, 0, 2, 1, 0};

/* On twelve valves of four positions: the first `far` of them from 0 to 3, the others from 0 to 1, on no longer way. */
static struct problem narrow_leg(const char *name, unsigned far)
{
    struct problem p = {name, BENCH, bench_body("444444444444", 2), {{0}, 0}, {0, 0, 0}};

    for (unsigned v = 12; v-- > 0;) {
        p.leg.target = 4 * p.leg.target + (v < far ? 3 : 1);
        p.leg.bound += v < far ? 3 : 1;
    }
    return p;
}

static struct problem whole_bench(const char *name, unsigned rows)
{
    struct problem p = {name, BENCH, bench_body("444444444444", rows), {{0}, 0}, {0, 16777215, 255}};

    return p;
}

static void print_machine(void)
{
    char line[256];
    FILE *in = fopen("/proc/cpuinfo", "r");

    while (in != NULL && fgets(line, sizeof line, in) != NULL)
        if (strncmp(line, "model name", 10) == 0) {
            printf("machine: %s", strchr(line, ':') + 2);
            break;
        }
    if (in != NULL)
        fclose(in);
}

static void print_bar(const char *what, double ratio, double most)
{
    if (ratio == 0)
        printf("%-78s      not run\n", what);
    else
        printf("%-78s %5.2f  %s\n", what, ratio, ratio <= most ? "kept" : "not kept");
}

int main(int argc, char **argv)
{
    struct problem p = {"bench A", BENCH, {{0}, sizeof bench_a}, {{0}, 0}, {0, 2, 4}};
    struct times few, many, pair, width[4], t;
    double chains = 0, book = 0;

    print_machine();
    printf("\nOne leg: nanoseconds for each setting expanded, and ratios\n");
    printf("%-34s %10s %9s %9s %9s %9s %9s %9s %7s %7s %7s\n", "leg", "settings", "widest", "expanded", "marks", "chains",
           "peer a", "peer b", "marks/a", "marks/b", "chns/b");

    memcpy(p.first.byte, bench_a, sizeof bench_a);
    compare_leg(&p);

    p = narrow_leg("12 valves of 4, widest about 10^3", 0);
    width[0] = compare_leg(&p);
    p = narrow_leg("12 valves of 4, widest about 10^4", 4);
    width[1] = compare_leg(&p);
    p = narrow_leg("12 valves of 4, widest about 10^5", 7);
    width[2] = compare_leg(&p);
    p = narrow_leg("12 valves of 4, widest about 10^6", 11);
    width[3] = compare_leg(&p);

    p = whole_bench("12 valves of 4, 2 interlocks", 2);
    few = compare_leg(&p);
    p = whole_bench("12 valves of 4, 30 interlocks", 30);
    many = compare_leg(&p);

    p.name = "pair of benches, whole";
    p.kind = PAIR;
    p.first = bench_body("44444", 3);
    p.second = bench_body("44444", 6);
    p.leg.target = 1048575;
    pair = compare_leg(&p);
    p.name = "pair of benches, narrow";
    p.leg.target = 0x15f + 1024 * 0x15f; /* in both, two valves from 0 to 3 and three from 0 to 1 */
    p.leg.bound = 18;
    t = compare_leg(&p);

    p.name = "track of 512 stations";
    p.kind = TRACK;
    p.first = track_body(512, 1024);
    p.leg.target = 511;
    p.leg.bound = 255;
    compare_leg(&p);

    printf("\nOne plan with 8,192 records: nanoseconds for each setting counted\n");
    printf("%-34s %10s %9s %9s %9s %7s\n", "plan", "settings", "count", "library", "reference", "ratio");
    p = narrow_leg("12 valves of 4, with marks", 0);
    compare_plan(&p, 1);
    p.name = "12 valves of 4, with chains";
    compare_plan(&p, 0);

    printf("\nBook to sheet: microseconds for each call\n");
    printf("%-34s %10s %10s %7s\n", "book", "library", "reference", "ratio");
    for (int i = 1; i < argc; i++) {
        double ratio = compare_book(argv[i]);

        if (book < ratio)
            book = ratio;
    }

    for (int i = 0; i < 4; i++)
        if (width[i].chains != 0 && chains < width[i].chains / width[i].peer_hashes)
            chains = width[i].chains / width[i].peer_hashes;
    if (chains < t.chains / t.peer_hashes)
        chains = t.chains / t.peer_hashes;

    printf("\nWhat is aimed at\n");
    print_bar("marks on the whole bench, 2 interlocks: at most 2 times peer a", few.marks / few.peer_marks, 2);
    print_bar("marks on the whole bench, 30 interlocks: at most 2 times peer a", many.marks / many.peer_marks, 2);
    print_bar("marks on the whole pair: at most 2 times peer a", pair.marks / pair.peer_marks, 2);
    print_bar("marks on the whole bench, 2 interlocks: faster than peer b", few.marks / few.peer_hashes, 1);
    print_bar("marks on the whole bench, 30 interlocks: faster than peer b", many.marks / many.peer_hashes, 1);
    print_bar("chains at each width: at most 1.5 times peer b", chains, 1.5);
    print_bar("book to sheet, books of over a millisecond: at most 1.5 times the reference", book, 1.5);
    print_bar("marks at a width of 10^6 against 10^3: at most 5 times", width[3].marks / width[0].marks, 5);
    print_bar("chains at a width of 10^5 against 10^3: at most 5 times", width[2].chains / width[0].chains, 5);
    return 0;
}
