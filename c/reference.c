/*
 * The sheet of a book in plain C. Three parts, one after the other: searching one leg, planning a list, reading and writing
 * files. The rules stand in docs/SEARCH.md, docs/FILES.md and docs/REFUSALS.md.
 */
#include "reference.h"

#include <string.h>

#include "plants.h"

enum {
    RECORDS = 8192,
    CHAINS = 16384,
    MOST_BOUND = 255,
    MOST_LIST = 255,
    MOST_ENTRIES = 64,
    MOST_BODY = 10 + 2 * MOST_LIST,
    MOST_SHEET = 2 + MOST_ENTRIES * (4 + MOST_BODY),
    MOST_FILE = 65535
};

/* ---- One leg ---- */

struct record {
    uint32_t setting;
    uint32_t relay; /* the setting half way on the way here, 0 before that */
};

/*
 * The records that stand: the layer before the present one, the present one and the next. Records are numbered from 1 as they
 * enter, on through all legs of a plan, and number n is kept at n % RECORDS. A record whose number is below `previous` is
 * given up. Records of equal hash form a chain from the newest to the oldest, so that a walk along it stops at the first one
 * that is given up. The numbers fit: a plan has under 256 legs of at most 256 layers, of at most RECORDS each.
 */
struct store {
    uint32_t room;     /* how many records may stand, at most RECORDS */
    uint32_t previous; /* number of the first record of the layer before */
    uint32_t present;  /* number of the first record of the present layer */
    uint32_t next;     /* number of the first record of the next layer */
    uint32_t end;      /* number that the next record to enter will have */
    struct record record[RECORDS];
    uint32_t older[RECORDS]; /* the next older record of the same chain, 0 at its end */
    uint32_t newest[CHAINS]; /* the newest record of each chain, 0 where it is empty */
};

static void clear_store(struct store *store, uint32_t room)
{
    store->room = room;
    store->end = 1;
    memset(store->newest, 0, sizeof store->newest);
}

static uint32_t chain_of(uint32_t setting)
{
    return setting * UINT32_C(2654435761) >> 18; /* 14 bits: CHAINS */
}

/* The record of a setting that stands in one of the three layers, or none. */
static const struct record *find(const struct store *store, uint32_t setting)
{
    for (uint32_t n = store->newest[chain_of(setting)]; n >= store->previous; n = store->older[n % RECORDS])
        if (store->record[n % RECORDS].setting == setting)
            return &store->record[n % RECORDS];
    return NULL;
}

/* Takes a record into the newest layer; 0 where there is no room. */
static int enter(struct store *store, uint32_t setting, uint32_t relay)
{
    uint32_t chain = chain_of(setting);
    uint32_t n = store->end;

    if (n - store->previous == store->room)
        return 0;
    store->record[n % RECORDS].setting = setting;
    store->record[n % RECORDS].relay = relay;
    store->older[n % RECORDS] = store->newest[chain];
    store->newest[chain] = n;
    store->end = n + 1;
    return 1;
}

struct leg {
    uint32_t start, target, bound;
    uint32_t half; /* the depth at which relays are taken */
};

struct outcome {
    int overfull;
    int found;
    uint32_t length;   /* where found */
    uint32_t relay;    /* where found, and half is at most the length */
    uint64_t expanded; /* where not overfull */
};

static struct outcome search(const struct plant *plant, const struct leg *leg, struct store *store)
{
    struct outcome out = {0};

    store->previous = store->present = store->next = store->end;
    out.overfull = store->room == 0;
    if (out.overfull)
        return out;
    if (plant_estimate(plant, leg->start, leg->target) <= leg->bound)
        enter(store, leg->start, 0);

    for (uint32_t depth = 0;; depth++) {
        const struct record *target;

        /* the layer at this depth is now finished: it becomes the present one */
        store->previous = store->present;
        store->present = store->next;
        store->next = store->end;

        target = find(store, leg->target);
        if (target != NULL) {
            out.found = 1;
            out.length = depth;
            out.relay = target->relay;
            return out;
        }
        if (store->present == store->next || depth == leg->bound)
            return out;

        for (uint32_t n = store->present; n < store->next; n++) {
            const struct record from = store->record[n % RECORDS];

            for (uint32_t o = 0; o < plant->operations; o++) {
                uint32_t to = plant_step(plant, from.setting, o);

                if (to == NO_STEP || find(store, to) != NULL)
                    continue;
                if (plant_estimate(plant, to, leg->target) + depth + 1 > leg->bound)
                    continue;
                out.overfull = !enter(store, to, depth + 1 == leg->half ? to : from.relay);
                if (out.overfull)
                    return out;
            }
        }
        out.expanded += store->next - store->present;
    }
}

/* ---- A plan ---- */

struct plan {
    unsigned refusal; /* 0 where there is a list, else 4 to 7 */
    uint32_t length;
    uint64_t count;
    uint16_t list[MOST_LIST];
};

static uint16_t lowest_operation(const struct plant *plant, uint32_t from, uint32_t to)
{
    uint32_t o = 0;

    while (plant_step(plant, from, o) != to)
        o++;
    return (uint16_t)o;
}

/* Appends the earliest list of `length` operations between two settings; 0 where a leg is overfull. */
static int fetch(const struct plant *plant, uint32_t from, uint32_t to, uint32_t length, struct store *store,
                 struct plan *plan)
{
    struct leg leg = {from, to, length, length / 2};
    struct outcome out;

    if (length == 0)
        return 1;
    if (length == 1) {
        plan->list[plan->length++] = lowest_operation(plant, from, to);
        return 1;
    }
    out = search(plant, &leg, store);
    if (out.overfull)
        return 0;
    plan->count += out.expanded;
    return fetch(plant, from, out.relay, length / 2, store, plan)
           && fetch(plant, out.relay, to, length - length / 2, store, plan);
}

static void refuse(struct plan *plan, unsigned refusal)
{
    plan->refusal = refusal;
    plan->length = 0;
    plan->count = 0;
}

static void make_plan(const struct plant *plant, uint32_t start, uint32_t target, uint32_t bound, uint32_t records,
                      struct store *store, struct plan *plan)
{
    struct leg first = {start, target, bound, 0};
    struct outcome out;

    refuse(plan, 0);
    if (start >= plant->settings || target >= plant->settings) {
        refuse(plan, 4);
        return;
    }
    if (bound > MOST_BOUND) {
        refuse(plan, 5);
        return;
    }
    clear_store(store, records);
    out = search(plant, &first, store);
    if (out.overfull) {
        refuse(plan, 6);
        return;
    }
    if (!out.found) {
        refuse(plan, 7);
        return;
    }
    plan->count = out.expanded;
    if (!fetch(plant, start, target, out.length, store, plan))
        refuse(plan, 6);
}

/* ---- Files ---- */

enum layer { LAYER_FILE = 1, LAYER_CONTENTS = 2, LAYER_BODY = 3, LAYER_SHEET = 4 };
enum kind { KIND_VALVES = 1, KIND_TRACK = 2, KIND_JOB = 3, KIND_STEPS = 4 };

struct entry {
    unsigned kind;
    size_t place;
    size_t length;
    const uint8_t *body;
};

struct book {
    unsigned entries;
    struct entry entry[MOST_ENTRIES];
};

/* No fault is 0. */
static uint64_t fault(enum layer layer, unsigned number, size_t byte)
{
    return UINT64_C(65536) * (256u * (unsigned)layer + number) + byte;
}

static uint64_t wrong_body(const struct entry *e, size_t byte_of_body)
{
    return fault(LAYER_BODY, 12, e->place + byte_of_body);
}

static uint64_t check_valves(const struct entry *e)
{
    const uint8_t *body = e->body;
    unsigned valves, rows;

    if (e->length < 2)
        return wrong_body(e, 0);
    valves = body[0];
    rows = body[1];
    if (e->length != 2 + valves + 4 * (size_t)rows || valves < 1 || valves > MOST_VALVES)
        return wrong_body(e, 0);
    if (rows > MOST_INTERLOCKS)
        return wrong_body(e, 1);
    for (unsigned v = 0; v < valves; v++)
        if (body[2 + v] < 2 || body[2 + v] > 4)
            return wrong_body(e, 2 + v);
    for (unsigned r = 0; r < rows; r++) {
        size_t at = 2 + valves + 4 * (size_t)r;
        unsigned a = body[at], p = body[at + 1], b = body[at + 2], q = body[at + 3];

        if (a >= valves)
            return wrong_body(e, at);
        if (p >= body[2 + a])
            return wrong_body(e, at + 1);
        if (b >= valves || b == a)
            return wrong_body(e, at + 2);
        if (q >= body[2 + b])
            return wrong_body(e, at + 3);
    }
    return 0;
}

static uint64_t check_track(const struct entry *e)
{
    const uint8_t *body = e->body;
    uint32_t stations, links;

    if (e->length < 4)
        return wrong_body(e, 0);
    stations = two_bytes(body);
    links = two_bytes(body + 2);
    if (e->length != 4 + 4 * (size_t)links || stations < 1 || stations > 512)
        return wrong_body(e, 0);
    if (links > MOST_LINKS)
        return wrong_body(e, 2);
    for (uint32_t m = 0; m < links; m++) {
        size_t at = 4 + 4 * (size_t)m;
        uint32_t one = two_bytes(body + at), two = two_bytes(body + at + 2);

        if (one >= stations)
            return wrong_body(e, at);
        if (two >= stations || two == one)
            return wrong_body(e, at + 2);
    }
    return 0;
}

static uint64_t check_job(const struct book *book, unsigned number)
{
    const struct entry *e = &book->entry[number];
    unsigned named;

    if (e->length != 12)
        return wrong_body(e, 0);
    named = e->body[0];
    if (named >= number || (book->entry[named].kind != KIND_VALVES && book->entry[named].kind != KIND_TRACK))
        return wrong_body(e, 0);
    return e->body[1] != 0 ? wrong_body(e, 1) : 0;
}

static uint64_t check_steps(const struct entry *e)
{
    unsigned answer;

    if (e->length < 10 || e->length > MOST_BODY || e->length % 2 != 0)
        return wrong_body(e, 0);
    answer = e->body[0];
    if (answer != 0 && (answer < 4 || answer > 7 || e->length != 10))
        return wrong_body(e, 0);
    if (e->body[1] != 0)
        return wrong_body(e, 1);
    for (unsigned k = 2; answer != 0 && k < 10; k++)
        if (e->body[k] != 0)
            return wrong_body(e, 2);
    return 0;
}

/* Reads a file whose entries may be of all four kinds; answers its first fault, or 0. */
static uint64_t read_file(const uint8_t *bytes, size_t length, struct book *book)
{
    size_t place;

    if (length > MOST_FILE)
        return fault(LAYER_FILE, 10, MOST_FILE);
    if (length < 2)
        return fault(LAYER_FILE, 10, length);
    if (bytes[0] > MOST_ENTRIES)
        return fault(LAYER_CONTENTS, 11, 0);
    if (bytes[1] != 0)
        return fault(LAYER_CONTENTS, 11, 1);
    book->entries = bytes[0];
    place = 2 + 4 * (size_t)book->entries;
    if (length < place)
        return fault(LAYER_FILE, 10, length);

    for (unsigned i = 0; i < book->entries; i++) {
        const uint8_t *row = bytes + 2 + 4 * (size_t)i;

        if (row[0] < KIND_VALVES || row[0] > KIND_STEPS)
            return fault(LAYER_CONTENTS, 11, 2 + 4 * (size_t)i);
        if (row[1] != 0)
            return fault(LAYER_CONTENTS, 11, 3 + 4 * (size_t)i);
        book->entry[i].kind = row[0];
        book->entry[i].place = place;
        book->entry[i].length = two_bytes(row + 2);
        place += book->entry[i].length;
    }
    if (length < place)
        return fault(LAYER_FILE, 10, length);
    if (length > place)
        return fault(LAYER_FILE, 10, place);

    for (unsigned i = 0; i < book->entries; i++) {
        struct entry *e = &book->entry[i];
        uint64_t found = 0;

        e->body = bytes + e->place;
        switch (e->kind) {
        case KIND_VALVES:
            found = check_valves(e);
            break;
        case KIND_TRACK:
            found = check_track(e);
            break;
        case KIND_JOB:
            found = check_job(book, i);
            break;
        case KIND_STEPS:
            found = check_steps(e);
            break;
        }
        if (found != 0)
            return found;
    }
    return 0;
}

/* The answer to a job of a book without a fault. */
static void answer_job(const struct book *book, const struct entry *job, struct store *store, struct plan *plan)
{
    const struct entry *named = &book->entry[job->body[0]];
    struct plant plant;

    if (named->kind == KIND_VALVES)
        make_bench(&plant, named->body);
    else
        make_track(&plant, named->body);
    make_plan(&plant, four_bytes(job->body + 4), four_bytes(job->body + 8), two_bytes(job->body + 2), RECORDS, store, plan);
}

static void put_number(uint8_t *at, unsigned bytes, uint64_t number)
{
    for (unsigned k = 0; k < bytes; k++)
        at[k] = (uint8_t)(number >> 8 * k & 255);
}

/* Writes a row of the sheet and its body; answers the body's length. */
static size_t put_steps(uint8_t *row, uint8_t *body, const struct plan *plan)
{
    size_t length = 10 + 2 * (size_t)plan->length;

    put_number(row, 1, KIND_STEPS);
    put_number(row + 1, 1, 0);
    put_number(row + 2, 2, length);
    put_number(body, 1, plan->refusal);
    put_number(body + 1, 1, 0);
    put_number(body + 2, 8, plan->count);
    for (size_t k = 0; k < plan->length; k++)
        put_number(body + 10 + 2 * k, 2, plan->list[k]);
    return length;
}

uint64_t reference_book_to_sheet(const uint8_t *bytes, size_t length, uint8_t *sheet, size_t sheet_length)
{
    struct book book;
    struct store store;
    struct plan plan;
    uint8_t whole[MOST_SHEET];
    unsigned jobs = 0, done = 0;
    size_t end;
    uint64_t found = read_file(bytes, length, &book);

    if (found != 0)
        return found;
    for (unsigned i = 0; i < book.entries; i++) {
        if (book.entry[i].kind == KIND_STEPS)
            return fault(LAYER_CONTENTS, 14, 2 + 4 * (size_t)i);
        jobs += book.entry[i].kind == KIND_JOB;
    }

    put_number(whole, 1, jobs);
    put_number(whole + 1, 1, 0);
    end = 2 + 4 * (size_t)jobs;
    for (unsigned i = 0; i < book.entries; i++)
        if (book.entry[i].kind == KIND_JOB) {
            answer_job(&book, &book.entry[i], &store, &plan);
            end += put_steps(whole + 2 + 4 * (size_t)done, whole + end, &plan);
            done++;
        }

    if (sheet_length < end) {
        memset(sheet, 0, sheet_length);
        return fault(LAYER_SHEET, 13, sheet_length);
    }
    memcpy(sheet, whole, end);
    return end;
}
