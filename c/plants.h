/*
 * Plants in plain C: valve benches, tracks and pairs of them, with the questions that a search asks.
 *
 * Written from the rules in docs/PLANTS.md, for the reference planner and for the peers of the benchmark. Plants are made from
 * bodies that are known to keep their rules. A question is asked with settings and operations in range.
 */
#ifndef PLANTS_H
#define PLANTS_H

#include <stddef.h>
#include <stdint.h>

enum {
    MOST_VALVES = 12,
    MOST_INTERLOCKS = 32,
    MOST_LINKS = 1024
};

/* What a step answers where there is none. */
#define NO_STEP UINT32_MAX

enum plant_kind { BENCH = 1, TRACK = 2, PAIR = 3 };

struct interlock {
    uint32_t position; /* the valve may not move into or out of this position .. */
    uint32_t other;    /* .. while this other valve .. */
    uint32_t stands;   /* .. stands here */
};

struct bench {
    uint32_t valves;
    uint32_t positions[MOST_VALVES];
    uint32_t weight[MOST_VALVES];        /* what one position of the valve adds to the setting */
    uint32_t first[MOST_VALVES + 1];     /* the interlocks of valve v are first[v] to first[v + 1] - 1 */
    struct interlock interlock[MOST_INTERLOCKS];
};

struct track {
    uint32_t links;
    uint16_t one[MOST_LINKS];
    uint16_t two[MOST_LINKS];
};

struct plant {
    enum plant_kind kind;
    uint32_t settings;
    uint32_t operations;
    struct bench bench;                 /* of kind BENCH */
    struct track track;                 /* of kind TRACK */
    const struct plant *first, *second; /* of kind PAIR */
};

/* Numbers in bytes, low byte first. */
static inline uint32_t two_bytes(const uint8_t *at)
{
    return at[0] | (uint32_t)at[1] << 8;
}

static inline uint32_t four_bytes(const uint8_t *at)
{
    return two_bytes(at) | two_bytes(at + 2) << 16;
}

static inline void make_bench(struct plant *plant, const uint8_t *body)
{
    struct bench *b = &plant->bench;
    uint32_t rows = body[1];
    uint32_t filled = 0;

    plant->kind = BENCH;
    plant->settings = 1;
    b->valves = body[0];
    for (uint32_t v = 0; v < b->valves; v++) {
        b->positions[v] = body[2 + v];
        b->weight[v] = plant->settings;
        plant->settings *= b->positions[v];
    }
    plant->operations = 2 * b->valves;

    for (uint32_t v = 0; v < b->valves; v++) {
        b->first[v] = filled;
        for (uint32_t r = 0; r < rows; r++) {
            const uint8_t *row = body + 2 + b->valves + 4 * r;

            if (row[0] == v) {
                b->interlock[filled].position = row[1];
                b->interlock[filled].other = row[2];
                b->interlock[filled].stands = row[3];
                filled++;
            }
        }
    }
    b->first[b->valves] = filled;
}

static inline void make_track(struct plant *plant, const uint8_t *body)
{
    struct track *t = &plant->track;

    plant->kind = TRACK;
    plant->settings = two_bytes(body);
    t->links = two_bytes(body + 2);
    plant->operations = t->links;
    for (uint32_t m = 0; m < t->links; m++) {
        t->one[m] = (uint16_t)two_bytes(body + 4 + 4 * m);
        t->two[m] = (uint16_t)two_bytes(body + 6 + 4 * m);
    }
}

/* Two plants as one; the caller sees to it that the pair is not too large. */
static inline void make_pair(struct plant *plant, const struct plant *first, const struct plant *second)
{
    plant->kind = PAIR;
    plant->settings = first->settings * second->settings;
    plant->operations = first->operations + second->operations;
    plant->first = first;
    plant->second = second;
}

static inline uint32_t position(const struct bench *b, uint32_t setting, uint32_t valve)
{
    return setting / b->weight[valve] % b->positions[valve];
}

static inline uint32_t bench_step(const struct bench *b, uint32_t setting, uint32_t operation)
{
    uint32_t valve = operation / 2;
    int up = operation % 2 == 0;
    uint32_t from = position(b, setting, valve);
    uint32_t to = up ? from + 1 : from - 1;

    if (from == (up ? b->positions[valve] - 1 : 0))
        return NO_STEP;
    for (uint32_t i = b->first[valve]; i < b->first[valve + 1]; i++) {
        const struct interlock *lock = &b->interlock[i];

        if ((lock->position == from || lock->position == to) && position(b, setting, lock->other) == lock->stands)
            return NO_STEP;
    }
    return up ? setting + b->weight[valve] : setting - b->weight[valve];
}

static inline uint32_t bench_estimate(const struct bench *b, uint32_t setting, uint32_t target)
{
    uint32_t sum = 0;

    for (uint32_t v = 0; v < b->valves; v++) {
        uint32_t here = setting % b->positions[v];
        uint32_t there = target % b->positions[v];

        sum += here < there ? there - here : here - there;
        setting /= b->positions[v];
        target /= b->positions[v];
    }
    return sum;
}

static inline uint32_t track_step(const struct track *t, uint32_t setting, uint32_t operation)
{
    if (t->one[operation] == setting)
        return t->two[operation];
    if (t->two[operation] == setting)
        return t->one[operation];
    return NO_STEP;
}

/* The setting that an operation leads to, or NO_STEP. */
static inline uint32_t plant_step(const struct plant *plant, uint32_t setting, uint32_t operation)
{
    uint32_t a, b, to;

    switch (plant->kind) {
    case BENCH:
        return bench_step(&plant->bench, setting, operation);
    case TRACK:
        return track_step(&plant->track, setting, operation);
    case PAIR:
        break;
    }
    a = setting % plant->first->settings;
    b = setting / plant->first->settings;
    if (operation < plant->first->operations) {
        to = plant_step(plant->first, a, operation);
        return to == NO_STEP ? NO_STEP : to + plant->first->settings * b;
    }
    to = plant_step(plant->second, b, operation - plant->first->operations);
    return to == NO_STEP ? NO_STEP : a + plant->first->settings * to;
}

/* A number of operations that no way between the two settings can undercut. */
static inline uint32_t plant_estimate(const struct plant *plant, uint32_t setting, uint32_t target)
{
    uint32_t below;

    switch (plant->kind) {
    case BENCH:
        return bench_estimate(&plant->bench, setting, target);
    case TRACK:
        return setting != target;
    case PAIR:
        break;
    }
    below = plant->first->settings;
    return plant_estimate(plant->first, setting % below, target % below)
           + plant_estimate(plant->second, setting / below, target / below);
}

#endif
