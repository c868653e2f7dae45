/*
 * The peers of the benchmark: two searches of one leg in plain C.
 *
 * Both go layer by layer from the start, test each arrival for having been met and then by the estimate against the bound, and
 * finish a layer before they look whether it has the target. They ask the plant the same questions as the proved search does:
 * a step for every operation, and an estimate for every arrival that is new. Neither keeps to a number of records.
 */
#ifndef PEERS_H
#define PEERS_H

#include <stdint.h>

#include "../c/plants.h"

#define NO_LENGTH UINT32_MAX

struct leg {
    uint32_t start, target, bound;
};

struct measured {
    uint32_t length;   /* or NO_LENGTH */
    uint64_t expanded; /* the settings of all layers but the last */
    uint64_t widest;   /* the most settings of a layer */
    uint64_t need;     /* the most settings of three layers one behind the other */
};

/* Breadth-first with one bit for each setting, and two arrays for the layers. */
struct measured marked_leg(const struct plant *plant, const struct leg *leg);

/* Three layers kept, each with an open hash table of its own that doubles as it fills. */
struct measured hashed_leg(const struct plant *plant, const struct leg *leg);

#endif
