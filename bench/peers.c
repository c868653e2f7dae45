#include "peers.h"

#include <stdio.h>
#include <stdlib.h>
#include <string.h>

static void *grown(void *memory, size_t bytes)
{
    memory = realloc(memory, bytes);
    if (memory == NULL) {
        fprintf(stderr, "bench: no memory\n");
        exit(2);
    }
    return memory;
}

/* Settings in the order in which they came. */
struct list {
    uint32_t *setting;
    size_t count, room;
};

static inline void append(struct list *list, uint32_t setting)
{
    if (list->count == list->room) {
        list->room = list->room == 0 ? 1024 : 2 * list->room;
        list->setting = grown(list->setting, list->room * sizeof *list->setting);
    }
    list->setting[list->count++] = setting;
}

/* Counts a layer as expanded, once the next one is complete. */
static void count_layer(struct measured *m, size_t previous, size_t present, size_t next)
{
    m->expanded += present;
    if (m->widest < present)
        m->widest = present;
    if (m->need < previous + present + next)
        m->need = previous + present + next;
}

/* ---- One bit for each setting ---- */

static inline int marked(const uint64_t *marks, uint32_t setting)
{
    return marks[setting / 64] >> setting % 64 & 1;
}

static inline void mark(uint64_t *marks, uint32_t setting)
{
    marks[setting / 64] |= UINT64_C(1) << setting % 64;
}

struct measured marked_leg(const struct plant *plant, const struct leg *leg)
{
    static uint64_t *marks;
    static size_t words;
    static struct list present, next;
    const size_t wanted = ((size_t)plant->settings + 63) / 64;
    struct measured m = {NO_LENGTH, 0, 0, 1};
    size_t previous = 0;

    if (words < wanted) {
        words = wanted;
        marks = grown(marks, words * sizeof *marks);
    }
    memset(marks, 0, wanted * sizeof *marks);
    present.count = 0;
    if (plant_estimate(plant, leg->start, leg->target) <= leg->bound) {
        append(&present, leg->start);
        mark(marks, leg->start);
    }

    for (uint32_t depth = 0;; depth++) {
        struct list gone;

        if (marked(marks, leg->target)) {
            m.length = depth;
            return m;
        }
        if (present.count == 0 || depth == leg->bound)
            return m;
        next.count = 0;
        for (size_t k = 0; k < present.count; k++)
            for (uint32_t o = 0; o < plant->operations; o++) {
                uint32_t to = plant_step(plant, present.setting[k], o);

                if (to == NO_STEP || marked(marks, to))
                    continue;
                if (plant_estimate(plant, to, leg->target) + depth + 1 > leg->bound)
                    continue;
                mark(marks, to);
                append(&next, to);
            }
        count_layer(&m, previous, present.count, next.count);
        previous = present.count;
        gone = present;
        present = next;
        next = gone;
    }
}

/* ---- A hash table for each layer ---- */

struct layer {
    struct list list;
    uint32_t *slot; /* a setting plus 1, or 0 where it is free */
    size_t slots;   /* a power of two, at least twice the count */
    unsigned shift; /* takes a product of 32 bits down to a number below slots */
};

static inline size_t slot_of(const struct layer *layer, uint32_t setting)
{
    size_t at = setting * UINT32_C(2654435761) >> layer->shift;

    while (layer->slot[at] != 0 && layer->slot[at] != setting + 1)
        at = (at + 1) & (layer->slots - 1);
    return at;
}

static inline int holds(const struct layer *layer, uint32_t setting)
{
    return layer->slot[slot_of(layer, setting)] != 0;
}

static void clear_slots(struct layer *layer, size_t slots)
{
    if (layer->slots < slots) {
        layer->slots = slots;
        layer->slot = grown(layer->slot, slots * sizeof *layer->slot);
        for (layer->shift = 32; slots > 1; slots /= 2)
            layer->shift--;
    }
    memset(layer->slot, 0, layer->slots * sizeof *layer->slot);
}

static inline void take_in(struct layer *layer, uint32_t setting)
{
    if (2 * (layer->list.count + 1) > layer->slots) {
        clear_slots(layer, 2 * layer->slots);
        for (size_t k = 0; k < layer->list.count; k++)
            layer->slot[slot_of(layer, layer->list.setting[k])] = layer->list.setting[k] + 1;
    }
    layer->slot[slot_of(layer, setting)] = setting + 1;
    append(&layer->list, setting);
}

static void empty(struct layer *layer)
{
    layer->list.count = 0;
    clear_slots(layer, 64);
}

/* Tables that an earlier leg has grown are given back, so that a small leg does not pay for clearing a large table. */
static void begin_layer(struct layer *layer)
{
    free(layer->slot);
    layer->slot = NULL;
    layer->slots = 0;
    empty(layer);
}

struct measured hashed_leg(const struct plant *plant, const struct leg *leg)
{
    static struct layer layers[3];
    struct layer *previous = &layers[0], *present = &layers[1], *next = &layers[2];
    struct measured m = {NO_LENGTH, 0, 0, 1};

    for (int k = 0; k < 3; k++)
        begin_layer(&layers[k]);
    if (plant_estimate(plant, leg->start, leg->target) <= leg->bound)
        take_in(present, leg->start);

    for (uint32_t depth = 0;; depth++) {
        struct layer *gone;

        if (holds(present, leg->target)) {
            m.length = depth;
            return m;
        }
        if (present->list.count == 0 || depth == leg->bound)
            return m;
        for (size_t k = 0; k < present->list.count; k++)
            for (uint32_t o = 0; o < plant->operations; o++) {
                uint32_t to = plant_step(plant, present->list.setting[k], o);

                if (to == NO_STEP || holds(previous, to) || holds(next, to) || holds(present, to))
                    continue;
                if (plant_estimate(plant, to, leg->target) + depth + 1 > leg->bound)
                    continue;
                take_in(next, to);
            }
        count_layer(&m, previous->list.count, present->list.count, next->list.count);
        gone = previous;
        previous = present;
        present = next;
        next = gone;
        empty(next);
    }
}
