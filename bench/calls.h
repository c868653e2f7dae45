/*
 * The calls of the proved library that are made for the benchmark: measuring one leg, and planning one list.
 *
 * body, body_length     a bench or a track, as the body of kind 1 or 2 in a book; it is read and not written
 * start, target, bound  the leg
 * records               the workspace, of record_count records; all zero afterwards
 * index                 memory to find settings by, of index_count words. With index_count * 32 at least the number of
 *                       settings it has one bit for each setting; else, with index_count above record_count, it has chains of
 *                       settings with the same hash; else it is not used, and every record is looked at
 *
 * The answer is the length, 0 to 255; or 256 times the number of the refusal, 4 to 7; or 65,536 where a body is no bench, or no
 * track. Pointers must not be null, and nothing may overlap.
 */
#ifndef CALLS_H
#define CALLS_H

#include <stddef.h>
#include <stdint.h>

struct jidorafu_record {
    uint32_t setting;
    uint32_t relay;
};

uint64_t jidorafu_measure_bench(const uint8_t *body, size_t body_length, uint32_t start, uint32_t target, uint16_t bound,
                                uint32_t *records, size_t record_count, uint32_t *index, size_t index_count,
                                uint64_t *expanded);

uint64_t jidorafu_measure_track(const uint8_t *body, size_t body_length, uint32_t start, uint32_t target, uint16_t bound,
                                uint32_t *records, size_t record_count, uint32_t *index, size_t index_count,
                                uint64_t *expanded);

/* Two benches run as one. */
uint64_t jidorafu_measure_pair(const uint8_t *first, size_t first_length, const uint8_t *second, size_t second_length,
                               uint32_t start, uint32_t target, uint16_t bound, uint32_t *records, size_t record_count,
                               uint32_t *index, size_t index_count, uint64_t *expanded);

/* The list goes to the front of a place of 255 numbers, with zeros behind it; the count goes to *count. */
uint64_t jidorafu_plan_bench(const uint8_t *body, size_t body_length, uint32_t start, uint32_t target, uint16_t bound,
                             struct jidorafu_record *records, size_t record_count, uint32_t *index, size_t index_count,
                             uint16_t *list, size_t list_length, uint64_t *count);

#endif
