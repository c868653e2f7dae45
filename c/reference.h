/*
 * The sheet of a book in plain C, written from the rules of docs/ and not from the proved code.
 *
 * It takes, answers and leaves the same as jidorafu_book_to_sheet, and is held against it by edges.c and by the benchmark.
 */
#ifndef REFERENCE_H
#define REFERENCE_H

#include <stddef.h>
#include <stdint.h>

uint64_t reference_book_to_sheet(const uint8_t *book, size_t book_length, uint8_t *sheet, size_t sheet_length);

#endif
