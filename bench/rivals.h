/* The rivals of the benchmark: (a) `same_..`, the library's own in-place methods in plain C, with the same checks, answers and
 * words beyond the counts; (b) `primes_..`, the sheet of a list of transitions by a table over all bodies. */
#ifndef RIVALS_H
#define RIVALS_H

#include <stddef.h>
#include <stdint.h>

/* bench/run compiles them twice where it can, the second time for the processor that they run on: these names stand apart. */
#ifdef NATIVE_NAMES
#define same_learn same_learn_native
#define same_take same_take_native
#define same_join same_join_native
#define same_apply same_apply_native
#define same_read same_read_native
#define same_read_sheet same_read_sheet_native
#define same_write_sheet same_write_sheet_native
#define primes_learn primes_learn_native
#endif

typedef uint32_t Learn(uint32_t n, const uint32_t *words, size_t words_len, uint32_t *book, size_t book_len,
                       uint32_t *sheet, size_t sheet_len, size_t answer[6]);
typedef uint32_t Take(uint32_t n, uint32_t i, uint32_t j, uint32_t *book, size_t book_len, size_t book_count,
                      uint32_t *sheet, size_t sheet_len, size_t sheet_count, size_t answer[6]);
typedef uint32_t Join(uint32_t n, const uint32_t *a_book, size_t a_book_len, size_t a_book_count,
                      const uint32_t *a_sheet, size_t a_sheet_len, size_t a_sheet_count,
                      const uint32_t *b_book, size_t b_book_len, size_t b_book_count,
                      const uint32_t *b_sheet, size_t b_sheet_len, size_t b_sheet_count,
                      uint32_t *book, size_t book_len, uint32_t *sheet, size_t sheet_len, size_t answer[6]);
typedef uint32_t Apply(uint32_t n, const uint32_t *sheet, size_t sheet_len, size_t sheet_count, uint32_t x,
                       size_t answer[7]);
typedef uint32_t Read(const uint8_t *text, size_t text_len, uint32_t *list, size_t list_len, size_t answer[4]);
typedef uint32_t Write(uint32_t n, const uint32_t *sheet, size_t sheet_len, size_t sheet_count, uint8_t *out,
                       size_t out_len, size_t answer[7]);

Learn same_learn, same_learn_native;
Take same_take, same_take_native;
Join same_join, same_join_native;
Apply same_apply, same_apply_native;
Read same_read, same_read_native, same_read_sheet, same_read_sheet_native;
Write same_write_sheet, same_write_sheet_native;

/* n from 1 to 10 and valid words are taken for granted. Returns 0, or 7, 8, 9; struck and added are not known, and 0. */
Learn primes_learn, primes_learn_native;

#endif
