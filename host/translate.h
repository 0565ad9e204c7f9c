/* Translates the bytes of a routine table to continuation form. */
#ifndef TRANSLATE_H
#define TRANSLATE_H

#include <stddef.h>
#include <stdint.h>

/* The most bytes that a translation has: 976 words of eight. */
#define TRANSLATE_MOST 7808

/*
 * Reads table_len bytes of a table, and writes its translation to out, which has room for out_len
 * bytes. Answers how many bytes were written; every byte after them is as it was.
 *
 * Refused, it writes nothing and answers -(cause * 1000 + place): causes 1 to 15 are those of the
 * table, 16 with place 0 says that out is too short.
 */
int32_t translate(const uint8_t *table, size_t table_len, uint8_t *out, size_t out_len);

#endif
