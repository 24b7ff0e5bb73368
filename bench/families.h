/*
 * Families of well-formed tables that are slow to check. Each is built at one, two or four quarters of document 01's limits, so that growth shows.
 */
#ifndef LHAKVUNI_FAMILIES_H
#define LHAKVUNI_FAMILIES_H

#include <stddef.h>
#include <stdint.h>

enum { SIZES = 3 };
extern const uint32_t quarters[SIZES];

/* A table with its text. It stands until the next one is built. */
typedef struct {
    const uint8_t *text;
    size_t text_len;
    const uint32_t *words;
    size_t words_len;
    uint32_t types;
    uint32_t input_object; /* the row of the first, or LV_NONE */
} schema;

typedef struct {
    const char *name;
    uint32_t *(*names)(uint32_t *at, uint32_t count);
    void (*rows)(uint32_t quarters);
    /* What lv_records answers at each size, and lv_first_cycle for the first input object: counted by document 01's rules, not taken from the
     * library. */
    uint64_t records[SIZES];
    uint64_t first_cycle[SIZES];
} family;

extern const family families[];
extern const size_t family_count;

/* Null where no family has the name. */
const family *family_named(const char *name);

/* Input objects alone, as the ring, can be built of no quarter too: a table without a row. */
schema build(const family *f, uint32_t k);

#endif
