/* The five calls on a table, with memory that is enough for every family. */
#ifndef LHAKVUNI_CALLS_H
#define LHAKVUNI_CALLS_H

#include "families.h"

/* Evidence is judged as it was made last. */
enum { CHECK_TABLE, RECORDS, FIRST_CYCLE, MAKE_EVIDENCE, CHECK_EVIDENCE, CALLS };

typedef struct {
    const char *name;
    /* Gives the number that the call returns, and the value: records, fields, types, the broken rule, or 0. */
    uint32_t (*make)(const schema *s, uint64_t *value);
} call;

extern const call calls[CALLS];

#endif
