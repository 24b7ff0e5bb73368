/*
 * Schema tables made from their rows, as lhakvuni.h describes them: a function for each kind of row puts its words in at a place and gives the
 * place behind them. The places of words stand here alone, so that a row that gets wider changes no program that builds its tables with these.
 */
#ifndef LHAKVUNI_TABLE_H
#define LHAKVUNI_TABLE_H

#include <stdint.h>
#include <string.h>

#include "lhakvuni.h"

/* The words of the header, of a row of each section, and of the roots. */
enum {
    HEADER_WORDS = 7,
    NAME_WORDS = 2,
    TYPE_WORDS = 7,
    EDGE_WORDS = 1,
    FIELD_WORDS = 5,
    ARGUMENT_WORDS = 4,
    MEMBER_WORDS = 1,
    VALUE_WORDS = 1,
    ROOT_WORDS = 3
};

/* The rows of each section, in the header's order. */
typedef struct {
    uint32_t names, types, edges, fields, arguments, members, values;
} counts;

/* Where the rows of a type end, in each section that has some. */
typedef struct {
    uint32_t edges, fields, members, values;
} ends;

static inline uint32_t *put_row(uint32_t *at, const uint32_t *row, size_t words)
{
    memcpy(at, row, words * sizeof *row);
    return at + words;
}

static inline uint32_t *header(uint32_t *at, counts c)
{
    uint32_t row[HEADER_WORDS] = {c.names, c.types, c.edges, c.fields, c.arguments, c.members, c.values};
    return put_row(at, row, HEADER_WORDS);
}

static inline uint32_t *name_row(uint32_t *at, uint32_t start, uint32_t length)
{
    uint32_t row[NAME_WORDS] = {start, length};
    return put_row(at, row, NAME_WORDS);
}

static inline uint32_t *type_row(uint32_t *at, uint32_t name, enum lv_kind kind, uint32_t flags, ends e)
{
    uint32_t row[TYPE_WORDS] = {name, kind, flags, e.edges, e.fields, e.members, e.values};
    return put_row(at, row, TYPE_WORDS);
}

static inline uint32_t *edge_row(uint32_t *at, uint32_t interface)
{
    return put_row(at, &interface, EDGE_WORDS);
}

static inline uint32_t *field_row(uint32_t *at, uint32_t name, uint32_t type, uint32_t wrap, uint32_t arguments_end, uint32_t default_)
{
    uint32_t row[FIELD_WORDS] = {name, type, wrap, arguments_end, default_};
    return put_row(at, row, FIELD_WORDS);
}

static inline uint32_t *argument_row(uint32_t *at, uint32_t name, uint32_t type, uint32_t wrap, uint32_t default_)
{
    uint32_t row[ARGUMENT_WORDS] = {name, type, wrap, default_};
    return put_row(at, row, ARGUMENT_WORDS);
}

static inline uint32_t *member_row(uint32_t *at, uint32_t name)
{
    return put_row(at, &name, MEMBER_WORDS);
}

static inline uint32_t *value_row(uint32_t *at, uint32_t name)
{
    return put_row(at, &name, VALUE_WORDS);
}

/* A name each, or LV_NONE. */
static inline uint32_t *roots_row(uint32_t *at, uint32_t query, uint32_t mutation, uint32_t subscription)
{
    uint32_t row[ROOT_WORDS] = {query, mutation, subscription};
    return put_row(at, row, ROOT_WORDS);
}

/* Of a table that is well-formed: its counts, and the kind of a type row. */
static inline counts counts_of(const uint32_t *words)
{
    counts c = {words[0], words[1], words[2], words[3], words[4], words[5], words[6]};
    return c;
}

static inline uint32_t kind_of(const uint32_t *words, uint32_t row)
{
    const uint32_t *types = words + HEADER_WORDS + NAME_WORDS * (size_t)counts_of(words).names;
    return types[TYPE_WORDS * (size_t)row + 1];
}

#endif
