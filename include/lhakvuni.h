/*
 * Lhakvuni for C: is a GraphQL schema table well-formed, and which rules of the GraphQL specification (October 2021) does it break?
 *
 * Build the archive with `sh tools/archive.sh` and link target/staticlib/liblhakvuni.a (x86-64). It needs memset of the C library and
 * nothing else. examples/c/check.c is a whole program.
 *
 * What every call takes
 *
 *   Each pointer is followed by its length in elements: bytes for text, 32-bit words for the rest. For the whole of a call:
 *   - No pointer is null, also where its length is 0: any aligned address does there. Pointers to words are aligned as uint32_t, value as
 *     uint64_t.
 *   - text, words and evidence can be read for their lengths; work, out, value, row and rule can be read and written for theirs. No
 *     slice is longer than PTRDIFF_MAX bytes.
 *   - work, out, value, row and rule overlap nothing else that is handed to the call.
 *   - No other thread writes text, words or evidence, or reads or writes work, out, value, row or rule.
 *   Nothing is asked of what the bytes and words are: any text, any table and any work table and output are fine.
 *
 * What every call promises, and is proved to do
 *
 *   It returns, reads and writes nothing but what it is lent, and keeps nothing: it has no state and allocates no memory. What it answers
 *   and writes depends on text, words, type_row, evidence and the lengths of work and out, and not on what work and out held before.
 *
 *   returned     *value                     work                                out
 *   0            the number of rows         its first 3 * types words are 0,    the rows from its start on, the words behind
 *                                           the rest is unchanged               them unchanged
 *   10           the words out needs        as for 0                            unchanged
 *   1 to 9       unchanged                  unchanged                           unchanged
 *
 *   `types` is the number of types in the table, words[1]. For lv_make_evidence read 6 for 3.
 *
 * Limits and sizes
 *
 *   At most LV_MOST_TYPES types, and the other limits below. A work table needs LV_WORK_WORDS words for each type, so LV_MOST_WORK always
 *   is enough; to make evidence it needs LV_EVIDENCE_WORDS for each, and so does the output, so LV_MOST_EVIDENCE always is enough. A list of
 *   records needs LV_RECORD_WORDS words for each record, a first cycle one word for each field, and never more words than there are types.
 *
 * Stack
 *
 *   LV_STACK_CHECK_TABLE and those behind it are the bytes of stack that a call takes below its caller's frame, its arguments and return
 *   address among them. They are not proved: bench/stack.sh measures what the calls take, on x86-64, and holds it against them. A search
 *   for a cycle goes as deep as there are input objects on its way, so two of them ask for the number of types; LV_MOST_TYPES always is
 *   enough, since a table with more is refused before any search. What the caller and signal handlers take comes on top.
 *
 * The schema table
 *
 *   Seven counts, then rows of words in this order, then the three roots:
 *
 *   names        start, length in the text
 *   types        name, kind, flags, edges end, fields end, members end, values end
 *   edges        interface name
 *   fields       name, type name, wrap, arguments end, default
 *   arguments    name, type name, wrap, default
 *   members      name
 *   values       name
 *   roots        query, mutation, subscription: a name or LV_NONE
 *
 *   The counts are in the order of the sections. A name is given by its row among the names, which are sorted by their bytes. A type's rows
 *   run from the end of the type before it to its own end; a field's arguments likewise. A wrap is k list layers (0 to 15) plus 16 times a
 *   number below 2^(k+1) whose bit i says that layer i is non-null, where layer 0 is outermost: ID! is 16, [String] 1, [String!]! 49.
 */
#ifndef LHAKVUNI_H
#define LHAKVUNI_H

#include <stddef.h>
#include <stdint.h>

#ifdef __cplusplus
extern "C" {
#endif

/* No name, no type, no word. */
#define LV_NONE UINT32_C(4294967295)

/* Sizes. */
#define LV_RECORD_WORDS 5
#define LV_WORK_WORDS 3
#define LV_MOST_WORK 3072
#define LV_EVIDENCE_WORDS 6
#define LV_MOST_EVIDENCE 6144

/* Bytes of stack, as bench/stack.sh measured them on x86-64 with the older kit, and a little more. Today's takes less (docs/BENCHMARK.md). */
#define LV_STACK_CHECK_TABLE 4608UL
#define LV_STACK_RECORDS(types) (45056UL + 160UL * (types))
#define LV_STACK_FIRST_CYCLE(types) (29696UL + 160UL * (types))
#define LV_STACK_CHECK_EVIDENCE 29696UL
#define LV_STACK_MAKE_EVIDENCE 29696UL

/* The most that a table may have. */
#define LV_MOST_TEXT 65536
#define LV_MOST_NAMES 4096
#define LV_MOST_TYPES 1024
#define LV_MOST_EDGES 4096
#define LV_MOST_FIELDS 8192
#define LV_MOST_ARGUMENTS 16384
#define LV_MOST_MEMBERS 4096
#define LV_MOST_VALUES 4096

/* What a call returns: 0, or the first refusal that is due, in this order. */
enum lv_number {
    LV_DONE = 0,
    LV_TOO_FEW_WORDS = 1,     /* fewer than 7 words */
    LV_ABOVE_LIMIT = 2,       /* a count or the text above its limit */
    LV_WRONG_LENGTH = 3,      /* the length is not that of the counts */
    LV_BAD_NAMES = 4,         /* a name outside the text, empty, no Name of the specification, or names that do not strictly rise */
    LV_BAD_WORD = 5,          /* a word out of its range, or rows where the kind has none */
    LV_TWICE = 6,             /* a type name, or within one type an edge, field, member or value name, twice */
    LV_NO_INPUT_OBJECT = 7,   /* first cycle asked for no type, or for a kind other than input object */
    LV_WRONG_EVIDENCE = 8,    /* the evidence is not exactly LV_EVIDENCE_WORDS words for each type */
    LV_SHORT_WORK = 9,        /* the work table is too short */
    LV_SHORT_OUT = 10         /* the output is too short; *value has the words that it needs */
};

/* Kinds of types. */
enum lv_kind {
    LV_SCALAR = 0,
    LV_OBJECT = 1,
    LV_INTERFACE = 2,
    LV_UNION = 3,
    LV_ENUM = 4,
    LV_INPUT_OBJECT = 5
};

/*
 * A record is five words: code, type, a, b, c. Words that a code does not use are LV_NONE, and so is the type at schema level. Types, edges,
 * fields and so on are given by their row in the whole section, names by their row among the names.
 */
enum lv_code {
    LV_QUERY_ROOT_OPERATION_TYPE = 1,                     /* no query */
    LV_ROOT_OPERATION_OBJECT_TYPE = 2,                    /* operation 0 to 2, name */
    LV_UNDEFINED_DEFINITION = 3,                          /* name, place, row or operation */
    LV_DUPLICATE_ROOT_OPERATION_TYPE = 4,                 /* operation, name, first operation */
    LV_RESERVED_NAME = 5,                                 /* name, place, row */
    LV_RECURSIVE_INTERFACE_DEFINITION = 6,                /* edge */
    LV_EMPTY_FIELD_SET = 7,
    LV_TRANSITIVE_IMPLEMENTED_INTERFACES = 8,             /* via edge, interface's edge */
    LV_MISSING_INTERFACE_FIELD = 9,                       /* edge, interface field */
    LV_INVALID_IMPLEMENTATION_FIELD_TYPE = 10,            /* edge, interface field, own field */
    LV_MISSING_INTERFACE_FIELD_ARGUMENT = 11,             /* edge, own field, interface argument */
    LV_INVALID_IMPLEMENTATION_FIELD_ARGUMENT_TYPE = 12,   /* edge, interface argument, own argument */
    LV_EXTRA_REQUIRED_IMPLEMENTATION_FIELD_ARGUMENT = 13, /* edge, interface field, own argument */
    LV_UNION_MEMBER_OBJECT_TYPE = 14,                     /* member */
    LV_EMPTY_MEMBER_SET = 15,
    LV_EMPTY_VALUE_SET = 16,
    LV_RECURSIVE_INPUT_OBJECT_DEFINITION = 17,            /* number of fields in the first cycle */
    LV_INPUT_TYPE = 18,                                   /* place, row */
    LV_OUTPUT_TYPE = 19,                                  /* field */
    LV_UNIQUE_INPUT_VALUE = 20,                           /* first argument of the name, repeat */
    LV_EMPTY_INPUT_VALUE_SET = 21
};

/* What a record's row is a row of. */
enum lv_place {
    LV_AT_ROOT = 0,
    LV_AT_EDGE = 1,
    LV_AT_FIELD = 2,
    LV_AT_ARGUMENT = 3,
    LV_AT_INPUT_FIELD = 4,
    LV_AT_MEMBER = 5,
    LV_AT_VALUE = 6,
    LV_AT_TYPE_NAME = 7
};

/*
 * Whether a table with its text is well-formed: 0, or one of the table's refusals. Nothing is written.
 *
 * text, text_len     the names' bytes; at most LV_MOST_TEXT, or the answer is 2
 * words, words_len   the schema table
 */
uint32_t lv_check_table(const uint8_t *text, size_t text_len, const uint32_t *words, size_t words_len);

/*
 * The list of records: every rule that the schema breaks, in a fixed order, LV_RECORD_WORDS words each from the start of out. A schema
 * without a fault has none: 0 is returned and *value is 0. The checks, in order: the table's, 9, 10.
 *
 * text, text_len     as for lv_check_table
 * words, words_len   as for lv_check_table
 * work, work_len     the work table: LV_WORK_WORDS words for each type, or more
 * out, out_len       the records; where they do not fit, 10 is returned, out is unchanged, and *value is 5 times their number
 * value              one number: the records on 0, the words that out needs on 10; unchanged by every other refusal
 */
uint32_t lv_records(const uint8_t *text, size_t text_len, const uint32_t *words, size_t words_len,
                    uint32_t *work, size_t work_len, uint32_t *out, size_t out_len, uint64_t *value);

/*
 * The first cycle of an input object: the least chain, by dictionary order of field rows, of non-null fields that leads from the type back to
 * it and visits no type twice on its way. Its field rows are written in order, one word each from the start of out. Where there is no such
 * chain, 0 is returned and *value is 0. The checks, in order: the table's, 7, 9, 10.
 *
 * text, text_len     as for lv_check_table
 * words, words_len   as for lv_check_table
 * type_row           the type's row; it must be that of an input object, or the answer is 7
 * work, work_len     as for lv_records
 * out, out_len       the field rows; where they do not fit, 10 is returned, out is unchanged, and *value is their number
 * value              one number: the fields on 0, the words that out needs on 10; unchanged by every other refusal
 */
uint32_t lv_first_cycle(const uint8_t *text, size_t text_len, const uint32_t *words, size_t words_len, uint32_t type_row,
                        uint32_t *work, size_t work_len, uint32_t *out, size_t out_len, uint64_t *value);

/*
 * Evidence: which input objects lie on closed chains of non-null fields, LV_EVIDENCE_WORDS words for each type, so that a reader can see without a
 * search that every mark is right. Number, leader, out field, out distance, in field, in depth; a type whose leader is LV_NONE is unmarked.
 *
 * Judges evidence from anywhere. The checks, in order: the table's, 8. Where 0 is returned, *rule is 0 and *row is LV_NONE if the evidence passes,
 * and then a type is marked exactly if a closed chain runs through it; else *row is the first type row that breaks one of the seven rules,
 * and *rule the lowest that it breaks.
 *
 * text, text_len          as for lv_check_table
 * words, words_len        as for lv_check_table
 * evidence, evidence_len  the evidence, only read: exactly LV_EVIDENCE_WORDS words for each type, or the answer is 8
 * row, rule               one number each, written on 0; unchanged by every refusal
 */
uint32_t lv_check_evidence(const uint8_t *text, size_t text_len, const uint32_t *words, size_t words_len,
                           const uint32_t *evidence, size_t evidence_len, uint32_t *row, uint32_t *rule);

/*
 * Makes evidence that passes, from the start of out. It is lent memory and answers as lv_records, but that it needs LV_EVIDENCE_WORDS work words
 * for each type, which are 0 afterwards, and as many of out; *value is the number of types on 0. The checks, in order: the table's, 9, 10.
 */
uint32_t lv_make_evidence(const uint8_t *text, size_t text_len, const uint32_t *words, size_t words_len,
                          uint32_t *work, size_t work_len, uint32_t *out, size_t out_len, uint64_t *value);

#ifdef __cplusplus
}
#endif

#endif
