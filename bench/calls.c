#include "calls.h"

#include "lhakvuni.h"

enum {
    MOST_WORK = LV_MOST_WORK > LV_MOST_EVIDENCE ? LV_MOST_WORK : LV_MOST_EVIDENCE,
    MOST_OUT = 40000000
};

static uint32_t work[MOST_WORK];
static uint32_t out[MOST_OUT];
static uint32_t evidence[LV_MOST_EVIDENCE];

static uint32_t check_table(const schema *s, uint64_t *value)
{
    *value = 0;
    return lv_check_table(s->text, s->text_len, s->words, s->words_len);
}

static uint32_t records(const schema *s, uint64_t *value)
{
    return lv_records(s->text, s->text_len, s->words, s->words_len, work, MOST_WORK, out, MOST_OUT, value);
}

static uint32_t first_cycle(const schema *s, uint64_t *value)
{
    return lv_first_cycle(s->text, s->text_len, s->words, s->words_len, s->input_object, work, MOST_WORK, out, MOST_OUT, value);
}

static uint32_t make_evidence(const schema *s, uint64_t *value)
{
    return lv_make_evidence(s->text, s->text_len, s->words, s->words_len, work, MOST_WORK, evidence, LV_MOST_EVIDENCE, value);
}

static uint32_t check_evidence(const schema *s, uint64_t *value)
{
    uint32_t row = 0, rule = 0;
    uint32_t number = lv_check_evidence(s->text, s->text_len, s->words, s->words_len, evidence, LV_EVIDENCE_WORDS * s->types, &row, &rule);
    *value = rule;
    return number;
}

const call calls[CALLS] = {
    [CHECK_TABLE] = {"check_table", check_table},
    [RECORDS] = {"records", records},
    [FIRST_CYCLE] = {"first_cycle", first_cycle},
    [MAKE_EVIDENCE] = {"make_evidence", make_evidence},
    [CHECK_EVIDENCE] = {"check_evidence", check_evidence},
};
