/*
 * bench [FAMILY]: times the library's calls on every family of tables, or on one, and prints a line of Markdown for each call. It ends with 1 where
 * a call refuses a table, or gives another answer than is due at its size.
 */
#include <inttypes.h>
#include <stdio.h>
#include <stdlib.h>
#include <time.h>

#include "calls.h"

/* What the calls on a family took at each size; values and words are those of the largest. */
typedef struct {
    double ms[CALLS][SIZES];
    uint64_t value[CALLS];
    size_t words;
} times;

/* The processor's time that this thread took, so that a busy machine does not show. */
static double now_ms(void)
{
    struct timespec t;
    clock_gettime(CLOCK_THREAD_CPUTIME_ID, &t);
    return t.tv_sec * 1e3 + t.tv_nsec / 1e6;
}

/* One call on one table. */
typedef struct {
    const family *of;
    const schema *table;
    int call, size;
} question;

static uint64_t due(question q)
{
    switch (q.call) {
    case RECORDS: return q.of->records[q.size];
    case FIRST_CYCLE: return q.of->first_cycle[q.size];
    case MAKE_EVIDENCE: return q.table->types;
    default: return 0;
    }
}

static void expect(question q, const char *what, uint64_t got, uint64_t wanted)
{
    if (got == wanted) return;
    fprintf(stderr, "%s: %s at %" PRIu32 " quarters of the limits: %s %" PRIu64 ", and %" PRIu64 " is due\n",
            q.of->name, calls[q.call].name, quarters[q.size], what, got, wanted);
    exit(1);
}

/* The least time of nine runs, or of those that begin within a second. */
static double least_ms(question q)
{
    double least = 1e9, spent = 0;
    for (int run = 0; run < 9 && spent < 1000; run++) {
        uint64_t value = 0;
        double begun = now_ms();
        uint32_t number = calls[q.call].make(q.table, &value);
        double ms = now_ms() - begun;
        expect(q, "number", number, 0);
        expect(q, "value", value, due(q));
        spent += ms;
        if (ms < least) least = ms;
    }
    return least;
}

static times measure(const family *f)
{
    times t = {0};
    for (int size = 0; size < SIZES; size++) {
        schema s = build(f, quarters[size]);
        t.words = s.words_len;
        for (int c = 0; c < CALLS; c++) {
            question q = {f, &s, c, size};
            t.ms[c][size] = least_ms(q);
            t.value[c] = due(q);
        }
    }
    return t;
}

static void show(const family *f, const times *t)
{
    for (int c = 0; c < CALLS; c++) {
        const double *ms = t->ms[c];
        printf("| %s | `%s` | %.3f | %.3f | %.3f | %.1f | %.1f | %.1f | %" PRIu64 " |\n", f->name, calls[c].name, ms[0], ms[1], ms[2],
               ms[2] * 1e6 / t->words, ms[1] / ms[0], ms[2] / ms[1], t->value[c]);
    }
    fflush(stdout);
}

static void measure_and_show(const family *f)
{
    times t = measure(f);
    show(f, &t);
}

int main(int argc, char **argv)
{
    const family *one = argc > 1 ? family_named(argv[1]) : NULL;
    if (argc > 1 && !one) {
        fprintf(stderr, "no family is named %s\n", argv[1]);
        return 1;
    }
    puts("| family | call | n: ms | 2n: ms | 4n: ms | 4n: ns a word | 2n / n | 4n / 2n | value at 4n |");
    puts("|---|---|---|---|---|---|---|---|---|");
    if (one) measure_and_show(one);
    else
        for (size_t i = 0; i < family_count; i++) measure_and_show(&families[i]);
    return 0;
}
