/*
 * Measures the stack of the library's calls and holds it against the header's LV_STACK figures. Each call is made on a painted stack of its
 * own; from the caller's frame to the lowest byte that has changed is what it took, so that the caller's some ten words are in it.
 *
 * Tables: rings of 0, 256, 512 and 1,024 input objects, where a search for a cycle goes as deep as there are types, and every family at
 * document 01's limits. It ends with 1 where a call takes more than its figure, or where a figure is more than one and a half times what the
 * table that comes closest to it takes.
 */
#include <inttypes.h>
#include <stdio.h>
#include <stdlib.h>
#include <string.h>
#include <ucontext.h>

#include "calls.h"
#include "lhakvuni.h"

enum { STACK_BYTES = 4 << 20, PAINT = 0xA5 };

static uint8_t stack[STACK_BYTES] __attribute__((aligned(16)));
static ucontext_t caller, callee;
static const schema *table;
static const call *made;
static uint32_t number;
static uint8_t *frame;

static void make_call(void)
{
    uint64_t value = 0;
    frame = __builtin_frame_address(0);
    number = made->make(table, &value);
}

static size_t bytes_of(const call *c, const schema *s)
{
    made = c;
    table = s;
    memset(stack, PAINT, STACK_BYTES);
    getcontext(&callee);
    callee.uc_stack.ss_sp = stack;
    callee.uc_stack.ss_size = STACK_BYTES;
    callee.uc_link = &caller;
    makecontext(&callee, make_call, 0);
    swapcontext(&caller, &callee);
    size_t lowest = 0;
    while (lowest < STACK_BYTES && stack[lowest] == PAINT) lowest++;
    return frame - (stack + lowest);
}

static size_t figure(int c, uint32_t types)
{
    switch (c) {
    case CHECK_TABLE: return LV_STACK_CHECK_TABLE;
    case RECORDS: return LV_STACK_RECORDS(types);
    case FIRST_CYCLE: return LV_STACK_FIRST_CYCLE(types);
    case MAKE_EVIDENCE: return LV_STACK_MAKE_EVIDENCE;
    default: return LV_STACK_CHECK_EVIDENCE;
    }
}

/* The table that takes the largest part of a call's figure. */
typedef struct {
    const char *of;
    uint32_t types;
    size_t bytes, figure;
} closest;

/* Of one input object at most; of as many types as there can be; of any number. */
enum { NO_CHAIN, MOST_TYPES, ANY_TABLE, GROUPS };
static closest taken[CALLS][GROUPS];

static double part(closest x)
{
    return x.figure ? (double)x.bytes / x.figure : 0;
}

static void keep_closer(closest *kept, closest x)
{
    if (part(x) > part(*kept)) *kept = x;
}

/* A table without types has no input object to ask first_cycle for. */
static void expect_number(const char *of, int c)
{
    uint32_t due = c == FIRST_CYCLE && table->input_object == LV_NONE ? LV_NO_INPUT_OBJECT : LV_DONE;
    if (number == due) return;
    fprintf(stderr, "%s: %s returns %" PRIu32 "\n", of, calls[c].name, number);
    exit(1);
}

/* The families of fewer than 256 types have one input object at most, so that no search goes deep: they must do with a figure's fixed bytes. */
static size_t measure(const char *of, int c, const schema *s)
{
    int no_chain = s->types < 256;
    closest x = {of, s->types, bytes_of(&calls[c], s), figure(c, no_chain ? 0 : s->types)};
    expect_number(of, c);
    keep_closer(&taken[c][ANY_TABLE], x);
    if (no_chain) keep_closer(&taken[c][NO_CHAIN], x);
    if (s->types == LV_MOST_TYPES) keep_closer(&taken[c][MOST_TYPES], x);
    return x.bytes;
}

enum { RINGS = 4 };
static size_t ring_bytes[CALLS][RINGS];
static size_t family_bytes[CALLS];
static const char *deepest[CALLS];

static void measure_rings(void)
{
    static const uint32_t ring_quarters[RINGS] = {0, 1, 2, 4};
    const family *ring = family_named("ring");
    for (int i = 0; i < RINGS; i++) {
        schema s = build(ring, ring_quarters[i]);
        for (int c = 0; c < CALLS; c++) ring_bytes[c][i] = measure(ring->name, c, &s);
    }
}

static void measure_family(const family *f)
{
    schema s = build(f, 4);
    for (int c = 0; c < CALLS; c++) {
        size_t bytes = measure(f->name, c, &s);
        if (bytes <= family_bytes[c]) continue;
        family_bytes[c] = bytes;
        deepest[c] = f->name;
    }
}

static void show(int c)
{
    const size_t *ring = ring_bytes[c];
    double each = ((double)ring[3] - ring[2]) / 512;
    printf("| `%s` | %zu | %zu | %zu | %zu | %.0f | %.1f | %zu, `%s` | %zu | %zu |\n", calls[c].name, ring[0], ring[1], ring[2], ring[3],
           ring[3] - 1024 * each, each, family_bytes[c], deepest[c], figure(c, 0), figure(c, LV_MOST_TYPES));
}

static int failed;

static void fail_unless(int right, int c, closest x, const char *which)
{
    if (right) return;
    fprintf(stderr, "%s takes %zu bytes on %s of %" PRIu32 " types, and the header says %zu: %s\n",
            calls[c].name, x.bytes, x.of, x.types, x.figure, which);
    failed = 1;
}

static void expect_not_large(int c, int group)
{
    fail_unless(part(taken[c][group]) * 1.5 >= 1, c, taken[c][group], "too much");
}

static void check_figure(int c)
{
    fail_unless(part(taken[c][ANY_TABLE]) <= 1, c, taken[c][ANY_TABLE], "too little");
    if (figure(c, 0) == figure(c, LV_MOST_TYPES)) {
        expect_not_large(c, ANY_TABLE);
        return;
    }
    expect_not_large(c, NO_CHAIN);
    expect_not_large(c, MOST_TYPES);
}

int main(void)
{
    measure_rings();
    for (size_t i = 0; i < family_count; i++) measure_family(&families[i]);
    puts("| call | ring of 0 | of 256 | of 512 | of 1,024 | fixed | a type | most at the limits | header: no types | header: 1,024 types |");
    puts("|---|---|---|---|---|---|---|---|---|---|");
    for (int c = 0; c < CALLS; c++) {
        show(c);
        check_figure(c);
    }
    return failed;
}
