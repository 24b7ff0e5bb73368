/* Runs the library on a file of tables (tables.py has the format) from standard input, and writes an answer to each, in
   lines:

     S number             the table, counted from 0
     n refusal            lv_check_table refuses it; nothing else is asked
     r code type a b c    a record, in the order of the list; - for NONE
     c type rows..        the first cycle of an input object that has one
     X text               a promise about lent memory or returned numbers that does not hold
     E                    the end of the table

   Work and output are lent full of other numbers, and looked at afterwards. */
#include <stdarg.h>
#include <stdint.h>
#include <stdio.h>
#include <stdlib.h>
#include <string.h>

#include "lhakvuni.h"
#include "../examples/c/table.h"

#define OTHER_WORK 0xa5a50000u /* what lent words hold, plus their index */
#define OTHER_OUT 0x5a5a0000u
#define MORE_WORK 5 /* work words beyond those for the types: they must stay */
#define FIRST_TRY 64 /* output words of the first call; a longer list is refused and asked for again */

struct table {
    uint8_t *text;
    size_t text_len;
    uint32_t *words;
    size_t words_len;
};

/* The words of an answer, and what is checked of it. */
struct answer {
    uint32_t *out;
    size_t out_len;
    uint32_t number;
    uint64_t value;
};

static uint32_t work[LV_MOST_WORK + MORE_WORK];

static void fault(const char *format, ...) {
    va_list args;
    va_start(args, format);
    printf("X ");
    vprintf(format, args);
    printf("\n");
    va_end(args);
}

static void *room(size_t bytes) {
    void *p = malloc(bytes ? bytes : 1);
    if (!p) {
        fprintf(stderr, "no memory\n");
        exit(2);
    }
    return p;
}

static uint32_t word_at(const uint8_t *b) {
    return b[0] | (uint32_t)b[1] << 8 | (uint32_t)b[2] << 16 | (uint32_t)b[3] << 24;
}

static void must_read(FILE *f, void *to, size_t bytes) {
    if (fread(to, 1, bytes, f) != bytes) {
        fprintf(stderr, "the file ends within a table\n");
        exit(2);
    }
}

/* The next table, or 0 at the end of the file. The copies are as long as what is lent, so that a tool that watches
   memory sees a read beyond them. */
static int read_table(FILE *f, struct table *t) {
    uint8_t head[8], pad[4];
    size_t got = fread(head, 1, 8, f);
    if (got == 0)
        return 0;
    if (got != 8) {
        fprintf(stderr, "the file ends within a table\n");
        exit(2);
    }
    t->text_len = word_at(head);
    t->words_len = word_at(head + 4);
    t->text = room(t->text_len);
    must_read(f, t->text, t->text_len);
    must_read(f, pad, (4 - t->text_len % 4) % 4);
    t->words = room(4 * t->words_len);
    must_read(f, t->words, 4 * t->words_len);
    for (size_t i = 0; i < t->words_len; i++)
        t->words[i] = word_at((uint8_t *)&t->words[i]);
    return 1;
}

static void fill(uint32_t *words, size_t from, size_t to, uint32_t other) {
    for (size_t i = from; i < to; i++)
        words[i] = other + (uint32_t)i;
}

static int untouched(const uint32_t *words, size_t from, size_t to, uint32_t other) {
    for (size_t i = from; i < to; i++)
        if (words[i] != other + (uint32_t)i)
            return 0;
    return 1;
}

/* After a success or refusal 10, the work words for the types are 0 and the rest as they were. */
static void check_work(const char *call, size_t used) {
    for (size_t i = 0; i < used; i++)
        if (work[i] != 0) {
            fault("%s leaves work word %zu not 0", call, i);
            return;
        }
    if (!untouched(work, used, used + MORE_WORK, OTHER_WORK))
        fault("%s writes behind the work words", call);
}

/* One call: the records, or the first cycle of a type row if there is one. */
static void call_once(const struct table *t, uint32_t type_row, struct answer *a) {
    size_t used = LV_WORK_WORDS * (size_t)counts_of(t->words).types, work_len = used + MORE_WORK;
    fill(work, 0, work_len, OTHER_WORK);
    fill(a->out, 0, a->out_len, OTHER_OUT);
    a->value = 0x123456789abcdefull;
    if (type_row == LV_NONE)
        a->number = lv_records(t->text, t->text_len, t->words, t->words_len, work, work_len, a->out, a->out_len, &a->value);
    else
        a->number = lv_first_cycle(t->text, t->text_len, t->words, t->words_len, type_row, work, work_len, a->out,
                                   a->out_len, &a->value);
    check_work(type_row == LV_NONE ? "lv_records" : "lv_first_cycle", used);
}

/* Asks with a short output, and again with as many words as are needed. Gives the rows written. */
static size_t ask(const struct table *t, uint32_t type_row, size_t row_words, struct answer *a) {
    const char *call = type_row == LV_NONE ? "lv_records" : "lv_first_cycle";
    a->out_len = FIRST_TRY;
    a->out = room(4 * a->out_len);
    call_once(t, type_row, a);
    uint64_t need = 0;
    if (a->number == LV_SHORT_OUT) {
        need = a->value;
        if (need <= FIRST_TRY)
            fault("%s refuses an output that is long enough", call);
        if (!untouched(a->out, 0, a->out_len, OTHER_OUT))
            fault("%s writes to an output that it refuses", call);
        free(a->out);
        a->out_len = need;
        a->out = room(4 * a->out_len);
        call_once(t, type_row, a);
    }
    if (a->number != LV_DONE) {
        fault("%s gives number %u", call, (unsigned)a->number);
        return 0;
    }
    if (a->value > a->out_len / row_words || (need && a->value * row_words != need)) {
        fault("%s gives %llu rows", call, (unsigned long long)a->value);
        return 0;
    }
    if (!untouched(a->out, a->value * row_words, a->out_len, OTHER_OUT))
        fault("%s writes behind its rows", call);
    return a->value;
}

static void print_word(uint32_t w) {
    if (w == LV_NONE)
        fputs(" -", stdout);
    else
        printf(" %u", (unsigned)w);
}

static void print_records(const struct table *t) {
    struct answer a;
    size_t rows = ask(t, LV_NONE, LV_RECORD_WORDS, &a);
    for (size_t i = 0; i < rows; i++) {
        putchar('r');
        for (size_t j = 0; j < LV_RECORD_WORDS; j++)
            print_word(a.out[LV_RECORD_WORDS * i + j]);
        putchar('\n');
    }
    free(a.out);
}

static void print_first_cycle(const struct table *t, uint32_t type_row) {
    struct answer a;
    size_t rows = ask(t, type_row, 1, &a);
    if (rows) {
        printf("c %u", (unsigned)type_row);
        for (size_t i = 0; i < rows; i++)
            print_word(a.out[i]);
        putchar('\n');
    }
    free(a.out);
}

static void answer_table(const struct table *t) {
    uint32_t number = lv_check_table(t->text, t->text_len, t->words, t->words_len);
    if (number) {
        printf("n %u\n", (unsigned)number);
        return;
    }
    print_records(t);
    for (uint32_t row = 0; row < counts_of(t->words).types; row++)
        if (kind_of(t->words, row) == LV_INPUT_OBJECT)
            print_first_cycle(t, row);
}

int main(void) {
    struct table t;
    for (size_t number = 0; read_table(stdin, &t); number++) {
        printf("S %zu\n", number);
        answer_table(&t);
        printf("E\n");
        free(t.text);
        free(t.words);
    }
    return 0;
}
