/*
 * Checks a schema whose type has dropped the room argument that its interface demands. After `sh tools/archive.sh`, from the root:
 *
 *     cc -Iinclude examples/c/check.c target/staticlib/liblhakvuni.a -o target/check
 *
 * The archive is for x86-64. On another machine Debian's gcc-x86-64-linux-gnu and qemu-user serve: put x86_64-linux-gnu-gcc -static for cc,
 * and run qemu-x86_64 target/check.
 */
#include <inttypes.h>
#include <stdio.h>
#include "lhakvuni.h"
#include "table.h"

/* interface Whiteboard { board(room: ID!): ID }  type Board implements Whiteboard { board: ID }  type Query { board: Board } */
static const uint8_t text[] = "BoardIDQueryWhiteboardboardroom";
enum { BOARD, ID, QUERY, WHITEBOARD, FIELD_BOARD, ROOM }; /* the names, as they stand in the text */
enum { NULLABLE = 0, NON_NULL = 16 }; /* the wraps of ID and ID! */

static uint32_t words[HEADER_WORDS + 6 * NAME_WORDS + 3 * TYPE_WORDS + EDGE_WORDS + 3 * FIELD_WORDS + ARGUMENT_WORDS + ROOT_WORDS];

static void write_table(void)
{
    uint32_t *at = header(words, (counts){.names = 6, .types = 3, .edges = 1, .fields = 3, .arguments = 1});
    at = name_row(at, 0, 5);
    at = name_row(at, 5, 2);
    at = name_row(at, 7, 5);
    at = name_row(at, 12, 10);
    at = name_row(at, 22, 5);
    at = name_row(at, 27, 4);
    at = type_row(at, WHITEBOARD, LV_INTERFACE, 0, (ends){.edges = 0, .fields = 1});
    at = type_row(at, BOARD, LV_OBJECT, 0, (ends){.edges = 1, .fields = 2});
    at = type_row(at, QUERY, LV_OBJECT, 0, (ends){.edges = 1, .fields = 3});
    at = edge_row(at, WHITEBOARD);
    at = field_row(at, FIELD_BOARD, ID, NULLABLE, 1, 0);
    at = field_row(at, FIELD_BOARD, ID, NULLABLE, 1, 0);
    at = field_row(at, FIELD_BOARD, BOARD, NULLABLE, 1, 0);
    at = argument_row(at, ROOM, ID, NON_NULL, 0);
    roots_row(at, QUERY, LV_NONE, LV_NONE);
}

static uint32_t work[LV_MOST_WORK], out[16 * LV_RECORD_WORDS];

int main(void)
{
    uint64_t value = 0;
    write_table();
    uint32_t number = lv_records(text, sizeof text - 1, words, sizeof words / sizeof *words,
                                 work, sizeof work / sizeof *work, out, sizeof out / sizeof *out, &value);
    if (number != LV_DONE) {
        printf("refusal %" PRIu32 ", value %" PRIu64 "\nthe board is not opened\n", number, value);
        return 1;
    }
    for (const uint32_t *r = out; r < out + LV_RECORD_WORDS * value; r += LV_RECORD_WORDS)
        printf("code %" PRIu32 ", type %" PRIu32 ": %" PRIu32 " %" PRIu32 " %" PRIu32 "\n", r[0], r[1], r[2], r[3], r[4]);
    puts(value == 0 ? "the board is opened" : "the board is not opened");
    return value != 0;
}
