#include "families.h"

#include <stdio.h>
#include <stdlib.h>
#include <string.h>

#include "../examples/c/table.h"

const uint32_t quarters[SIZES] = {1, 2, 4};

enum {
    MOST_WORDS = HEADER_WORDS + NAME_WORDS * LV_MOST_NAMES + TYPE_WORDS * LV_MOST_TYPES + EDGE_WORDS * LV_MOST_EDGES + FIELD_WORDS * LV_MOST_FIELDS
                 + ARGUMENT_WORDS * LV_MOST_ARGUMENTS + MEMBER_WORDS * LV_MOST_MEMBERS + VALUE_WORDS * LV_MOST_VALUES + ROOT_WORDS,
    NULLABLE = 0, /* the wraps of ID and ID! */
    NON_NULL = 16
};

/* Rows of each section, until they are put one behind the other. */
static counts have;
static uint32_t types[TYPE_WORDS * LV_MOST_TYPES];
static uint32_t edges[EDGE_WORDS * LV_MOST_EDGES];
static uint32_t fields[FIELD_WORDS * LV_MOST_FIELDS];
static uint32_t arguments[ARGUMENT_WORDS * LV_MOST_ARGUMENTS];
static uint32_t members[MEMBER_WORDS * LV_MOST_MEMBERS];
static uint32_t values[VALUE_WORDS * LV_MOST_VALUES];
static uint32_t input_object;

static uint32_t next_row(uint32_t *count, uint32_t most)
{
    if (*count == most) {
        fprintf(stderr, "more than %u rows in a section\n", (unsigned)most);
        exit(1);
    }
    return (*count)++;
}

static void add_edge(uint32_t interface)
{
    edge_row(edges + EDGE_WORDS * next_row(&have.edges, LV_MOST_EDGES), interface);
}

static void add_argument(uint32_t name, uint32_t type)
{
    argument_row(arguments + ARGUMENT_WORDS * next_row(&have.arguments, LV_MOST_ARGUMENTS), name, type, NULLABLE, 0);
}

/* The field owns the arguments that were added since the one before it. */
static void add_field(uint32_t name, uint32_t type, uint32_t wrap)
{
    field_row(fields + FIELD_WORDS * next_row(&have.fields, LV_MOST_FIELDS), name, type, wrap, have.arguments, 0);
}

static void add_fields(uint32_t count, uint32_t type)
{
    for (uint32_t name = 0; name < count; name++) add_field(name, type, NULLABLE);
}

static void add_member(uint32_t name)
{
    member_row(members + MEMBER_WORDS * next_row(&have.members, LV_MOST_MEMBERS), name);
}

static void add_value(uint32_t name)
{
    value_row(values + VALUE_WORDS * next_row(&have.values, LV_MOST_VALUES), name);
}

/* The type owns the rows that were added since the one before it. */
static void add_type(uint32_t name, enum lv_kind kind)
{
    uint32_t row = next_row(&have.types, LV_MOST_TYPES);
    if (kind == LV_INPUT_OBJECT && input_object == LV_NONE) input_object = row;
    type_row(types + TYPE_WORDS * row, name, kind, 0, (ends){have.edges, have.fields, have.members, have.values});
}

static uint32_t name_count(uint32_t k)
{
    return LV_MOST_NAMES / 4 * k;
}

static uint32_t square_root(uint32_t x)
{
    uint32_t r = 0;
    while ((r + 1) * (r + 1) <= x) r++;
    return r;
}

/* Names. Long ones share the text, of 16 bytes a name. */

static uint8_t text[LV_MOST_TEXT];
static size_t text_len;

static uint32_t *four_letters(uint32_t *at, uint32_t count)
{
    for (uint32_t i = 0; i < count; i++) {
        const uint8_t letters[] = {'N', 'A' + i / 256 % 16, 'A' + i / 16 % 16, 'A' + i % 16};
        memcpy(text + 4 * i, letters, 4);
        at = name_row(at, 4 * i, 4);
    }
    text_len = 4 * count;
    return at;
}

/* Runs of one letter from the start of the text, each one longer than the one before it. */
static uint32_t *one_longer(uint32_t *at, uint32_t count)
{
    text_len = 16 * count;
    memset(text, 'a', text_len);
    for (uint32_t i = 0; i < count; i++) at = name_row(at, 0, text_len - count + 1 + i);
    return at;
}

/* All end where the text ends, with the one letter that is another, and each starts a byte later: two neighbours differ in the last byte of the
 * later alone. */
static uint32_t *one_later(uint32_t *at, uint32_t count)
{
    text_len = 16 * count;
    memset(text, 'a', text_len - 1);
    text[text_len - 1] = 'b';
    for (uint32_t i = 0; i < count; i++) at = name_row(at, i, text_len - i);
    return at;
}

/* Rows. */

static void one_input_object(uint32_t k)
{
    (void)k;
    add_type(0, LV_INPUT_OBJECT);
}

/* Lists of one type with every name, for the search for one that comes twice. */
static void repeats(uint32_t k)
{
    uint32_t n = name_count(k);
    for (uint32_t j = 0; j < n; j++) add_edge(j);
    add_fields(n, 0);
    add_type(0, LV_OBJECT);
    add_fields(n, 0);
    add_type(1, LV_OBJECT);
    for (uint32_t j = 0; j < n; j++) add_member(j);
    add_type(2, LV_UNION);
    for (uint32_t j = 0; j < n; j++) add_value(j);
    add_type(3, LV_ENUM);
    add_type(4, LV_INPUT_OBJECT);
}

/* Interfaces that all implement all. Where their first fields have arguments, those have names of their own, and else the fields have. */
static void all_implement_all(uint32_t k, uint32_t each, uint32_t arguments_each)
{
    uint32_t n = name_count(k), s = square_root(1024 * k), pool = (n - s) / s;
    for (uint32_t t = 0; t < s; t++) {
        uint32_t own = s + t * pool;
        for (uint32_t e = 0; e < s; e++) add_edge(e);
        for (uint32_t a = 0; a < arguments_each; a++) add_argument(own + a % pool, own);
        for (uint32_t f = 0; f < each; f++) add_field(arguments_each ? f : s + (t * each + f) % (n - s), 0, NULLABLE);
        add_type(t, LV_INTERFACE);
    }
    add_type(n - 1, LV_INPUT_OBJECT);
}

static void many_arguments(uint32_t k)
{
    all_implement_all(k, 1, 4096 * k / square_root(1024 * k));
}

static void many_fields(uint32_t k)
{
    all_implement_all(k, 2048 * k / square_root(1024 * k), 0);
}

static void many_edges(uint32_t k)
{
    all_implement_all(k, 1, 0);
}

/* They implement each other and themselves, with the same fields in opposite orders. */
static void two_interfaces(uint32_t k)
{
    uint32_t n = name_count(k);
    for (uint32_t t = 0; t < 2; t++) {
        add_edge(0);
        add_edge(1);
        for (uint32_t f = 0; f < n; f++) add_field(t == 0 ? f : n - 1 - f, 0, NULLABLE);
        add_type(t, LV_INTERFACE);
    }
    add_type(2, LV_INPUT_OBJECT);
}

/* So many interfaces, and as many objects that implement them all. All have the same fields; where the first has arguments, those have names
 * of their own. */
typedef struct {
    uint32_t count, fields, arguments;
    uint32_t demanded, own; /* the type of the interfaces' fields and of the objects' */
} pairs;

static void add_pairs(uint32_t k, pairs p)
{
    uint32_t n = name_count(k), pool = n / (2 * p.count);
    for (uint32_t t = 0; t < 2 * p.count; t++) {
        enum lv_kind kind = t < p.count ? LV_INTERFACE : LV_OBJECT;
        for (uint32_t e = 0; kind == LV_OBJECT && e < p.count; e++) add_edge(3 + e);
        for (uint32_t a = 0; a < p.arguments; a++) add_argument(t * pool + a % pool, 0);
        add_fields(p.fields, kind == LV_OBJECT ? p.own : p.demanded);
        add_type(3 + t, kind);
    }
    add_type(n - 1, LV_INPUT_OBJECT);
}

/* Pairs whose fields are a union of all names, and its last member. */
static void pairs_of_union(uint32_t k, uint32_t own, uint32_t with_arguments)
{
    uint32_t n = name_count(k), count = square_root(1024 * k);
    for (uint32_t j = 0; j < n; j++)
        if (j != own) add_member(j);
    add_member(own);
    add_type(0, LV_UNION);
    add_type(1, LV_OBJECT);
    add_type(2, LV_SCALAR);
    add_pairs(k, (pairs){count, 1024 * k / count, with_arguments ? 2048 * k / count : 0, 0, own});
}

static void union_object(uint32_t k)
{
    pairs_of_union(k, 1, 0);
}

/* The own type is no object, so that the members need not be searched. */
static void union_scalar(uint32_t k)
{
    pairs_of_union(k, 2, 0);
}

static void union_object_arguments(uint32_t k)
{
    pairs_of_union(k, 1, 1);
}

/* Pairs whose objects' fields are an object with many edges, the last of them to this name. */
static void pairs_of_edges(uint32_t k, uint32_t last_edge, enum lv_kind demanded)
{
    uint32_t n = name_count(k), count = square_root(512 * k);
    for (uint32_t e = 0; e < 512 * k - 1; e++) add_edge(n - 1 - e);
    add_edge(last_edge);
    add_type(0, LV_OBJECT);
    add_type(1, demanded);
    add_pairs(k, (pairs){count, 1024 * k / count, 0, 1, 0});
}

/* What is demanded is no interface, so that the edges need not be searched. */
static void own_edges(uint32_t k)
{
    pairs_of_edges(k, name_count(k) - 512 * k, LV_SCALAR);
}

/* And here they must be, to the last. */
static void own_interfaces(uint32_t k)
{
    pairs_of_edges(k, 1, LV_INTERFACE);
}

/* One field has every name as an argument, and then the last again and again. */
static void unique_arguments(uint32_t k)
{
    uint32_t n = name_count(k);
    for (uint32_t a = 0; a < 4096 * k; a++) add_argument(a < n ? a : n - 1, 1);
    add_field(0, 0, NULLABLE);
    add_type(0, LV_OBJECT);
    add_type(1, LV_INPUT_OBJECT);
}

/* Input objects. Their names are the last of all, which a lookup finds in the most looks. */

static uint32_t first_name;
static uint32_t seed;

static void add_link(uint32_t name, uint32_t to, uint32_t wrap)
{
    add_field(name, first_name + to, wrap);
}

static void input_objects(uint32_t k, void (*links)(uint32_t i, uint32_t t))
{
    uint32_t t = 256 * k;
    first_name = name_count(k) - t;
    seed = 1;
    for (uint32_t i = 0; i < t; i++) {
        links(i, t);
        add_type(first_name + i, LV_INPUT_OBJECT);
    }
}

static void scattered_links(uint32_t i, uint32_t t)
{
    (void)i;
    for (uint32_t j = 0; j < 8; j++) {
        seed = seed * 1664525 + 1013904223;
        add_link(j, (seed >> 8) % t, NON_NULL);
    }
}

static void links_behind(uint32_t i, uint32_t t, uint32_t wrap_of_last)
{
    for (uint32_t j = 0; j < 8; j++) add_link(j, i + 1 + j < t ? i + 1 + j : t - 1, i == t - 1 ? wrap_of_last : NON_NULL);
}

static void closed_links(uint32_t i, uint32_t t)
{
    links_behind(i, t, NON_NULL);
}

static void open_links(uint32_t i, uint32_t t)
{
    links_behind(i, t, NULLABLE);
}

static void ring_links(uint32_t i, uint32_t t)
{
    add_link(0, (i + 1) % t, NON_NULL);
}

/* All lead to the last two, which lead to each other and, by all the other fields there can be, each to itself. */
static void hub_links(uint32_t i, uint32_t t)
{
    uint32_t last = t - 1, other = i == last ? last - 1 : last;
    add_link(0, other, NON_NULL);
    for (uint32_t j = 1; i >= last - 1 && j < 7 * t / 2; j++) add_link(j, i, NON_NULL);
}

/* A ring by the last field; the others jump to types before and far behind. */
static void jump_links(uint32_t i, uint32_t t)
{
    for (uint32_t j = 0; j < 7; j++) add_link(j, (i / 2 + 37 * j) % t, NON_NULL);
    add_link(7, (i + 1) % t, NON_NULL);
}

/* A ring by the last field; the others lead to the seven types before. */
static void back_links(uint32_t i, uint32_t t)
{
    for (uint32_t j = 0; j < 7; j++) add_link(j, i < 7 ? i + 1 : i - 1 - j, NON_NULL);
    add_link(7, (i + 1) % t, NON_NULL);
}

static void scattered(uint32_t k)
{
    input_objects(k, scattered_links);
}

static void behind(uint32_t k)
{
    input_objects(k, closed_links);
}

static void open_chains(uint32_t k)
{
    input_objects(k, open_links);
}

static void ring(uint32_t k)
{
    input_objects(k, ring_links);
}

static void two_hubs(uint32_t k)
{
    input_objects(k, hub_links);
}

static void jumps(uint32_t k)
{
    input_objects(k, jump_links);
}

static void back(uint32_t k)
{
    input_objects(k, back_links);
}

/* The limits: a quarter each of objects and interfaces, that implement eight interfaces each; of unions and enums; of input objects. */

static void add_implementer(uint32_t i, uint32_t q, uint32_t argument_names)
{
    for (uint32_t e = 0; e < 8; e++) add_edge(q + (i + 7 * e) % q);
    for (uint32_t j = 0; j < 12; j++) {
        for (uint32_t a = 0; j < 8 && a < 4; a++) add_argument(argument_names + a, 3 * q + i % q);
        add_field(4 * q + j, (i + j) % (3 * q), NON_NULL);
    }
    add_type(i, i < q ? LV_OBJECT : LV_INTERFACE);
}

static void add_union_or_enum(uint32_t i, uint32_t q, uint32_t value_names)
{
    if (i % 2 == 0) {
        for (uint32_t j = 0; j < 32; j++) add_member((i + j) % q);
        add_type(i, LV_UNION);
    } else {
        for (uint32_t j = 0; j < 32; j++) add_value(value_names + j);
        add_type(i, LV_ENUM);
    }
}

static void limits(uint32_t k)
{
    uint32_t q = 64 * k, other_names = name_count(k) / 2;
    for (uint32_t i = 0; i < 2 * q; i++) add_implementer(i, q, other_names);
    for (uint32_t i = 2 * q; i < 3 * q; i++) add_union_or_enum(i, q, other_names);
    for (uint32_t i = 3 * q; i < 4 * q; i++) {
        for (uint32_t j = 0; j < 8; j++) add_field(4 * q + j, 3 * q + (i + 1 + j) % q, NULLABLE);
        add_type(i, LV_INPUT_OBJECT);
    }
}

const family families[] = {
    {"long-names", one_longer, one_input_object, {2, 2, 2}, {0, 0, 0}},
    {"late-names", one_later, one_input_object, {2, 2, 2}, {0, 0, 0}},
    {"repeats", four_letters, repeats, {2048, 4096, 8192}, {0, 0, 0}},
    {"arguments", four_letters, many_arguments, {134210, 374807, 1060994}, {0, 0, 0}},
    {"fields", four_letters, many_fields, {61282, 175865, 507586}, {0, 0, 0}},
    {"edges", four_letters, many_edges, {1026, 2027, 4098}, {0, 0, 0}},
    {"two-interfaces", four_letters, two_interfaces, {4, 4, 4}, {0, 0, 0}},
    {"union-object", four_letters, union_object, {994, 2005, 4034}, {0, 0, 0}},
    {"union-scalar", four_letters, union_scalar, {33762, 93130, 266178}, {0, 0, 0}},
    {"own-edges", four_letters, own_edges, {22779, 66563, 186326}, {0, 0, 0}},
    {"own-interfaces", four_letters, own_interfaces, {515, 1027, 2051}, {0, 0, 0}},
    {"unique-arguments", four_letters, unique_arguments, {3074, 6146, 12290}, {0, 0, 0}},
    {"scattered", four_letters, scattered, {257, 512, 1025}, {63, 176, 45}},
    {"behind", four_letters, behind, {2, 2, 2}, {0, 0, 0}},
    {"open-chains", four_letters, open_chains, {1, 1, 1}, {0, 0, 0}},
    {"ring", four_letters, ring, {257, 513, 1025}, {256, 512, 1024}},
    {"two-hubs", four_letters, two_hubs, {3, 3, 3}, {0, 0, 0}},
    {"jumps", four_letters, jumps, {257, 513, 1025}, {1, 1, 1}},
    {"back", four_letters, back, {257, 513, 1025}, {8, 8, 8}},
    {"all-records", one_longer, union_object_arguments, {73698, 200680, 556994}, {0, 0, 0}},
    {"all-evidence", one_longer, scattered, {257, 512, 1025}, {63, 176, 45}},
    {"limits", four_letters, limits, {33655, 66083, 130723}, {0, 0, 0}},
};
const size_t family_count = sizeof families / sizeof *families;

const family *family_named(const char *name)
{
    for (size_t i = 0; i < family_count; i++)
        if (strcmp(families[i].name, name) == 0) return &families[i];
    return NULL;
}

static uint32_t words[MOST_WORDS];

schema build(const family *f, uint32_t k)
{
    have = (counts){.names = name_count(k)};
    input_object = LV_NONE;
    f->rows(k);
    uint32_t *at = header(words, have);
    at = f->names(at, have.names);
    at = put_row(at, types, TYPE_WORDS * have.types);
    at = put_row(at, edges, EDGE_WORDS * have.edges);
    at = put_row(at, fields, FIELD_WORDS * have.fields);
    at = put_row(at, arguments, ARGUMENT_WORDS * have.arguments);
    at = put_row(at, members, MEMBER_WORDS * have.members);
    at = put_row(at, values, VALUE_WORDS * have.values);
    at = roots_row(at, LV_NONE, LV_NONE, LV_NONE);
    return (schema){text, text_len, words, at - words, have.types, input_object};
}
