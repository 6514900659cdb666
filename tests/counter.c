/*
 * The static library called from C, by its header alone: 01's "Scripts to try at the counter", with tables of just the sizes that
 * phagdrulis_room answers and with 01's ample ones by bytes, full of junk before each call; each table one number too small for
 * what the script needs; what was read encoded again; and the parts of the script that leaves have. tests/callers builds and runs it.
 */
#include "phagdrulis.h"

#include <stdio.h>
#include <stdlib.h>
#include <string.h>

struct expected {
    const char *name;
    const char *script;   /* hexadecimal, kind 0 */
    uint32_t number;
    uint32_t reason;
    size_t place;
    size_t tokens;
    size_t steps;         /* ANY where 01 doesn't say */
    const char *kinds;    /* the nodes' kinds, NULL where 01 doesn't say or refused */
};

#define ANY ((size_t)-1)

static const struct expected counter[] = {
    {"empty", "", 9, 0, 0, 0, 1, NULL},
    {"1", "51", 0, 0, 0, 1, 2, "1"},
    {"and_v", "516951", 0, 0, 0, 3, 6, "1 1 16 19"},
    {"and_v twice", "5169516951", 0, 0, 0, 5, 12, "1 1 16 1 16 19 19"},
    {"or_i", "6351670068", 0, 0, 0, 5, 8, "2 1 25"},
    {"swap not one", "517c519b", 14, 3, 1, 4, 5, NULL},
    {"thresh", "005187", 0, 0, 0, 3, 5, "2 26"},
    {"thresh 2 of 1", "005287", 13, 0, ANY, 3, 4, NULL},
    {"left over", "6351", 18, 0, ANY, 2, ANY, NULL},
    {"verify apart", "8769", 7, 0, 1, 0, 0, NULL},
    {"older 0", "00b2", 12, 0, ANY, 2, ANY, NULL},
    {"dup if", "7663516968", 0, 0, 0, 5, 8, "1 16 15"},
    {"older 1", "51b2", 0, 0, 0, 2, ANY, "7"},
    {"5 pushed", "0105", 3, 0, 0, 0, 0, NULL},
    {"17 pushed", "0111", 10, 0, 0, 1, ANY, NULL},
    {"minus 0", "0180", 4, 0, 0, 0, 0, NULL},
    {"minus 17", "0191", 5, 0, 0, 0, 0, NULL},
    {"127 too wide", "027f00", 4, 0, 0, 0, 0, NULL},
    {"length missing", "4c", 2, 0, 0, 0, 0, NULL},
    {"unknown opcode", "4f", 6, 0, 0, 0, 0, NULL},
    {"verify of nothing", "88", 9, 0, 0, 2, ANY, NULL},
};

static int failures = 0;

static void check(int holds, const char *name, const char *what)
{
    if (!holds) {
        fprintf(stderr, "%s: %s\n", name, what);
        failures++;
    }
}

struct tables {
    size_t tokens_length, nodes_length, keys_length, work_length;
    uint32_t *tokens, *nodes, *keys;
    uint64_t *work;
};

/* A table full of junk. Never NULL, even for no number at all. */
static void *junk(size_t bytes)
{
    void *p = malloc(bytes + 8);
    if (p == NULL) {
        abort();
    }
    memset(p, 0xa5, bytes + 8);
    return p;
}

static struct tables lend(size_t tokens, size_t nodes, size_t keys, size_t work)
{
    struct tables t;
    t.tokens_length = tokens;
    t.nodes_length = nodes;
    t.keys_length = keys;
    t.work_length = work;
    t.tokens = junk(4 * tokens);
    t.nodes = junk(4 * nodes);
    t.keys = junk(4 * keys);
    t.work = junk(8 * work);
    return t;
}

static void take_back(struct tables *t)
{
    free(t->tokens);
    free(t->nodes);
    free(t->keys);
    free(t->work);
}

static int zero_from(const uint32_t *table, size_t from, size_t length)
{
    for (size_t i = from; i < length; i++) {
        if (table[i] != 0) {
            return 0;
        }
    }
    return 1;
}

/* Only the tables themselves are written: the junk behind each is as it was. */
static int junk_behind(const void *table, size_t bytes)
{
    const unsigned char *p = (const unsigned char *)table + bytes;
    for (size_t i = 0; i < 8; i++) {
        if (p[i] != 0xa5) {
            return 0;
        }
    }
    return 1;
}

static void tables_as_told(const char *name, const struct tables *t, const struct phagdrulis_answer *a)
{
    int accepted = a->number == 0;
    check(zero_from(t->tokens, accepted ? 3 * a->tokens : 0, t->tokens_length), name, "tokens not zero behind");
    check(zero_from(t->nodes, 9 * a->nodes, t->nodes_length), name, "nodes not zero behind");
    check(zero_from(t->keys, a->keys, t->keys_length), name, "keys not zero behind");
    for (size_t i = 0; i < t->work_length; i++) {
        check(t->work[i] == 0, name, "work not zero");
    }
    check(junk_behind(t->tokens, 4 * t->tokens_length), name, "written behind the tokens");
    check(junk_behind(t->nodes, 4 * t->nodes_length), name, "written behind the nodes");
    check(junk_behind(t->keys, 4 * t->keys_length), name, "written behind the keys");
    check(junk_behind(t->work, 8 * t->work_length), name, "written behind the work");
}

static struct phagdrulis_answer read_in(struct tables *t, uint32_t kind, const uint8_t *script, size_t length)
{
    return phagdrulis_read(kind, script, length, t->tokens, t->tokens_length, t->nodes, t->nodes_length, t->keys, t->keys_length, t->work,
                           t->work_length);
}

static size_t unhex(const char *text, uint8_t *bytes)
{
    size_t n = strlen(text) / 2;
    for (size_t i = 0; i < n; i++) {
        unsigned byte;
        if (sscanf(text + 2 * i, "%2x", &byte) != 1) {
            abort();
        }
        bytes[i] = (uint8_t)byte;
    }
    return n;
}

static void kinds_are(const char *name, const char *kinds, const struct tables *t, const struct phagdrulis_answer *a)
{
    char found[256] = "";
    for (size_t i = 0; i < a->nodes; i++) {
        size_t used = strlen(found);
        snprintf(found + used, sizeof found - used, "%s%u", i == 0 ? "" : " ", (unsigned)t->nodes[9 * i + PHAGDRULIS_KIND]);
    }
    check(strcmp(found, kinds) == 0, name, "other kinds");
}

static int all_are(const uint8_t *bytes, size_t from, size_t length, uint8_t byte)
{
    for (size_t i = from; i < length; i++) {
        if (bytes[i] != byte) {
            return 0;
        }
    }
    return 1;
}

/* What was read, encoded into an output of so many bytes with so much work, both full of junk: refused with this number, or the script. */
static void encoded_as_told(const char *name, uint32_t kind, const uint32_t *nodes, size_t node_count, const uint32_t *keys, size_t key_count,
                            const uint8_t *script, size_t length, size_t work_length, size_t out_length, uint32_t number, uint32_t reason)
{
    uint64_t *work = junk(8 * work_length);
    uint8_t *out = junk(out_length);
    struct phagdrulis_encoded e = phagdrulis_encode(kind, nodes, 9 * node_count, keys, key_count, script, length, work, work_length, out, out_length);
    check(e.number == number && e.reason == reason && e.place == 0, name, "encode: another number");
    check(e.bytes == (number == 0 ? length : 0), name, "encode: another length");
    if (number == 0) {
        check(memcmp(out, script, length) == 0, name, "encode: another script");
    }
    check(all_are(out, e.bytes, out_length + 8, 0xa5), name, "encode: more was written");
    check(all_are((const uint8_t *)work, 0, 8 * work_length, 0), name, "encode: work not zero");
    check(junk_behind(work, 8 * work_length), name, "encode: written behind the work");
    free(work);
    free(out);
}

/* There and back: with just the room that is enough, with more, and with one byte or one number too little. */
static void comes_back(const char *name, uint32_t kind, const struct tables *t, const struct phagdrulis_answer *a, const uint8_t *script, size_t length)
{
    size_t work = 8 * a->nodes + 2;
    encoded_as_told(name, kind, t->nodes, a->nodes, t->keys, a->keys, script, length, work, length, 0, 0);
    encoded_as_told(name, kind, t->nodes, a->nodes, t->keys, a->keys, script, length, work + 9, length + 9, 0, 0);
    encoded_as_told(name, kind, t->nodes, a->nodes, t->keys, a->keys, script, length, work, length - 1, 22, 0);
    encoded_as_told(name, kind, t->nodes, a->nodes, t->keys, a->keys, script, length, work - 1, length - 1, 17, 0);
    encoded_as_told(name, 2, t->nodes, a->nodes, t->keys, a->keys, script, length, work, length, 20, 0);
    encoded_as_told(name, kind, t->nodes, 0, t->keys, 0, script, length, work, length, 21, 0);
}

static void as_expected(const struct expected *e, struct tables *t, const uint8_t *script, size_t length)
{
    struct phagdrulis_answer a = read_in(t, PHAGDRULIS_SEGWIT, script, length);
    check(a.number == e->number, e->name, "another number");
    check(a.reason == e->reason, e->name, "another reason");
    check(e->place == ANY || a.place == e->place, e->name, "another place");
    check(a.tokens == e->tokens, e->name, "another count of tokens");
    check(e->steps == ANY || a.steps == e->steps, e->name, "another count of steps");
    tables_as_told(e->name, t, &a);
    if (e->kinds != NULL && a.number == 0) {
        kinds_are(e->name, e->kinds, t, &a);
    }
    if (a.number == 0) {
        comes_back(e->name, PHAGDRULIS_SEGWIT, t, &a, script, length);
    }
}

static void run_counter(void)
{
    for (size_t i = 0; i < sizeof counter / sizeof counter[0]; i++) {
        const struct expected *e = &counter[i];
        uint8_t script[64];
        size_t length = unhex(e->script, script);
        struct tables by_bytes = lend(3 * 2 * length, 9 * 4 * length, length, 16 * length + 2);
        as_expected(e, &by_bytes, script, length);
        take_back(&by_bytes);

        struct phagdrulis_room room = phagdrulis_room(script, length);
        struct phagdrulis_lexed lexed;
        struct tables by_room = lend(3 * room.tokens, 9 * room.nodes, room.keys, room.work);
        lexed = phagdrulis_lex(script, length, by_room.tokens, by_room.tokens_length);
        if (room.number == 0) {
            check(room.nodes == 2 * room.tokens && room.keys == room.tokens && room.work == 8 * room.tokens + 2, e->name, "other sizes");
            check(lexed.number == 0 && lexed.tokens == room.tokens, e->name, "lex tells other tokens than room");
            as_expected(e, &by_room, script, length);
        } else {
            check(room.number == e->number && room.place == e->place, e->name, "room refuses otherwise");
            check(room.tokens == 0 && room.nodes == 0 && room.keys == 0 && room.work == 0, e->name, "sizes after a refusal");
        }
        take_back(&by_room);
    }
}

/* 01's example: every number of `006351670068`. */
static void run_example(void)
{
    static const uint8_t script[] = {0x63, 0x51, 0x67, 0x00, 0x68};
    static const uint32_t nodes[] = {2, 0, 0, 0, 1, 1, 1, 1, 1, 1, 0, 0, 0, 1, 1, 1, 0, 1, 25, 0, 0, 0, 3, 1, 2, 1, 1};
    struct tables t = lend(15, 90, 5, 42);
    struct phagdrulis_answer a = read_in(&t, PHAGDRULIS_SEGWIT, script, sizeof script);
    check(a.nodes == 3 && memcmp(t.nodes, nodes, sizeof nodes) == 0, "01's example", "other nodes");
    take_back(&t);

    /* A tree that isn't one: a wrong size, and a stored type that isn't the tree's. */
    uint32_t wrong[27];
    uint32_t none[1] = {0};
    memcpy(wrong, nodes, sizeof nodes);
    wrong[18 + PHAGDRULIS_SIZE] = 2;
    encoded_as_told("a wrong size", PHAGDRULIS_SEGWIT, wrong, 3, none, 0, script, sizeof script, 26, 5, 21, 0);
    memcpy(wrong, nodes, sizeof nodes);
    wrong[18 + PHAGDRULIS_UNIT] = 0;
    encoded_as_told("a wrong type", PHAGDRULIS_SEGWIT, wrong, 3, none, 0, script, sizeof script, 26, 5, 14, 13);
}

/* A table too small, a kind that isn't one, a script that is too long. */
static void run_refusals(void)
{
    static const uint8_t script[] = {0x51, 0x69, 0x51};
    static const struct {
        size_t tokens, nodes, keys, work;
        uint32_t number;
    } cases[] = {{9, 36, 0, 4, 0}, {8, 36, 0, 4, 8}, {9, 35, 0, 4, 15}, {9, 36, 0, 1, 17}, {0, 0, 0, 0, 8}};
    for (size_t i = 0; i < sizeof cases / sizeof cases[0]; i++) {
        struct tables t = lend(cases[i].tokens, cases[i].nodes, cases[i].keys, cases[i].work);
        struct phagdrulis_answer a = read_in(&t, PHAGDRULIS_SEGWIT, script, sizeof script);
        check(a.number == cases[i].number, "516951 in small tables", "another number");
        tables_as_told("516951 in small tables", &t, &a);
        take_back(&t);
    }
    struct tables t = lend(9, 54, 3, 26);
    struct phagdrulis_answer a = read_in(&t, 2, script, sizeof script);
    check(a.number == 20 && a.place == 0 && a.tokens == 0 && a.steps == 0, "kind 2", "not 20");
    tables_as_told("kind 2", &t, &a);
    take_back(&t);

    uint8_t *longer = malloc(PHAGDRULIS_LONGEST_SCRIPT + 1);
    if (longer == NULL) {
        abort();
    }
    memset(longer, 0x51, PHAGDRULIS_LONGEST_SCRIPT + 1);
    struct phagdrulis_room room = phagdrulis_room(longer, PHAGDRULIS_LONGEST_SCRIPT + 1);
    check(room.number == 1 && room.place == 0, "10,001 bytes", "room: not 1");
    room = phagdrulis_room(longer, PHAGDRULIS_LONGEST_SCRIPT);
    check(room.number == 0 && room.tokens == PHAGDRULIS_LONGEST_SCRIPT, "10,000 bytes", "room: not 10,000 tokens");
    t = lend(3, 9, 1, 2);
    a = read_in(&t, PHAGDRULIS_TAPSCRIPT, longer, PHAGDRULIS_LONGEST_SCRIPT + 1);
    check(a.number == 1 && a.place == 0, "10,001 bytes", "not 1");
    tables_as_told("10,001 bytes", &t, &a);
    take_back(&t);
    free(longer);
}

/* Two keys of a multi, as offsets into the script. */
static void run_keys(void)
{
    uint8_t script[71];
    memset(script, 2, sizeof script);
    script[0] = 0x51;
    script[1] = 33;
    script[35] = 33;
    script[69] = 0x52;
    script[70] = 0xae;
    struct phagdrulis_room room = phagdrulis_room(script, sizeof script);
    struct tables t = lend(3 * room.tokens, 9 * room.nodes, room.keys, room.work);
    struct phagdrulis_answer a = read_in(&t, PHAGDRULIS_SEGWIT, script, sizeof script);
    check(a.number == 0 && a.nodes == 1 && a.keys == 2, "multi", "not read");
    check(t.nodes[PHAGDRULIS_KIND] == PHAGDRULIS_MULTI && t.nodes[PHAGDRULIS_NUMBER] == 1 && t.nodes[PHAGDRULIS_COUNT] == 2, "multi", "other fields");
    check(t.keys[0] == 2 && t.keys[1] == 36, "multi", "other offsets");
    comes_back("multi", PHAGDRULIS_SEGWIT, &t, &a, script, sizeof script);
    take_back(&t);
}

static void part_is(const char *name, uint32_t kind, const uint8_t *script, size_t length, uint32_t node, uint32_t place, size_t start, size_t bytes)
{
    struct phagdrulis_part p = phagdrulis_leaf_part(kind, script, length, node, place);
    check(p.start == start && p.bytes == bytes, name, "another part");
}

/* A key and a key's hash: or_d of pk and pk_h, there and back, and the part of the script that each leaf has. */
static void run_leaves(void)
{
    uint8_t script[63];
    memset(script, 2, sizeof script);
    script[0] = 33;
    script[34] = 0xac;
    script[35] = 0x73;
    script[36] = 0x64;
    script[37] = 0x76;
    script[38] = 0xa9;
    script[39] = 20;
    script[60] = 0x88;
    script[61] = 0xac;
    script[62] = 0x68;
    struct phagdrulis_room room = phagdrulis_room(script, sizeof script);
    struct tables t = lend(3 * room.tokens, 9 * room.nodes, room.keys, room.work);
    struct phagdrulis_answer a = read_in(&t, PHAGDRULIS_SEGWIT, script, sizeof script);
    check(a.number == 0 && a.nodes == 5, "or_d", "not read");
    size_t leaves = 0;
    for (size_t i = 0; i < a.nodes; i++) {
        const uint32_t *node = t.nodes + 9 * i;
        struct phagdrulis_part p = phagdrulis_leaf_part(PHAGDRULIS_SEGWIT, script, sizeof script, node[PHAGDRULIS_KIND], node[PHAGDRULIS_PLACE]);
        if (node[PHAGDRULIS_KIND] == PHAGDRULIS_PK_K) {
            check(p.start == 1 && p.bytes == 33, "pk_k", "another part");
            leaves++;
        } else if (node[PHAGDRULIS_KIND] == PHAGDRULIS_RAW_PK_H) {
            check(p.start == 40 && p.bytes == 20, "raw pk_h", "another part");
            leaves++;
        } else {
            check(p.start == 0 && p.bytes == 0, "no leaf", "a part");
        }
    }
    check(leaves == 2, "or_d", "other leaves");
    comes_back("or_d", PHAGDRULIS_SEGWIT, &t, &a, script, sizeof script);
    take_back(&t);

    part_is("hash at the end", PHAGDRULIS_TAPSCRIPT, script, 63, PHAGDRULIS_SHA256, 31, 31, 32);
    part_is("one past the end", PHAGDRULIS_TAPSCRIPT, script, 63, PHAGDRULIS_SHA256, 32, 0, 0);
    part_is("far past the end", PHAGDRULIS_TAPSCRIPT, script, 63, PHAGDRULIS_HASH160, UINT32_MAX, 0, 0);
    part_is("x-only key", PHAGDRULIS_TAPSCRIPT, script, 63, PHAGDRULIS_PK_K, 31, 31, 32);
    part_is("compressed key", PHAGDRULIS_SEGWIT, script, 63, PHAGDRULIS_PK_K, 31, 0, 0);
    part_is("unknown kind", 2, script, 63, PHAGDRULIS_SHA256, 0, 0, 0);
}

int main(void)
{
    run_counter();
    run_example();
    run_refusals();
    run_keys();
    run_leaves();
    if (failures != 0) {
        fprintf(stderr, "C: %d failed\n", failures);
        return 1;
    }
    printf("C: %zu scripts of the counter, the example, small tables, kinds, lengths, keys, scripts encoded again and leaves: as told\n", sizeof counter / sizeof counter[0]);
    return 0;
}
