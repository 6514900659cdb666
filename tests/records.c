/*
 * The reader and the encoder for callers who keep nodes as records, called from C by their header alone: scripts read into records
 * that held junk before, looked at field by field, and written back; too few records; too small a flat table. tests/callers
 * builds and runs it.
 */
#include "phagdrulis_records.h"

#include <stdio.h>
#include <stdlib.h>
#include <string.h>

#define ROOM 64

static uint32_t tokens[3 * ROOM], flat[9 * ROOM], keys[ROOM];
static uint64_t work[8 * ROOM + 2];
static struct phagdrulis_node records[ROOM];
static uint8_t out[ROOM];

static void expect(int holds, const char *what) {
    if (!holds) {
        printf("records: not so: %s\n", what);
        exit(1);
    }
}

static void junk(void) {
    memset(tokens, 0xa5, sizeof tokens);
    memset(flat, 0xa5, sizeof flat);
    memset(keys, 0xa5, sizeof keys);
    memset(work, 0xa5, sizeof work);
    memset(records, 0xa5, sizeof records);
    memset(out, 0xa5, sizeof out);
}

static int zero(const void *part, size_t bytes) {
    const unsigned char *p = part;
    for (size_t i = 0; i < bytes; i++)
        if (p[i] != 0)
            return 0;
    return 1;
}

static struct phagdrulis_records_read read_into(const uint8_t *script, size_t length, size_t room) {
    junk();
    return read_records(0, script, length, tokens, 3 * ROOM, flat, 9 * ROOM, records, room, keys, ROOM, work, 8 * ROOM + 2);
}

int main(void) {
    static const uint8_t or_i[] = {0x63, 0x51, 0x67, 0x00, 0x68}, chain[] = {0x51, 0x69, 0x51}, bad[] = {0x51, 0x7c, 0x51, 0x9b};
    struct phagdrulis_records_read r = read_into(or_i, sizeof or_i, ROOM);
    expect(r.number == 0 && r.tokens == 5 && r.steps == 8 && r.nodes == 3 && r.keys == 0, "the answer of 6351670068");
    expect(records[0].kind == 2 && records[0].base == 1 && records[0].input == 1 && records[0].dissatisfiable == 1 && records[0].unit == 1, "its 0");
    expect(records[1].kind == 1 && records[1].size == 1 && records[1].dissatisfiable == 0, "its 1");
    expect(records[2].kind == 25 && records[2].size == 3 && records[2].input == 2, "its or_i");
    expect(zero(records + 3, (ROOM - 3) * sizeof records[0]) && zero(work, sizeof work), "zeros behind");

    r = read_into(bad, sizeof bad, ROOM);
    expect(r.number == 14 && r.reason == 3 && r.place == 1 && r.steps == 5, "the answer of 517c519b");
    expect(zero(records, sizeof records) && zero(flat, sizeof flat) && zero(tokens, sizeof tokens), "all zero after it");

    r = read_into(chain, sizeof chain, 3);
    expect(r.number == 15 && zero(records, 3 * sizeof records[0]) && records[3].kind == 0xa5a5a5a5, "three records for four nodes");

    r = read_into(chain, sizeof chain, ROOM);
    expect(r.number == 0 && r.nodes == 4, "516951");
    struct phagdrulis_records_encoded e =
        encode_records(0, records, r.nodes, flat, 9 * ROOM, keys, 0, chain, sizeof chain, work, 8 * ROOM + 2, out, ROOM);
    expect(e.number == 0 && e.bytes == sizeof chain && memcmp(out, chain, sizeof chain) == 0 && out[3] == 0xa5, "written back");
    expect(zero(flat, sizeof flat) && zero(work, sizeof work), "flat table and work zero");

    memset(out, 0xa5, sizeof out);
    e = encode_records(0, records, r.nodes, flat, 35, keys, 0, chain, sizeof chain, work, 8 * ROOM + 2, out, ROOM);
    expect(e.number == 17 && e.bytes == 0 && out[0] == 0xa5, "35 numbers for four records");
    records[3].size = 3;
    e = encode_records(0, records, r.nodes, flat, 9 * ROOM, keys, 0, chain, sizeof chain, work, 8 * ROOM + 2, out, ROOM);
    expect(e.number == 21 && out[0] == 0xa5, "a wrong size");
    puts("records: seven calls as told");
    return 0;
}
