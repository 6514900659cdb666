/*
 * phagdrulis_records.h: the reader and the encoder for callers in C who keep nodes as records.
 *
 * Each function stands in a static library of its own:
 *
 *     tests/staticlib read_records     writes target/staticlib/libread_records.a
 *     tests/staticlib encode_records   writes target/staticlib/libencode_records.a
 *
 * What phagdrulis.h says of its functions and of what a caller owes holds here too. The flat node table that the core works
 * with is lent beside the records; how much it holds is counted in numbers, nine for a record.
 */
#ifndef PHAGDRULIS_RECORDS_H
#define PHAGDRULIS_RECORDS_H

#include <stddef.h>
#include <stdint.h>

#ifdef __cplusplus
extern "C" {
#endif

/* A node: the fields of enum phagdrulis_field, in their order. */
struct phagdrulis_node {
    uint32_t kind;
    uint32_t number;
    uint32_t count;
    uint32_t place;
    uint32_t size;
    uint32_t base;
    uint32_t input;
    uint32_t dissatisfiable;
    uint32_t unit;
};

/* What the reader answers, as phagdrulis_read does. */
struct phagdrulis_records_read {
    uint32_t number;
    uint32_t reason;
    size_t place;
    size_t tokens;
    size_t steps;
    size_t nodes;
    size_t keys;
};

/*
 * Reads a script. The room for nodes is the smaller of the flat table's and the records'. Afterwards the records hold the nodes
 * at the front and zero records behind them; after a refusal all are zero. The other tables end as after phagdrulis_read.
 */
struct phagdrulis_records_read read_records(uint32_t kind, const uint8_t *script, size_t script_length, uint32_t *tokens,
                                            size_t tokens_length, uint32_t *flat, size_t flat_length,
                                            struct phagdrulis_node *records, size_t records_length, uint32_t *keys,
                                            size_t keys_length, uint64_t *work, size_t work_length);

/* What the encoder answers, as phagdrulis_encode does. */
struct phagdrulis_records_encoded {
    uint32_t number;
    uint32_t reason;
    size_t place;
    size_t bytes;
};

/*
 * Writes the script of the tree that the records hold, as phagdrulis_encode does. A flat table with fewer than nine numbers a
 * record is 17 (20 goes before it). The flat table and the work table end zero either way.
 */
struct phagdrulis_records_encoded encode_records(uint32_t kind, const struct phagdrulis_node *records, size_t records_length,
                                                 uint32_t *flat, size_t flat_length, const uint32_t *keys, size_t keys_length,
                                                 const uint8_t *material, size_t material_length, uint64_t *work,
                                                 size_t work_length, uint8_t *out, size_t out_length);

#ifdef __cplusplus
}
#endif

#endif
