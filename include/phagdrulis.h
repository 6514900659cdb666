/*
 * phagdrulis.h: the reader of Bitcoin scripts that lock deposits, and the encoder of what it read, for callers in C.
 *
 * The functions stand in a static library that the Rattle toolchain proves and builds:
 *
 *     tests/staticlib exports       writes target/staticlib/libexports.a
 *     cc program.c -Iinclude target/staticlib/libexports.a
 *
 * Each function gives an answer for any kind, any bytes and any sizes of tables, 0 included; what it answers and what every table holds
 * afterwards follows from the kind, the bytes and tables that it only reads and the lengths of those that it writes alone (but that the
 * encoder leaves as it was what it doesn't write of its output). No function keeps anything between calls, allocates or
 * calls anything but memset, so any number of threads may call them at once, each with tables of its own.
 *
 * What a caller owes, and all that it owes, since C can't promise it by itself:
 *   - a pointer and a length together are a table or a script: so many elements, readable, and for a table writable;
 *   - a pointer is never NULL and is aligned for its type, even where the length is 0;
 *   - no table that is written overlaps another or the script.
 * Lengths are counted in numbers (elements), not in entries and not in bytes.
 */
#ifndef PHAGDRULIS_H
#define PHAGDRULIS_H

#include <stddef.h>
#include <stdint.h>

#ifdef __cplusplus
extern "C" {
#endif

/* The two kinds of script. Any other kind is refused with 20. */
#define PHAGDRULIS_SEGWIT 0u
#define PHAGDRULIS_TAPSCRIPT 1u

/* A longer script is refused with 1. */
#define PHAGDRULIS_LONGEST_SCRIPT 10000u

/* How many numbers one entry takes. */
#define PHAGDRULIS_TOKEN_NUMBERS 3u /* code, number, place */
#define PHAGDRULIS_NODE_NUMBERS 9u  /* the fields below */

/* The fields of a node, by their place among its nine numbers. */
enum phagdrulis_field {
    PHAGDRULIS_KIND = 0,           /* one of enum phagdrulis_kind */
    PHAGDRULIS_NUMBER = 1,         /* the locktime of after and older; k of thresh, multi and multi_a; else 0 */
    PHAGDRULIS_COUNT = 2,          /* children of thresh, keys of multi and multi_a; else 0 */
    PHAGDRULIS_PLACE = 3,          /* offset of the key or hash in the script; first entry in the key table; else 0 */
    PHAGDRULIS_SIZE = 4,           /* nodes in its subtree, itself too */
    PHAGDRULIS_BASE = 5,           /* 1 B, 2 K, 3 V, 4 W */
    PHAGDRULIS_INPUT = 6,          /* 1 Zero, 2 One, 3 Any, 4 OneNonZero, 5 AnyNonZero */
    PHAGDRULIS_DISSATISFIABLE = 7, /* 1 yes, 0 no */
    PHAGDRULIS_UNIT = 8            /* 1 yes, 0 no */
};

/* The kinds of node. 4 (pk_h) never occurs: such scripts give PHAGDRULIS_RAW_PK_H. */
enum phagdrulis_kind {
    PHAGDRULIS_TRUE = 1,
    PHAGDRULIS_FALSE = 2,
    PHAGDRULIS_PK_K = 3,
    PHAGDRULIS_RAW_PK_H = 5,
    PHAGDRULIS_AFTER = 6,
    PHAGDRULIS_OLDER = 7,
    PHAGDRULIS_SHA256 = 8,
    PHAGDRULIS_HASH256 = 9,
    PHAGDRULIS_RIPEMD160 = 10,
    PHAGDRULIS_HASH160 = 11,
    PHAGDRULIS_ALT = 12,
    PHAGDRULIS_SWAP = 13,
    PHAGDRULIS_CHECK = 14,
    PHAGDRULIS_DUP_IF = 15,
    PHAGDRULIS_VERIFY = 16,
    PHAGDRULIS_NON_ZERO = 17,
    PHAGDRULIS_ZERO_NOT_EQUAL = 18,
    PHAGDRULIS_AND_V = 19,
    PHAGDRULIS_AND_B = 20,
    PHAGDRULIS_AND_OR = 21,
    PHAGDRULIS_OR_B = 22,
    PHAGDRULIS_OR_D = 23,
    PHAGDRULIS_OR_C = 24,
    PHAGDRULIS_OR_I = 25,
    PHAGDRULIS_THRESH = 26,
    PHAGDRULIS_MULTI = 27,
    PHAGDRULIS_MULTI_A = 28
};

/* What phagdrulis_read answers. */
struct phagdrulis_answer {
    uint32_t number; /* 0: accepted; else the refusal's number (docs/REFUSALS.md) */
    uint32_t reason; /* of number 14, else 0 */
    size_t place;    /* the byte of the script that a refusal is about */
    size_t tokens;   /* 0 if the script could not be cut into tokens */
    size_t steps;
    size_t nodes;    /* 0 if refused */
    size_t keys;     /* 0 if refused */
};

/* What phagdrulis_lex answers. */
struct phagdrulis_lexed {
    uint32_t number; /* 0: accepted; else the refusal's number, 1 to 8 */
    size_t place;    /* 0 if accepted */
    size_t tokens;   /* 0 if refused */
};

/* What phagdrulis_encode answers. */
struct phagdrulis_encoded {
    uint32_t number; /* 0: written; else the refusal's number (docs/REFUSALS.md) */
    uint32_t reason; /* of number 14, else 0 */
    size_t place;    /* always 0 */
    size_t bytes;    /* of the script; 0 if refused */
};

/* What phagdrulis_leaf_part answers. */
struct phagdrulis_part {
    size_t start; /* the part's first byte in the script; 0 if there is none */
    size_t bytes; /* 0 if there is none */
};

/* What phagdrulis_room answers. */
struct phagdrulis_room {
    uint32_t number; /* 0, or the number that phagdrulis_read would refuse the script with, 1 to 7 (20 comes before) */
    size_t place;    /* 0 if there is none */
    size_t tokens;   /* how many tokens the script has; and entries that are then ample in each table: */
    size_t nodes;
    size_t keys;
    size_t work;
};

/*
 * Reads a script. The node table's last node, nodes[9 * (answer.nodes - 1)] on, is the whole rule; a node's children stand before it,
 * the first in script order just before it, the next one that child's `size` nodes before that, and so on. The script order of and_or's
 * children X, Y, Z is X, Z, Y.
 *
 * Accepted: tokens, nodes and keys (offsets into the script, in script order) fill the front of their tables, zeros the rest, and work
 * is all zero. Refused: all four tables are zero throughout. What they held before doesn't matter.
 *
 * 8, 15, 16 and 17 are never given if the tables have the sizes that phagdrulis_room answers: 3 * tokens, 9 * nodes, keys and work numbers.
 */
struct phagdrulis_answer phagdrulis_read(uint32_t kind,
                                         const uint8_t *script, size_t script_length,
                                         uint32_t *tokens, size_t tokens_length,
                                         uint32_t *nodes, size_t nodes_length,
                                         uint32_t *keys, size_t keys_length,
                                         uint64_t *work, size_t work_length);

/*
 * Cuts a script into tokens: code, number and place of each, three numbers a token, at the front of the table, zeros behind; zeros
 * throughout if it is refused.
 */
struct phagdrulis_lexed phagdrulis_lex(const uint8_t *script, size_t script_length,
                                       uint32_t *tokens, size_t tokens_length);

/*
 * Goes over a script once, with no table, and answers the sizes that are ample for it, in entries of each table. For t tokens these are
 * t tokens, 2t nodes, t keys and 8t + 2 entries of work.
 */
struct phagdrulis_room phagdrulis_room(const uint8_t *script, size_t script_length);

/*
 * Writes the script of the tree that a node table holds. nodes is a table with just the tree's nodes, 9 numbers each, as phagdrulis_read
 * lays them out (9 * answer.nodes numbers of its table); keys is a key table; material holds the bytes of keys and hashes where the
 * nodes' and keys' offsets say, as the script that was read does. The tree is checked whole before anything is written, stored types too.
 *
 * Accepted: the script fills the front of out, answer.bytes of it, and the rest of out is as it was. Refused: out is untouched. Either
 * way work is all zero.
 *
 * What phagdrulis_read found is never refused if work has 8 * nodes + 2 numbers and out as many bytes as the script had, and the script
 * comes back byte for byte, but that NUMEQUAL VERIFY comes back as NUMEQUALVERIFY.
 */
struct phagdrulis_encoded phagdrulis_encode(uint32_t kind,
                                            const uint32_t *nodes, size_t nodes_length,
                                            const uint32_t *keys, size_t keys_length,
                                            const uint8_t *material, size_t material_length,
                                            uint64_t *work, size_t work_length,
                                            uint8_t *out, size_t out_length);

/*
 * Where in a script the key or hash of a leaf lies (pk_k, a raw key hash, the four hash locks): the leaf's kind and place from its node.
 * None for other kinds of node, where it would not lie whole within the script, and in a script of an unknown kind.
 */
struct phagdrulis_part phagdrulis_leaf_part(uint32_t kind,
                                            const uint8_t *script, size_t script_length,
                                            uint32_t node_kind, uint32_t node_place);

#ifdef __cplusplus
}
#endif

#endif
