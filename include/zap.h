/*
 * The matcher, the checker, the summary, the writer and tables, for C and C++.
 *
 * `tools/archive host` writes target/staticlib/libhost.a, which holds them. How
 * functions and claims are written, byte by byte, is told in docs/FORMATS.md.
 *
 * The caller keeps this: each pointer is valid for its length, and not null even
 * where the length is 0; what a call writes to (`out`, `figures`) overlaps nothing
 * else that it is given. Nothing else is asked: the bytes may be anything, and bad
 * ones are refused.
 *
 * The calls keep nothing between them, so any number may run at once, in any threads.
 * They ask for no memory but stack: zap_match takes up to 3.2 kB of it, zap_check
 * 2.3 kB, the others less than 0.5 kB (measured, x86-64, as an earlier toolchain
 * built them).
 */
#ifndef ZAP_H
#define ZAP_H

#include <stddef.h>
#include <stdint.h>

#ifdef __cplusplus
extern "C" {
#endif

/*
 * Finds the first wiring under which f and g agree, or the refusal that shows that
 * there is none. The claim is written at the start of `out`, and nothing after it;
 * if the call refuses, no byte of `out` changes. No claim is longer than 75,323,621
 * bytes, and code 18 tells the length needed.
 */
uint64_t zap_match(const uint8_t *f, size_t f_len, const uint8_t *g, size_t g_len,
                   uint8_t *out, size_t out_len);

/*
 * Checks a claim about f and g. A match is accepted exactly if the functions agree
 * under its wiring, a refusal exactly if its trees follow the rules; then no wiring
 * agrees.
 */
uint64_t zap_check(const uint8_t *f, size_t f_len, const uint8_t *g, size_t g_len,
                   const uint8_t *claim, size_t claim_len);

/*
 * Counts the patterns at which f is on, those at which it is off, and the inputs in
 * use: three numbers at the start of `figures`, whose length counts numbers. They are
 * stored if there is room for three, else nothing is. A refused f gives three zeros.
 */
uint64_t zap_summary(const uint8_t *f, size_t f_len, uint64_t *figures, size_t figures_len);

/*
 * Writes the function record of n inputs and two lists of cubes, two bytes each, at
 * the start of `out`, and nothing after it; if the call refuses, no byte of `out`
 * changes. No record is longer than 261 bytes, and code 18 tells the length needed.
 * In a refusal record 1 is the on list, 2 the off list, and places count within it.
 */
uint64_t zap_write(uint8_t n, const uint8_t *on, size_t on_len, const uint8_t *off,
                   size_t off_len, uint8_t *out, size_t out_len);

/*
 * Reads an espresso table with one output into a function record, written at the start
 * of `out`, and nothing after it; if the call refuses, no byte of `out` changes. 261
 * bytes are enough. In a refusal record 1 is the table: 20, 21, 22 and here also 3
 * tell the first faulty line, counted from 1; 4 and 7 a place in the record that the
 * table would give, as of zap_match.
 */
uint64_t zap_read_table(const uint8_t *text, size_t text_len, uint8_t *out, size_t out_len);

/*
 * Writes the table of a function record at the start of `out`, and nothing after it,
 * no zero byte either; if the call refuses, no byte of `out` changes. Read again, it
 * gives the record's own bytes. No table is longer than 1,437 bytes, and code 18 tells
 * the length needed.
 */
uint64_t zap_write_table(const uint8_t *record, size_t record_len, uint8_t *out, size_t out_len);

/*
 * Each answer is one number: code + 256 kind + 65,536 record + 16,777,216 place +
 * 2^56 pattern.
 *
 * Accepted: code 0, record 0, and the place is the length of what was written, else of
 * the claim, else of the record read.
 * Refused: kind 0, and record and place say where the fault is. Places count from 0,
 * the lines of a table from 1. A place has 32 bits; only the length that code 19 tells
 * and the line of a table could need more, and are then told as the largest that fits,
 * 4,294,967,295.
 * The pattern has the top eight bits: bit i is the value of input i. Only codes 7 and 14
 * have one; in every other answer, an accepted one too, it is 0.
 */
static inline unsigned zap_code(uint64_t answer) { return (unsigned)(answer & 255); }
static inline unsigned zap_kind(uint64_t answer) { return (unsigned)((answer >> 8) & 255); }
static inline unsigned zap_record(uint64_t answer) { return (unsigned)((answer >> 16) & 255); }
static inline uint64_t zap_place(uint64_t answer) { return (answer >> 24) & 4294967295u; }
static inline unsigned zap_pattern(uint64_t answer) { return (unsigned)(answer >> 56); }

enum zap_kinds {
    ZAP_REFUSED = 0,
    ZAP_MATCH = 1,
    ZAP_NO_MATCH = 2,
    ZAP_ALL_ELSE = 3 /* from the calls that neither find nor check a claim */
};

enum zap_records {
    ZAP_OF_NONE = 0,
    ZAP_OF_F = 1,     /* of zap_write: the on list; of zap_read_table: the table */
    ZAP_OF_G = 2,     /* of zap_write: the off list */
    ZAP_OF_CLAIM = 3,
    ZAP_OF_OUT = 4
};

enum zap_codes {
    ZAP_ACCEPTED = 0,

    /* A function record; 1, 2 and 8 also a claim. */
    ZAP_ENDS_EARLY = 1,      /* the bytes end too early: the length */
    ZAP_WRONG_MARK = 2,      /* wrong mark: the first wrong byte */
    ZAP_BAD_N = 3,           /* n not 1 to 8 in a function record: 2 */
    ZAP_BAD_COUNT = 4,       /* a count above 64: 3 or 4 */
    ZAP_BEYOND_N = 5,        /* a cube names an input at or above n: first byte of the cube */
    ZAP_IN_BOTH_MASKS = 6,   /* a cube has an input in both masks: first byte of the cube */
    ZAP_ON_AND_OFF = 7,      /* an on cube and an off cube of one function share a pattern:
                                first byte of the first such on cube; pattern: the smallest
                                that it shares with any off cube */
    ZAP_BYTES_FOLLOW = 8,    /* bytes follow the end: the first of them */

    /* The two functions. */
    ZAP_N_DIFFERS = 9,       /* f and g differ in n: 2, record 2 */

    /* A claim; 11 to 14 a match, 15 to 17 a refusal. */
    ZAP_CLAIM_N = 10,        /* the claim's n is not theirs: 2 */
    ZAP_BAD_Q = 11,          /* q is neither 0 nor 1: 3 */
    ZAP_BAD_CHOICE = 12,     /* a wiring byte outside 0..n-1 and 16..16+n-1: that byte */
    ZAP_USED_TWICE = 13,     /* an input of g used twice: the second such byte */
    ZAP_NOT_AGREEING = 14,   /* the wiring does not agree: 0; pattern: the smallest of g at
                                which the functions disagree */
    ZAP_BAD_NODE = 15,       /* a node's first byte not 0, 1 or FF, or a cube index beyond its
                                list: that byte */
    ZAP_SPLIT_AT_N = 16,     /* a split at depth n: that byte */
    ZAP_NOT_DEAD = 17,       /* the named pair is not dead: first byte of the node */

    /* The output buffer. */
    ZAP_BUFFER_SHORT = 18,   /* the output buffer is too short: the length needed */

    /* From zap_write alone. */
    ZAP_ODD_LIST = 19,       /* a cube list has an odd length: that length */

    /* From zap_read_table alone, where 3 is told by line too. */
    ZAP_BAD_LINE = 20,       /* malformed line or repeated keyword: the line, from 1 */
    ZAP_BAD_KEYWORD = 21,    /* unknown keyword, one missing at the first term or at .e, or
                                no .e: the line, from 1 */
    ZAP_BAD_TERM_COUNT = 22  /* at .e, the term count differs from .p: the line, from 1 */
};

#ifdef __cplusplus
}
#endif

#endif
