/*
 * GraphQL documents and string literals, printed in memory that the caller lends; literals read; node tables checked.
 *
 * Link libgateway.a, which `tools/library` has proved and writes to target/staticlib. It is for x86-64.
 *
 * All functions answer 0 on success and otherwise the number of a refusal. Those that take an output: no refusal changes
 * a byte of it; a success changes no byte past the length that it reports. They report at `length`
 *   - on success the length written,
 *   - on DERVISCLO_ROOM the length that is needed, exactly, whatever the length of the output,
 *   - on any other refusal 0.
 * So a call with an output of length 0 measures. More room never alters what is written.
 *
 * The lowest number that applies is answered, and DERVISCLO_ROOM only if no other does.
 *
 * What the caller owes: each pointer to bytes or words points to as many as the length beside it says (a pointer whose
 * length is 0 may be null); `length`, `form` and `place` point to numbers and are not null; what may be written
 * overlaps nothing else that is passed; no slice is over PTRDIFF_MAX bytes. Nothing is asked of what the bytes and
 * words are.
 *
 * Nothing is allocated, and no state is kept between calls. Of the stack, runs saw 66 KiB taken by the printing of a
 * document and by the checks, and 1 KiB by a literal; they fail past 144, 80 and 4 KiB (docs/ABUSE.md).
 */
#ifndef DERVISCLO_H
#define DERVISCLO_H

#include <stddef.h>
#include <stdint.h>

#ifdef __cplusplus
extern "C" {
#endif

/* Answers. */
#define DERVISCLO_SUCCESS 0u
/* The prefix is over 16 bytes or has a byte other than space and tab; the level is over 64 for a document, over 128 for
   one literal; description or breaks is neither 0 nor 1. */
#define DERVISCLO_SETTINGS 1u
/* The value is over 65,536 bytes. Of a table: the words are not a multiple of 5, there is no node, there are over 8,192
   nodes, or the pool is over 65,536 bytes. */
#define DERVISCLO_SIZE 2u
/* Unknown kind or variant; text outside the pool; length 0 with start not 0; text where none is allowed; end not above
   its own number or past the table; node 0 not a Document ending the table; kind 0 elsewhere. */
#define DERVISCLO_NODE 3u
/* A later node inside this subtree ends after it. */
#define DERVISCLO_NESTING 4u
/* The node is deeper than 64. */
#define DERVISCLO_DEPTH 5u
/* The node's children are not as its kind lists them, or it is a Variable below a kind 3 to 17 or 21. */
#define DERVISCLO_CHILDREN 6u
/* The value is not UTF-8. Of a table: the node's text is not a name, number or UTF-8 as its kind asks. */
#define DERVISCLO_TEXT 7u
/* The output is shorter than the text, or value, to be written. */
#define DERVISCLO_ROOM 8u
/* The text to be read is not UTF-8 or not exactly one StringValue of the GraphQL specification. */
#define DERVISCLO_LITERAL 9u

/* Forms of a literal: "abc" or """abc""". */
#define DERVISCLO_QUOTED 1u
#define DERVISCLO_BLOCK 2u

/*
 * Prints value[0 .. value_len] as one literal to the start of out.
 *
 * It takes block form exactly where breaks are on, the value is a description or holds a line feed, and block text can
 * stand for it; otherwise it is quoted. After each line feed the prefix is written once per level, except on empty
 * lines. The first line is not indented.
 *
 *   value, value_len    any UTF-8 of up to 65,536 bytes
 *   description         1 for a description, 0 for any other string
 *   breaks              1 for line breaks on, 0 for off; off, prefix and level are checked all the same
 *   prefix, prefix_len  up to 16 spaces and tabs
 *   level               up to 128
 *   out, out_len        the output
 *   length              where the length is reported
 *
 * Answers DERVISCLO_SUCCESS, DERVISCLO_SETTINGS, DERVISCLO_SIZE, DERVISCLO_TEXT or DERVISCLO_ROOM.
 */
uint32_t dervisclo_print_literal(const uint8_t *value, size_t value_len, uint32_t description, uint32_t breaks,
                                 const uint8_t *prefix, size_t prefix_len, uint64_t level, uint8_t *out, size_t out_len,
                                 uint64_t *length);

/*
 * Reads text[0 .. text_len], which is to be one literal with nothing around it, and writes its value to the start of
 * out.
 *
 *   text, text_len  any bytes, of any number
 *   out, out_len    the output; a value is never longer than its literal
 *   length          where the length is reported
 *   form            where DERVISCLO_QUOTED or DERVISCLO_BLOCK is reported on success, and 0 on a refusal
 *
 * What dervisclo_print_literal printed reads back as exactly the value that it was printed from.
 *
 * Answers DERVISCLO_SUCCESS, DERVISCLO_ROOM or DERVISCLO_LITERAL.
 */
uint32_t dervisclo_read_literal(const uint8_t *text, size_t text_len, uint8_t *out, size_t out_len, uint64_t *length,
                                uint32_t *form);

/*
 * Checks a node table. Nothing but the place is written.
 *
 *   words, words_len  five words a node, in preorder: kind, variant, text start, text length, end
 *   pool, pool_len    the bytes that the nodes' texts lie in; those that no node names never matter
 *   place             where the node is reported: on DERVISCLO_NODE to DERVISCLO_TEXT the smallest node with the fault
 *                     that is answered, otherwise 0
 *
 * Answers DERVISCLO_SUCCESS, DERVISCLO_SIZE, DERVISCLO_NODE, DERVISCLO_NESTING, DERVISCLO_DEPTH, DERVISCLO_CHILDREN or
 * DERVISCLO_TEXT.
 */
uint32_t dervisclo_check_table(const uint32_t *words, size_t words_len, const uint8_t *pool, size_t pool_len,
                               uint64_t *place);

/*
 * The same for a document that is to be printed under these settings, which are looked at first: DERVISCLO_SETTINGS is
 * answered where breaks is neither 0 nor 1, the prefix is over 16 bytes or has a byte other than space and tab, or the
 * level is over 64.
 */
uint32_t dervisclo_check_document(uint32_t breaks, const uint8_t *prefix, size_t prefix_len, uint64_t level,
                                  const uint32_t *words, size_t words_len, const uint8_t *pool, size_t pool_len,
                                  uint64_t *place);

/*
 * Prints the document that a node table stands for to the start of out.
 *
 * Settings and table are looked at as by dervisclo_check_document, and what that refuses is refused here with the same
 * number and place. The text is that of apollo-compiler 1.33.0, but the first line is never indented; an empty document
 * has an empty text.
 *
 *   breaks              1 for line breaks on, 0 for off; off, prefix and level are checked all the same
 *   prefix, prefix_len  up to 16 spaces and tabs, written once per level after a line feed
 *   level               up to 64
 *   words, words_len    the table's words, as for dervisclo_check_table
 *   pool, pool_len      its texts, likewise
 *   out, out_len        the output
 *   place               where the node is reported, as for dervisclo_check_table; 0 on DERVISCLO_ROOM
 *   length              where the length is reported; it may pass 2^32
 *
 * Answers DERVISCLO_SUCCESS, DERVISCLO_SETTINGS, DERVISCLO_SIZE, DERVISCLO_NODE, DERVISCLO_NESTING, DERVISCLO_DEPTH,
 * DERVISCLO_CHILDREN, DERVISCLO_TEXT or DERVISCLO_ROOM.
 */
uint32_t dervisclo_print_document(uint32_t breaks, const uint8_t *prefix, size_t prefix_len, uint64_t level,
                                  const uint32_t *words, size_t words_len, const uint8_t *pool, size_t pool_len,
                                  uint8_t *out, size_t out_len, uint64_t *place, uint64_t *length);

#ifdef __cplusplus
}
#endif

#endif
