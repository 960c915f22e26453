/*
 * Prints a description of two lines, first to an output that is too short, and reads it back. Then checks and prints a
 * document. All five functions of the header are used.
 *
 *     cc -std=c99 -I include rust/c_example/main.c target/staticlib/libgateway.a -o c_example
 */
#include "dervisclo.h"

#include <stdio.h>
#include <stdlib.h>
#include <string.h>

static const char value[] = "Says \"\"\" and\nends";
static const char prefix[] = "  ";

/* Two queries of one field each, five words a node: kind, variant, text start, text length, end. */
static const uint32_t words[] = {
    0,  0, 0, 0, 5, /* Document */
    1,  0, 0, 0, 3, /* Operation */
    29, 0, 0, 1, 3, /* Field, the first byte */
    1,  0, 0, 0, 5, /* Operation */
    29, 0, 1, 1, 5, /* Field, the second */
};

static uint32_t print_at_level_1(uint8_t *out, size_t out_len, uint64_t *length)
{
    return dervisclo_print_literal((const uint8_t *)value, strlen(value), 1, 1, (const uint8_t *)prefix,
                                   strlen(prefix), 1, out, out_len, length);
}

static void show(const char *what, const uint8_t *bytes, uint64_t length)
{
    printf("%s, %u bytes:\n", what, (unsigned)length);
    fwrite(bytes, 1, (size_t)length, stdout);
    putchar('\n');
}

/* The literal in memory of just the length that it needs, or null. */
static uint8_t *printed(uint64_t *length)
{
    uint8_t small[8];
    uint8_t *text;
    uint32_t answer = print_at_level_1(small, sizeof small, length);
    if (answer != DERVISCLO_ROOM) {
        printf("printing to %u bytes answers %u\n", (unsigned)sizeof small, (unsigned)answer);
        return NULL;
    }
    printf("%u bytes are too few, %u are needed\n", (unsigned)sizeof small, (unsigned)*length);
    text = malloc((size_t)*length);
    if (text == NULL)
        return NULL;
    answer = print_at_level_1(text, (size_t)*length, length);
    if (answer != DERVISCLO_SUCCESS) {
        printf("printing answers %u\n", (unsigned)answer);
        free(text);
        return NULL;
    }
    return text;
}

/* Reads the literal and says whether it has the value that was printed. */
static int reads_back(const uint8_t *text, uint64_t text_len)
{
    uint8_t room[64];
    uint64_t length;
    uint32_t form;
    uint32_t answer = dervisclo_read_literal(text, (size_t)text_len, room, sizeof room, &length, &form);
    if (answer != DERVISCLO_SUCCESS) {
        printf("reading answers %u\n", (unsigned)answer);
        return 0;
    }
    show(form == DERVISCLO_BLOCK ? "read from block form" : "read from quoted form", room, length);
    return length == strlen(value) && memcmp(room, value, (size_t)length) == 0;
}

/* Checks the table, its texts in this pool, alone and for printing at this level: the answers, and the node. */
static void checks_document(const char *pool, uint64_t level)
{
    size_t words_len = sizeof words / sizeof words[0];
    uint64_t place;
    uint32_t answer = dervisclo_check_table(words, words_len, (const uint8_t *)pool, strlen(pool), &place);
    printf("the table: %u, node %u\n", (unsigned)answer, (unsigned)place);
    answer = dervisclo_check_document(1, (const uint8_t *)prefix, strlen(prefix), level, words, words_len,
                                      (const uint8_t *)pool, strlen(pool), &place);
    printf("at level %u: %u, node %u\n", (unsigned)level, (unsigned)answer, (unsigned)place);
}

/* Prints the table under the default settings, its texts in this pool. */
static int prints_document(const char *pool)
{
    uint8_t room[64];
    uint64_t place;
    uint64_t length;
    uint32_t answer = dervisclo_print_document(1, (const uint8_t *)prefix, strlen(prefix), 0, words,
                                               sizeof words / sizeof words[0], (const uint8_t *)pool, strlen(pool),
                                               room, sizeof room, &place, &length);
    if (answer != DERVISCLO_SUCCESS) {
        printf("printing a document answers %u, node %u\n", (unsigned)answer, (unsigned)place);
        return 0;
    }
    show("document", room, length);
    return 1;
}

int main(void)
{
    uint64_t length;
    uint32_t form;
    uint8_t *text = printed(&length);
    uint32_t answer;
    int same;
    if (text == NULL)
        return EXIT_FAILURE;
    show("printed", text, length);
    same = reads_back(text, length);
    printf("the same value: %s\n", same ? "yes" : "no");

    /* cut short, it is no literal */
    answer = dervisclo_read_literal(text, (size_t)length - 1, NULL, 0, &length, &form);
    printf("without its last byte: %u\n", (unsigned)answer);
    free(text);

    /* a document's level goes up to 64 */
    checks_document("ab", 64);
    checks_document("ab", 65);

    /* no name begins with a digit */
    checks_document("a1", 0);
    same = same && prints_document("ab") && !prints_document("a1");
    return same ? EXIT_SUCCESS : EXIT_FAILURE;
}
