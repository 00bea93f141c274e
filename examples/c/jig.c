/* What a jig takes to burn a source: the words with their addresses, and the data, in hexadecimal; or the refusal.
 *
 *   jig FILE [BASE [WORDS DATA LABELS EQUATES ITEMS COUNTS]]
 *
 * BASE is decimal, or hexadecimal with 0x. The last six lend so many words, bytes and counts instead of all that a layout can take. Exit status: 0
 * accepted, 1 refused, 2 not run. */
#include <errno.h>
#include <inttypes.h>
#include <stdio.h>
#include <stdlib.h>
#include <string.h>

#include "kodhlace.h"

/* One byte more than is accepted, so that a longer file gets 41. */
#define TEXT_READ (KODHLACE_TEXT_LIMIT + 1)

static void stop(const char *what, const char *which)
{
    fprintf(stderr, "jig: %s: %s\n", which, what);
    exit(2);
}

static uintmax_t number(const char *s, uintmax_t limit)
{
    char *end;
    errno = 0;
    uintmax_t n = strtoumax(s, &end, strncmp(s, "0x", 2) == 0 ? 16 : 10);
    if (*s < '0' || *s > '9' || *end != 0 || errno != 0 || n > limit)
        stop("no number that fits here", s);
    return n;
}

/* Never NULL, also for no bytes. What it holds says nothing: the call writes all of it. */
static void *lend(size_t count, size_t size)
{
    void *p = malloc(count == 0 ? 1 : count * size);
    if (p == NULL)
        stop("no memory", "malloc");
    return p;
}

static size_t read_text(const char *name, uint8_t *text)
{
    FILE *file = fopen(name, "rb");
    if (file == NULL)
        stop(strerror(errno), name);
    size_t n = fread(text, 1, TEXT_READ, file);
    if (ferror(file))
        stop("cannot be read", name);
    fclose(file);
    return n;
}

static void print_words(const uint32_t *words, uint64_t n, uint32_t base)
{
    printf("words %" PRIu64 " at %08" PRIX32 "\n", n, base);
    for (uint64_t i = 0; i < n; i++)
        printf("%08" PRIX32 "  %08" PRIX32 "\n", (uint32_t)(base + 4 * i), words[i]);
}

static void print_data(const uint8_t *bytes, uint64_t n, uint32_t base)
{
    printf("data %" PRIu64 " at %08" PRIX32 "\n", n, base);
    for (uint64_t i = 0; i < n; i++) {
        if (i % 16 == 0)
            printf("%08" PRIX32 " ", (uint32_t)(base + i));
        printf(" %02X%s", bytes[i], i % 16 == 15 || i + 1 == n ? "\n" : "");
    }
}

int main(int argc, char **argv)
{
    if (argc != 2 && argc != 3 && argc != 9) {
        fprintf(stderr, "usage: jig FILE [BASE [WORDS DATA LABELS EQUATES ITEMS COUNTS]]\n");
        return 2;
    }
    uint32_t base = argc > 2 ? (uint32_t)number(argv[2], UINT32_MAX) : 0;
    size_t full[6] = { KODHLACE_FULL_WORDS, KODHLACE_FULL_DATA, KODHLACE_FULL_LABELS,
                       KODHLACE_FULL_EQUATES, KODHLACE_FULL_ITEMS, KODHLACE_COUNTS };
    size_t lent[6];
    for (int i = 0; i < 6; i++)
        lent[i] = argc == 9 ? (size_t)number(argv[3 + i], 1u << 24) : full[i];

    uint8_t *text = lend(TEXT_READ, 1);
    uint32_t *words = lend(lent[0], sizeof *words);
    uint8_t *data_bytes = lend(lent[1], 1);
    uint8_t *labels = lend(lent[2], 1);
    uint8_t *equates = lend(lent[3], 1);
    uint8_t *items = lend(lent[4], 1);
    uint64_t *counts = lend(lent[5], sizeof *counts);
    size_t text_len = read_text(argv[1], text);

    uint32_t refused = kodhlace_assemble(text, text_len, base, words, lent[0], data_bytes, lent[1], labels, lent[2],
                                         equates, lent[3], items, lent[4], counts, lent[5]);

    /* A count that was not lent is not known, and shows as 0. */
    uint64_t known[KODHLACE_COUNTS] = { 0 };
    for (size_t i = 0; i < KODHLACE_COUNTS && i < lent[5]; i++)
        known[i] = counts[i];
    if (refused != 0) {
        printf("refused %" PRIu32 " line %" PRIu64 "\n", refused, known[KODHLACE_LINE] + 1);
    } else {
        uint64_t bss = known[KODHLACE_DATA_BASE] + known[KODHLACE_DATA_BYTES];
        print_words(words, known[KODHLACE_WORDS], base);
        print_data(data_bytes, known[KODHLACE_DATA_BYTES], (uint32_t)known[KODHLACE_DATA_BASE]);
        printf("bss %" PRIu64 " at %08" PRIX64 "\n", known[KODHLACE_BSS_SIZE], bss);
    }

    free(text);
    free(words);
    free(data_bytes);
    free(labels);
    free(equates);
    free(items);
    free(counts);
    return refused != 0;
}
