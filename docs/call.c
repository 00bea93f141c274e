/* Calls the layout once, for docs/check-refusals and docs/check-differences.

   usage: call BASE WORDS DATA LABELS EQUATES ITEMS [all] < source

   The five numbers are what is lent: words, and bytes of the other four. Writes `ok`, words, data bytes, bss size and evaluations; or `no`, the number
   and the line counted from 1. After a refusal it adds what is not as promised: an output or a count that is not zero. Whatever the answer, it
   names a buffer that was written behind its end. Every buffer is filled with other bytes before the call. With `all` the outputs of an accepted
   layout follow, a line each: `words` in hexadecimal, `data` bytes in hexadecimal, `label` start, length and address, `equate` start, length, value
   and round, `item` address. */
#include <stdint.h>
#include <stdio.h>
#include <stdlib.h>
#include <string.h>

uint32_t kodhlace_assemble(const uint8_t *text, size_t text_len, uint32_t base,
                           uint32_t *words, size_t words_len, uint8_t *data_bytes, size_t data_bytes_len,
                           uint8_t *labels, size_t labels_len, uint8_t *equates, size_t equates_len,
                           uint8_t *items, size_t items_len, uint64_t *counts, size_t counts_len);

enum { WORDS, DATA, LABELS, EQUATES, ITEMS, BUFFERS };
enum { LINE, WORD_COUNT, DATA_COUNT, DATA_BASE, BSS_SIZE, LABEL_COUNT, EQUATE_COUNT, ITEM_COUNT, EVALUATIONS, COUNTS };

static const char *const NAMES[BUFFERS] = {"words", "data", "labels", "equates", "items"};

/* Bytes behind each buffer that must stay as they are. */
#define GUARD 64
#define FILL 0xA5

static void *filled(size_t size)
{
    uint8_t *bytes = malloc(size + GUARD);
    if (bytes == NULL)
        exit(2);
    memset(bytes, FILL, size + GUARD);
    return bytes;
}

static int all(const uint8_t *bytes, size_t size, uint8_t value)
{
    for (size_t k = 0; k < size; k++)
        if (bytes[k] != value)
            return 0;
    return 1;
}

static uint64_t field(const uint8_t *bytes, int size)
{
    uint64_t value = 0;
    while (size-- > 0)
        value = value << 8 | bytes[size];
    return value;
}

static void print_outputs(uint8_t *const *buffer, const uint64_t *counts)
{
    printf("words");
    for (uint64_t k = 0; k < counts[WORD_COUNT]; k++)
        printf(" %08lX", (unsigned long)((const uint32_t *)buffer[WORDS])[k]);
    printf("\ndata");
    for (uint64_t k = 0; k < counts[DATA_COUNT]; k++)
        printf(" %02X", buffer[DATA][k]);
    printf("\n");
    for (uint64_t k = 0; k < counts[LABEL_COUNT]; k++) {
        const uint8_t *record = buffer[LABELS] + 16 * k;
        printf("label %lu %lu %lu\n", (unsigned long)field(record, 4), (unsigned long)field(record + 4, 4), (unsigned long)field(record + 8, 4));
    }
    for (uint64_t k = 0; k < counts[EQUATE_COUNT]; k++) {
        const uint8_t *record = buffer[EQUATES] + 24 * k;
        printf("equate %lu %lu %lld %lu\n", (unsigned long)field(record, 4), (unsigned long)field(record + 4, 4),
               (long long)field(record + 12, 8), (unsigned long)field(record + 20, 4));
    }
    for (uint64_t k = 0; k < counts[ITEM_COUNT]; k++)
        printf("item %lu\n", (unsigned long)field(buffer[ITEMS] + 24 * k, 4));
}

static uint8_t *read_all(size_t *size)
{
    size_t room = 1 << 16, used = 0, got;
    uint8_t *bytes = malloc(room);
    while (bytes != NULL && (got = fread(bytes + used, 1, room - used, stdin)) > 0) {
        used += got;
        if (used == room)
            bytes = realloc(bytes, room *= 2);
    }
    if (bytes == NULL)
        exit(2);
    *size = used;
    return bytes;
}

int main(int count, char **arguments)
{
    size_t lent[BUFFERS], size[BUFFERS], text_size;
    uint8_t *buffer[BUFFERS];
    uint64_t *counts = filled(COUNTS * sizeof *counts);
    if (count != 2 + BUFFERS && count != 3 + BUFFERS)
        return 2;
    uint32_t base = (uint32_t)strtoul(arguments[1], NULL, 10);
    for (int k = 0; k < BUFFERS; k++) {
        lent[k] = strtoul(arguments[2 + k], NULL, 10);
        size[k] = lent[k] * (k == WORDS ? sizeof(uint32_t) : 1);
        buffer[k] = filled(size[k]);
    }
    uint8_t *text = read_all(&text_size);
    uint32_t number = kodhlace_assemble(text, text_size, base, (uint32_t *)buffer[WORDS], lent[WORDS], buffer[DATA], lent[DATA],
                                        buffer[LABELS], lent[LABELS], buffer[EQUATES], lent[EQUATES], buffer[ITEMS], lent[ITEMS],
                                        counts, COUNTS);
    if (number == 0)
        printf("ok %llu %llu %llu %llu", (unsigned long long)counts[WORD_COUNT], (unsigned long long)counts[DATA_COUNT],
               (unsigned long long)counts[BSS_SIZE], (unsigned long long)counts[EVALUATIONS]);
    else
        printf("no %lu %llu", (unsigned long)number, (unsigned long long)counts[LINE] + 1);
    for (int k = 0; k < BUFFERS; k++) {
        if (number != 0 && !all(buffer[k], size[k], 0))
            printf(", %s not zero", NAMES[k]);
        if (!all(buffer[k] + size[k], GUARD, FILL))
            printf(", %s written behind its end", NAMES[k]);
    }
    for (int k = WORD_COUNT; k < COUNTS; k++)
        if (number != 0 && counts[k] != 0)
            printf(", count %d not zero", k);
    if (!all((uint8_t *)(counts + COUNTS), GUARD, FILL))
        printf(", counts written behind their end");
    printf("\n");
    if (number == 0 && count == 3 + BUFFERS)
        print_outputs(buffer, counts);
    return 0;
}
