/* The layout as one call: target/staticlib/libjig.a, by `tools/staticlib`. Linux on x86-64.
 *
 * Only what stands under "The caller sees to it" is asked of a caller; nothing checks it. What the call returns and leaves in the buffers is proved,
 * for every text, base and set of buffers: the contract is `Called` in crates/jig/specs/Called.antt. The stack is measured; the compiler's back end
 * is not covered. */
#ifndef KODHLACE_H
#define KODHLACE_H

#include <stddef.h>
#include <stdint.h>

#ifdef __cplusplus
extern "C" {
#endif

/* Limits. A buffer of KODHLACE_FULL_.. has room for everything that is not refused anyway. */
#define KODHLACE_BASE_LIMIT 0xFF000000u /* a base above it: 40 */
#define KODHLACE_TEXT_LIMIT 65536u      /* bytes of text; more: 41 */
#define KODHLACE_DATA_LIMIT 65536u      /* bytes of data; more: 42 */
#define KODHLACE_BSS_LIMIT 1048576u     /* bytes of bss; more: 43 */
#define KODHLACE_WORD_LIMIT 16384u      /* words reserved; more: 44 */
#define KODHLACE_LABEL_LIMIT 1024u      /* distinct names; more: 45 */
#define KODHLACE_EQUATE_LIMIT 256u      /* more: 46 */
#define KODHLACE_LABEL_WORD_LIMIT 1024u /* .word operands that are names; more: 47 */
#define KODHLACE_ITEM_LIMIT 2048u       /* more: 48 */

/* Records: fixed sizes, no header, no padding, every field little-endian. A name or a source is where it starts in the text, and its length.
 * Lines count from 0. */
#define KODHLACE_LABEL_SIZE 16u /* ordered by address, then by the name's bytes */
#define KODHLACE_LABEL_NAME_START 0u
#define KODHLACE_LABEL_NAME_LENGTH 4u
#define KODHLACE_LABEL_ADDRESS 8u
#define KODHLACE_LABEL_LINE 12u

#define KODHLACE_EQUATE_SIZE 24u /* in text order */
#define KODHLACE_EQUATE_NAME_START 0u
#define KODHLACE_EQUATE_NAME_LENGTH 4u
#define KODHLACE_EQUATE_LINE 8u
#define KODHLACE_EQUATE_VALUE 12u /* 8 bytes, signed, two's complement; every other field has 4, unsigned */
#define KODHLACE_EQUATE_ROUND 20u

#define KODHLACE_ITEM_SIZE 24u   /* in text order */
#define KODHLACE_ITEM_ADDRESS 0u /* base + 4 * first word */
#define KODHLACE_ITEM_LINE 4u
#define KODHLACE_ITEM_KIND 8u
#define KODHLACE_ITEM_FIRST_WORD 12u   /* an index into words; its words end where the next item's begin, the last one's at KODHLACE_WORDS */
#define KODHLACE_ITEM_SOURCE_START 16u /* the statement after any label */
#define KODHLACE_ITEM_SOURCE_LENGTH 20u

/* An item's kind: an ordinary instruction line, whose word is 0, or one of the nine pseudo-instructions. */
enum kodhlace_kind {
    KODHLACE_ORDINARY,
    KODHLACE_LI,
    KODHLACE_LA,
    KODHLACE_PUSH,
    KODHLACE_POP,
    KODHLACE_PRINT,
    KODHLACE_PRINT_STR,
    KODHLACE_READ,
    KODHLACE_READ_BYTE,
    KODHLACE_RANDOM
};

/* The numbers in counts, by their index. After a refusal every one but the line is 0; of an accepted layout the line is 0. */
enum kodhlace_count {
    KODHLACE_LINE,        /* a refusal's line */
    KODHLACE_WORDS,       /* words emitted */
    KODHLACE_DATA_BYTES,  /* bytes of data */
    KODHLACE_DATA_BASE,   /* the data's address; bss follows the data */
    KODHLACE_BSS_SIZE,    /* bytes of bss */
    KODHLACE_LABELS,      /* label records */
    KODHLACE_EQUATES,     /* equate records */
    KODHLACE_ITEMS,       /* item records */
    KODHLACE_EVALUATIONS, /* expressions evaluated */
    KODHLACE_COUNTS       /* how many numbers there are */
};

/* Buffers of full size, each as its length is counted: words and counts in elements, the others in bytes. */
#define KODHLACE_FULL_WORDS KODHLACE_WORD_LIMIT
#define KODHLACE_FULL_DATA KODHLACE_DATA_LIMIT
#define KODHLACE_FULL_LABELS (KODHLACE_LABEL_LIMIT * KODHLACE_LABEL_SIZE)
#define KODHLACE_FULL_EQUATES (KODHLACE_EQUATE_LIMIT * KODHLACE_EQUATE_SIZE)
#define KODHLACE_FULL_ITEMS (KODHLACE_ITEM_LIMIT * KODHLACE_ITEM_SIZE)

/* The call takes about 35,000 bytes of stack, hardly more for a full layout than for an empty one. */
#define KODHLACE_STACK 65536u

/* Lays out a text at a base. Returns 0: accepted; else document 01's number of the refusal.
 *
 * The caller sees to it that
 * - no pointer is NULL, also where its length is 0;
 * - text can be read for text_len bytes, and each of the others read and written for its length;
 * - words is aligned to 4 bytes and counts to 8;
 * - no two of the seven overlap;
 * - each length is below 2^63 bytes: words_len below 2^61, counts_len below 2^60, the others below 2^63;
 * - until the call returns no one else writes any of the seven, and no one reads the last six;
 * - there are KODHLACE_STACK bytes of stack for it.
 *
 * Text, base, lengths and what the buffers hold are otherwise free: text may be any bytes, base any number, a length 0. A buffer that is too short
 * is a refusal (42, 44, 45, 46, 48), and of a record only a whole one counts.
 *
 * Every byte of words, data_bytes, labels, equates and items is written: the layout, and zeros after it; after a refusal zeros. counts gets as many
 * of its nine numbers as are lent, and zeros after them. Nothing else is written, nothing is kept, and there is no heap, no file and no state: calls
 * from several threads with their own buffers do not meet. */
uint32_t kodhlace_assemble(const uint8_t *text, size_t text_len, uint32_t base,
                           uint32_t *words, size_t words_len,
                           uint8_t *data_bytes, size_t data_bytes_len,
                           uint8_t *labels, size_t labels_len,
                           uint8_t *equates, size_t equates_len,
                           uint8_t *items, size_t items_len,
                           uint64_t *counts, size_t counts_len);

#ifdef __cplusplus
}
#endif

#endif
