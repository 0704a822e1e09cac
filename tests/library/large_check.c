/* Audits a file, makes every third count one too high, mends it and takes that back.
 *
 * usage: large_check FILE PATH, a dataset's path
 */
#include "ebikwotula.h"

#include <inttypes.h>
#include <stdio.h>
#include <stdlib.h>
#include <string.h>

static uint8_t blocks[EBIKWOTULA_BLOCKS_BYTES];
static uint8_t reply[EBIKWOTULA_AUDIT_REPLY_BYTES];
static uint8_t log_bytes[EBIKWOTULA_LOG_BYTES];
static uint8_t image[EBIKWOTULA_IMAGE_MOST + 1], first[EBIKWOTULA_IMAGE_MOST + 1], wrong[EBIKWOTULA_IMAGE_MOST + 1];

static uint64_t word(size_t k)
{
    uint64_t value = 0;
    for (int i = 7; i >= 0; i--) {
        value = value << 8 | reply[8 * k + (size_t)i];
    }
    return value;
}

static const char *same(const uint8_t *other, size_t length)
{
    return memcmp(image, other, length) == 0 ? "yes" : "no";
}

/* Audits the image; how many counts are wrong. */
static uint64_t audit(size_t length)
{
    uint32_t number = ebikwotula_audit(image, length, blocks, sizeof blocks, reply, sizeof reply);
    uint64_t wrong_counts = 0;
    for (uint64_t i = 0; i < word(1); i++) {
        wrong_counts += word(3 + 3 * i) != word(4 + 3 * i);
    }
    printf("audit %" PRIu32 ", %" PRIu64 " blocks, %" PRIu64 " objects, %" PRIu64 " wrong counts\n", number, word(0), word(1),
           wrong_counts);
    return wrong_counts;
}

int main(int count, char **arguments)
{
    FILE *file = count == 3 ? fopen(arguments[1], "rb") : NULL;
    if (file == NULL) {
        fprintf(stderr, "usage: large_check FILE PATH\n");
        return 2;
    }
    size_t length = fread(image, 1, sizeof image, file);
    printf("%zu bytes\n", length);
    memcpy(first, image, length);
    audit(length);
    for (uint64_t i = 0; i < word(1); i += 3) {
        image[word(2 + 3 * i) + 4]++;
    }
    memcpy(wrong, image, length);
    audit(length);
    uint32_t number = ebikwotula_mend(image, length, blocks, sizeof blocks, log_bytes, sizeof log_bytes, reply, sizeof reply,
                                      UINT64_MAX);
    uint64_t entries = word(1);
    printf("mend %" PRIu32 ", %" PRIu64 " entries, %" PRIu64 " writes; as first: %s\n", number, entries, word(2),
           same(first, length));
    audit(length);
    const uint8_t *path = (const uint8_t *)arguments[2];
    number = ebikwotula_describe(image, length, path, strlen(arguments[2]), blocks, sizeof blocks, reply, sizeof reply);
    printf("description %" PRIu32 "\n", number);
    number = ebikwotula_undo(image, length, log_bytes, sizeof log_bytes, reply, sizeof reply, entries, UINT64_MAX);
    printf("undo %" PRIu32 ", %" PRIu64 " writes; as before the mend: %s\n", number, word(0), same(wrong, length));
    return 0;
}
