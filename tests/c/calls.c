/* Calls every function of the library as a C program does, and holds the constants of the header against what the calls do.
 *
 * usage: calls SMALL WRONG SMALL_DEEP FULL CROWDED DEEP
 *   SMALL       a sound file with a root group of no entries
 *   WRONG       a file with the dataset "/a", whose count is wrong
 *   SMALL_DEEP  a small sound file whose root group has the deepest tree, "/00001" in it
 *   FULL        a sound file as large as the limits allow: length, objects and blocks; "/00001" is a dataset
 *   CROWDED     a file of one object more than is counted
 *   DEEP        the same as SMALL_DEEP, as large as the limits allow
 */
#define _POSIX_C_SOURCE 200809L
#include "ebikwotula.h"

#include <pthread.h>
#include <stdio.h>
#include <stdlib.h>
#include <string.h>
#include <sys/mman.h>
#include <unistd.h>

#define CHECK(what) check((what) != 0, #what, __LINE__)

static int failures;

static void check(int holds, const char *what, int line)
{
    if (!holds) {
        printf("line %d: not so: %s\n", line, what);
        failures++;
    }
}

struct file {
    uint8_t *bytes;
    size_t length;
};

/* What a call is lent, and what it is asked. */
struct call {
    uint8_t *image;
    size_t image_length;
    const char *path;
    size_t path_length;
    size_t blocks_length;
    size_t log_length;
    size_t reply_length;
    uint64_t entries;
    uint64_t limit;
    uint8_t blocks[EBIKWOTULA_BLOCKS_BYTES];
    uint8_t log[EBIKWOTULA_LOG_BYTES];
    uint8_t reply[EBIKWOTULA_AUDIT_REPLY_BYTES];
};

static struct file read_file(const char *name)
{
    struct file file = {malloc(EBIKWOTULA_IMAGE_MOST + 1), 0};
    FILE *stream = fopen(name, "rb");
    if (file.bytes == NULL || stream == NULL) {
        printf("%s can't be read\n", name);
        exit(1);
    }
    file.length = fread(file.bytes, 1, EBIKWOTULA_IMAGE_MOST + 1, stream);
    fclose(stream);
    return file;
}

static struct call *lend(struct file file, size_t reply_length)
{
    struct call *call = malloc(sizeof *call);
    if (call == NULL) {
        exit(1);
    }
    memset(call, 0xa5, sizeof *call);
    call->image = file.bytes;
    call->image_length = file.length;
    call->path = "/";
    call->path_length = 1;
    call->blocks_length = sizeof call->blocks;
    call->log_length = sizeof call->log;
    call->reply_length = reply_length;
    call->entries = 0;
    call->limit = UINT64_MAX;
    return call;
}

static uint64_t word(const uint8_t *bytes, size_t k)
{
    uint64_t value = 0;
    for (int i = 7; i >= 0; i--) {
        value = value << 8 | bytes[8 * k + (size_t)i];
    }
    return value;
}

static int zeros(const uint8_t *bytes, size_t length)
{
    for (size_t i = 0; i < length; i++) {
        if (bytes[i] != 0) {
            return 0;
        }
    }
    return 1;
}

static uint32_t audit(struct call *c)
{
    return ebikwotula_audit(c->image, c->image_length, c->blocks, c->blocks_length, c->reply, c->reply_length);
}

static uint32_t lookup(struct call *c)
{
    return ebikwotula_lookup(c->image, c->image_length, (const uint8_t *)c->path, c->path_length, c->blocks, c->blocks_length,
                             c->reply, c->reply_length);
}

static uint32_t describe(struct call *c)
{
    return ebikwotula_describe(c->image, c->image_length, (const uint8_t *)c->path, c->path_length, c->blocks,
                               c->blocks_length, c->reply, c->reply_length);
}

static uint32_t mend(struct call *c)
{
    return ebikwotula_mend(c->image, c->image_length, c->blocks, c->blocks_length, c->log, c->log_length, c->reply,
                           c->reply_length, c->limit);
}

static uint32_t undo(struct call *c)
{
    return ebikwotula_undo(c->image, c->image_length, c->log, c->log_length, c->reply, c->reply_length, c->entries, c->limit);
}

static uint32_t report(struct call *c)
{
    return ebikwotula_report(c->image, c->image_length, c->blocks, c->blocks_length, c->reply, c->reply_length);
}

typedef uint32_t function(struct call *);

static const struct {
    const char *name;
    function *run;
    size_t reply_bytes;
    size_t stack_bytes;
    size_t small_stack_bytes;
} calls[] = {
    {"audit", audit, EBIKWOTULA_AUDIT_REPLY_BYTES, EBIKWOTULA_AUDIT_STACK_BYTES, EBIKWOTULA_AUDIT_SMALL_STACK_BYTES},
    {"lookup", lookup, EBIKWOTULA_LOOKUP_REPLY_BYTES, EBIKWOTULA_LOOKUP_STACK_BYTES, EBIKWOTULA_LOOKUP_SMALL_STACK_BYTES},
    {"describe", describe, EBIKWOTULA_DESCRIBE_REPLY_BYTES, EBIKWOTULA_DESCRIBE_STACK_BYTES,
     EBIKWOTULA_DESCRIBE_SMALL_STACK_BYTES},
    {"mend", mend, EBIKWOTULA_MEND_REPLY_BYTES, EBIKWOTULA_MEND_STACK_BYTES, EBIKWOTULA_MEND_SMALL_STACK_BYTES},
    {"undo", undo, EBIKWOTULA_UNDO_REPLY_BYTES, EBIKWOTULA_UNDO_STACK_BYTES, EBIKWOTULA_UNDO_STACK_BYTES},
    {"report", report, EBIKWOTULA_REPORT_REPLY_BYTES, EBIKWOTULA_REPORT_STACK_BYTES, EBIKWOTULA_REPORT_SMALL_STACK_BYTES},
};

#define CALLS (sizeof calls / sizeof calls[0])

/* The answer of a call with other lengths lent than all. */
static uint32_t answer(function *run, struct file file, size_t blocks, size_t log, size_t reply)
{
    struct call *c = lend(file, reply);
    c->blocks_length = blocks;
    c->log_length = log;
    uint32_t number = run(c);
    if (number != EBIKWOTULA_DONE) {
        size_t met = number == EBIKWOTULA_OVERLAP ? 8 : 0;
        CHECK(zeros(c->reply + met, reply - met));
        CHECK(run == undo || zeros(c->blocks, blocks));
        CHECK(run != mend || zeros(c->log, log));
    }
    free(c);
    return number;
}

static uint32_t audit_with(struct file file, size_t blocks)
{
    return answer(audit, file, blocks, EBIKWOTULA_LOG_BYTES, EBIKWOTULA_AUDIT_REPLY_BYTES);
}

static void reply_lengths(struct file small)
{
    for (size_t i = 0; i < CALLS; i++) {
        size_t bytes = calls[i].reply_bytes;
        uint32_t enough = answer(calls[i].run, small, EBIKWOTULA_BLOCKS_BYTES, EBIKWOTULA_LOG_BYTES, bytes);
        uint32_t short_one = answer(calls[i].run, small, EBIKWOTULA_BLOCKS_BYTES, EBIKWOTULA_LOG_BYTES, bytes - 1);
        CHECK(enough == (calls[i].run == describe ? EBIKWOTULA_NOT_A_DATASET : EBIKWOTULA_DONE));
        CHECK(short_one == EBIKWOTULA_NO_ROOM);
    }
}

/* The constants that follow from the limits, and the limits themselves as they are promised. */
static void constants(void)
{
    CHECK(EBIKWOTULA_IMAGE_MOST == 16777216);
    CHECK(EBIKWOTULA_OBJECTS_MOST == 1024);
    CHECK(EBIKWOTULA_BLOCKS_MOST == 8192);
    CHECK(EBIKWOTULA_BLOCK_BYTES == 4 * 8);
    CHECK(EBIKWOTULA_BLOCKS_BYTES == EBIKWOTULA_BLOCK_BYTES * EBIKWOTULA_BLOCKS_MOST);
    CHECK(EBIKWOTULA_AUDIT_REPLY_BYTES == 8 * (2 + 3 * EBIKWOTULA_OBJECTS_MOST));
    CHECK(EBIKWOTULA_LOG_BYTES == 2 * 8 * EBIKWOTULA_OBJECTS_MOST);
}

static void image_lengths(void)
{
    struct file file = {calloc(1, EBIKWOTULA_IMAGE_MOST + 1), 0};
    const size_t lengths[] = {EBIKWOTULA_IMAGE_LEAST - 1, EBIKWOTULA_IMAGE_LEAST, EBIKWOTULA_IMAGE_MOST, EBIKWOTULA_IMAGE_MOST + 1};
    for (int i = 0; i < 4; i++) {
        file.length = lengths[i];
        CHECK(audit_with(file, EBIKWOTULA_BLOCKS_BYTES) == (i == 0 || i == 3 ? EBIKWOTULA_IMAGE_LENGTH : EBIKWOTULA_NO_SIGNATURE));
    }
    free(file.bytes);
}

/* FULL is at every limit: a byte more gives 1, a reply of a byte less 13, and so does room for a block less. CROWDED has an
 * object too many, and gives 12. */
static void objects_and_blocks(struct file full, struct file crowded)
{
    struct file longer = {full.bytes, full.length + 1};
    const size_t one_less = EBIKWOTULA_BLOCK_BYTES * (EBIKWOTULA_BLOCKS_MOST - 1);
    CHECK(full.length == EBIKWOTULA_IMAGE_MOST);
    struct call *c = lend(full, EBIKWOTULA_AUDIT_REPLY_BYTES);
    CHECK(audit(c) == EBIKWOTULA_DONE);
    CHECK(word(c->reply, 0) == EBIKWOTULA_BLOCKS_MOST);
    CHECK(word(c->reply, 1) == EBIKWOTULA_OBJECTS_MOST);
    free(c);
    CHECK(audit_with(full, EBIKWOTULA_BLOCKS_BYTES) == EBIKWOTULA_DONE);
    CHECK(audit_with(full, EBIKWOTULA_BLOCKS_BYTES - 1) == EBIKWOTULA_NO_ROOM);
    CHECK(audit_with(full, one_less) == EBIKWOTULA_NO_ROOM);
    CHECK(answer(audit, full, EBIKWOTULA_BLOCKS_BYTES, EBIKWOTULA_LOG_BYTES, EBIKWOTULA_AUDIT_REPLY_BYTES - 1) ==
          EBIKWOTULA_NO_ROOM);
    for (size_t i = 0; i < CALLS; i++) {
        if (calls[i].run != report) {
            CHECK(answer(calls[i].run, longer, EBIKWOTULA_BLOCKS_BYTES, EBIKWOTULA_LOG_BYTES, calls[i].reply_bytes) ==
                  EBIKWOTULA_IMAGE_LENGTH);
        }
    }
    CHECK(audit_with(crowded, EBIKWOTULA_BLOCKS_BYTES) == EBIKWOTULA_OBJECTS);
    CHECK(answer(mend, crowded, EBIKWOTULA_BLOCKS_BYTES, EBIKWOTULA_LOG_BYTES, EBIKWOTULA_MEND_REPLY_BYTES) ==
          EBIKWOTULA_OBJECTS);
}

static uint32_t lookup_of(struct file file, const char *path, size_t length)
{
    struct call *c = lend(file, EBIKWOTULA_LOOKUP_REPLY_BYTES);
    c->path = path;
    c->path_length = length;
    uint32_t number = lookup(c);
    free(c);
    return number;
}

static void paths(struct file small)
{
    char path[EBIKWOTULA_PATH_MOST + 1];
    memset(path, 'x', sizeof path);
    path[0] = '/';
    CHECK(lookup_of(small, path, 1) == EBIKWOTULA_DONE);
    CHECK(lookup_of(small, path, 0) == EBIKWOTULA_BAD_PATH);
    CHECK(lookup_of(small, path, 1 + EBIKWOTULA_NAME_MOST) == EBIKWOTULA_NAME_ABSENT);
    CHECK(lookup_of(small, path, 2 + EBIKWOTULA_NAME_MOST) == EBIKWOTULA_BAD_PATH);
    for (size_t i = 0; i < sizeof path; i += 64) {
        path[i] = '/';
    }
    CHECK(lookup_of(small, path, EBIKWOTULA_PATH_MOST) == EBIKWOTULA_NAME_ABSENT);
    CHECK(lookup_of(small, path, EBIKWOTULA_PATH_MOST + 1) == EBIKWOTULA_BAD_PATH);
}

static void descriptions(struct file wrong)
{
    struct call *c = lend(wrong, EBIKWOTULA_DESCRIBE_REPLY_BYTES);
    c->path = "/a";
    c->path_length = 2;
    CHECK(lookup(c) == EBIKWOTULA_DONE);
    CHECK(word(c->reply, 1) == EBIKWOTULA_KIND_DATASET);
    CHECK(describe(c) == EBIKWOTULA_DONE);
    CHECK(word(c->reply, 1) <= EBIKWOTULA_RANK_MOST);
    CHECK(EBIKWOTULA_DESCRIBE_REPLY_BYTES == 8 * (10 + 2 * EBIKWOTULA_RANK_MOST));
    free(c);
}

/* Word k of block i in a list. */
static uint64_t block_word(const struct call *c, size_t i, size_t k)
{
    return word(c->blocks, 4 * i + k);
}

/* The superblock first, then object after object: each begins with its header at its address, and no other block is a
 * header. */
static void owners(struct file file)
{
    struct call *c = lend(file, EBIKWOTULA_AUDIT_REPLY_BYTES);
    CHECK(audit(c) == EBIKWOTULA_DONE);
    size_t count = word(c->reply, 0);
    uint64_t headers = 0;
    CHECK(block_word(c, 0, 0) == 0);
    CHECK(block_word(c, 0, 2) == EBIKWOTULA_BLOCK_KIND_SUPERBLOCK);
    CHECK(block_word(c, 0, 3) == EBIKWOTULA_SUPERBLOCK_OBJECT);
    for (size_t i = 1; i < count; i++) {
        uint64_t kind = block_word(c, i, 2);
        CHECK(kind >= EBIKWOTULA_BLOCK_KIND_HEADER && kind <= EBIKWOTULA_BLOCK_KIND_DATA);
        if (kind == EBIKWOTULA_BLOCK_KIND_HEADER) {
            CHECK(block_word(c, i, 0) == word(c->reply, 2 + 3 * headers));
            headers++;
        }
        CHECK(block_word(c, i, 3) + 1 == headers);
    }
    CHECK(headers == word(c->reply, 1));
    CHECK(zeros(c->blocks + EBIKWOTULA_BLOCK_BYTES * count, c->blocks_length - EBIKWOTULA_BLOCK_BYTES * count));
    struct call *m = lend(file, EBIKWOTULA_MEND_REPLY_BYTES);
    m->limit = 0;
    CHECK(mend(m) == EBIKWOTULA_DONE);
    CHECK(memcmp(m->blocks, c->blocks, sizeof c->blocks) == 0);
    free(m);
    free(c);
}

/* The blocks of "/a" described: superblock, header and data, the object's number 0. */
static void described_blocks(struct file wrong)
{
    const uint64_t kinds[] = {EBIKWOTULA_BLOCK_KIND_SUPERBLOCK, EBIKWOTULA_BLOCK_KIND_HEADER, EBIKWOTULA_BLOCK_KIND_DATA};
    struct call *c = lend(wrong, EBIKWOTULA_DESCRIBE_REPLY_BYTES);
    c->path = "/a";
    c->path_length = 2;
    CHECK(lookup(c) == EBIKWOTULA_DONE);
    uint64_t address = word(c->reply, 2);
    CHECK(describe(c) == EBIKWOTULA_DONE);
    CHECK(word(c->reply, 0) == 3);
    for (size_t i = 0; i < 3; i++) {
        CHECK(block_word(c, i, 2) == kinds[i]);
        CHECK(block_word(c, i, 3) == (i == 0 ? EBIKWOTULA_SUPERBLOCK_OBJECT : 0));
    }
    CHECK(block_word(c, 1, 0) == address);
    CHECK(block_word(c, 2, 0) == word(c->reply, 72) && block_word(c, 2, 1) == word(c->reply, 73));
    CHECK(zeros(c->blocks + 3 * EBIKWOTULA_BLOCK_BYTES, c->blocks_length - 3 * EBIKWOTULA_BLOCK_BYTES));
    free(c);
}

/* The words of a report: answer, block count, place, the damaged block, the block met. */
static int report_is(const struct call *c, const uint64_t *words)
{
    for (size_t k = 0; k < EBIKWOTULA_REPORT_WORDS; k++) {
        if (word(c->reply, k) != words[k]) {
            return 0;
        }
    }
    return 1;
}

/* Every call but undo and report gives 6 and names the block met. */
static void meets(struct file file, uint64_t address)
{
    uint8_t *before = malloc(file.length);
    if (before == NULL) {
        exit(1);
    }
    memcpy(before, file.bytes, file.length);
    for (size_t i = 0; i < CALLS; i++) {
        if (calls[i].run == undo || calls[i].run == report) {
            continue;
        }
        struct call *c = lend(file, calls[i].reply_bytes);
        c->path = "/a";
        c->path_length = 2;
        CHECK(calls[i].run(c) == EBIKWOTULA_OVERLAP);
        CHECK(word(c->reply, 0) == address);
        CHECK(zeros(c->reply + 8, c->reply_length - 8));
        CHECK(zeros(c->blocks, c->blocks_length));
        CHECK(calls[i].run != mend || zeros(c->log, c->log_length));
        CHECK(memcmp(before, file.bytes, file.length) == 0);
        c->reply_length--;
        CHECK(calls[i].run(c) == EBIKWOTULA_NO_ROOM);
        CHECK(zeros(c->reply, c->reply_length));
        free(c);
    }
    free(before);
}

/* Where the segment's address stands in a heap, and the root's in a superblock of version 0. */
#define SEGMENT_ADDRESS 24
#define ROOT_ADDRESS 64

/* A report of an overlap names both blocks: the refused one of object 0, and the one met. */
static void reports_overlap(struct file file, uint64_t count, uint64_t address, uint64_t length, uint64_t kind, uint64_t met)
{
    struct call *c = lend(file, EBIKWOTULA_REPORT_REPLY_BYTES);
    CHECK(report(c) == EBIKWOTULA_DONE);
    CHECK(report_is(c, (const uint64_t[]){EBIKWOTULA_OVERLAP, count, address, address, length, kind, 0, met}));
    free(c);
}

/* The root's segment moved into its heap; then the root moved into the superblock, which is at 0. */
static void overlaps(struct file wrong)
{
    struct call *c = lend(wrong, EBIKWOTULA_AUDIT_REPLY_BYTES);
    uint8_t *old = malloc(wrong.length);
    size_t heap = 0, entered = 0;
    memcpy(old, wrong.bytes, wrong.length);
    CHECK(audit(c) == EBIKWOTULA_DONE);
    for (size_t i = 0; i < word(c->reply, 0); i++) {
        if (block_word(c, i, 2) == EBIKWOTULA_BLOCK_KIND_HEAP && block_word(c, i, 3) == 0) {
            heap = block_word(c, i, 0);
            entered = i + 1;
        }
    }
    CHECK(heap > 0);
    for (int i = 0; i < 8; i++) {
        wrong.bytes[heap + SEGMENT_ADDRESS + i] = (uint8_t)((heap + 1) >> (8 * i));
    }
    meets(wrong, heap);
    reports_overlap(wrong, entered, heap + 1, word(wrong.bytes + heap, 1), EBIKWOTULA_BLOCK_KIND_SEGMENT, heap);
    memcpy(wrong.bytes, old, wrong.length);
    memset(wrong.bytes + ROOT_ADDRESS, 0, 8);
    meets(wrong, 0);
    reports_overlap(wrong, 1, 0, 16, EBIKWOTULA_BLOCK_KIND_HEADER, 0);
    memcpy(wrong.bytes, old, wrong.length);
    free(old);
    free(c);
}

/* The most blocks of a file that are changed in turn. */
#define CHANGED_MOST 500

/* A sound file, and the same file with the signature of one heap or node after the other changed: that block is named, and the
 * blocks entered up to it stay in the list. Of a file with many blocks some are taken. */
static void reports(struct file file)
{
    struct call *a = lend(file, EBIKWOTULA_AUDIT_REPLY_BYTES);
    struct call *c = lend(file, EBIKWOTULA_REPORT_REPLY_BYTES);
    CHECK(audit(a) == EBIKWOTULA_DONE);
    size_t count = word(a->reply, 0);
    CHECK(report(c) == EBIKWOTULA_DONE);
    CHECK(report_is(c, (const uint64_t[]){EBIKWOTULA_DONE, count, 0, 0, 0, 0, 0, 0}));
    CHECK(memcmp(c->blocks, a->blocks, sizeof a->blocks) == 0);
    for (size_t i = 1; i < count; i += 1 + count / CHANGED_MOST) {
        uint64_t address = block_word(a, i, 0), length = block_word(a, i, 1);
        uint64_t kind = block_word(a, i, 2), object = block_word(a, i, 3);
        size_t entered = i + 1, bytes = EBIKWOTULA_BLOCK_BYTES * entered;
        int is_node = kind == EBIKWOTULA_BLOCK_KIND_TREE || kind == EBIKWOTULA_BLOCK_KIND_SYMBOL_NODE;
        if (!is_node && kind != EBIKWOTULA_BLOCK_KIND_HEAP) {
            continue;
        }
        file.bytes[address] ^= 1;
        CHECK(report(c) == EBIKWOTULA_DONE);
        CHECK(report_is(c, (const uint64_t[]){EBIKWOTULA_NODE_OR_HEAP, entered, address, address, length, kind, object, 0}));
        CHECK(memcmp(c->blocks, a->blocks, bytes) == 0);
        CHECK(zeros(c->blocks + bytes, c->blocks_length - bytes));
        file.bytes[address] ^= 1;
    }
    free(c);
    free(a);
}

/* Reports where there is room for one block, of images that can't be opened, and into a reply that is too short. */
static void other_reports(struct file small)
{
    const uint64_t superblock[] = {EBIKWOTULA_NO_SIGNATURE, 0, 0, 0, 96, EBIKWOTULA_BLOCK_KIND_SUPERBLOCK,
                                   EBIKWOTULA_SUPERBLOCK_OBJECT, 0};
    struct call *c = lend(small, EBIKWOTULA_REPORT_REPLY_BYTES);
    CHECK(EBIKWOTULA_REPORT_REPLY_BYTES == 8 * EBIKWOTULA_REPORT_WORDS);
    c->blocks_length = EBIKWOTULA_BLOCK_BYTES;
    CHECK(report(c) == EBIKWOTULA_DONE);
    uint64_t root = word(small.bytes + ROOT_ADDRESS, 0), length = 16 + (word(small.bytes + root + 8, 0) & UINT32_MAX);
    CHECK(report_is(c, (const uint64_t[]){EBIKWOTULA_NO_ROOM, 1, root, root, length, EBIKWOTULA_BLOCK_KIND_HEADER, 0, 0}));
    CHECK(block_word(c, 0, 1) == 96 && block_word(c, 0, 3) == EBIKWOTULA_SUPERBLOCK_OBJECT);
    c->blocks_length = sizeof c->blocks;
    small.bytes[0] ^= 1;
    CHECK(report(c) == EBIKWOTULA_DONE);
    CHECK(report_is(c, superblock) && zeros(c->blocks, c->blocks_length));
    small.bytes[0] ^= 1;
    c->image_length = EBIKWOTULA_IMAGE_LEAST - 1;
    CHECK(report(c) == EBIKWOTULA_DONE);
    CHECK(report_is(c, (const uint64_t[]){EBIKWOTULA_IMAGE_LENGTH, 0, 0, 0, 0, 0, 0, 0}));
    CHECK(zeros(c->blocks, c->blocks_length));
    c->image_length = small.length;
    c->reply_length--;
    CHECK(report(c) == EBIKWOTULA_NO_ROOM);
    CHECK(zeros(c->blocks, c->blocks_length) && zeros(c->reply, c->reply_length));
    free(c);
}

/* A mend, a second one, and undo with the log of the first. */
static void mend_and_undo(struct file wrong)
{
    uint8_t *old = malloc(wrong.length);
    memcpy(old, wrong.bytes, wrong.length);
    struct call *c = lend(wrong, EBIKWOTULA_MEND_REPLY_BYTES);
    CHECK(mend(c) == EBIKWOTULA_DONE);
    uint64_t entries = word(c->reply, 1);
    CHECK(entries > 0 && word(c->reply, 2) == entries);
    CHECK(memcmp(old, wrong.bytes, wrong.length) != 0);
    uint8_t log[EBIKWOTULA_LOG_BYTES];
    memcpy(log, c->log, sizeof log);
    CHECK(mend(c) == EBIKWOTULA_DONE);
    CHECK(word(c->reply, 1) == 0 && zeros(c->log, c->log_length));
    memcpy(c->log, log, sizeof log);
    c->entries = entries;
    CHECK(undo(c) == EBIKWOTULA_DONE);
    CHECK(word(c->reply, 0) == entries);
    CHECK(memcmp(old, wrong.bytes, wrong.length) == 0);
    c->image[0] ^= 1;
    CHECK(mend(c) == EBIKWOTULA_NO_SIGNATURE && zeros(c->log, c->log_length));
    c->image[0] ^= 1;
    free(c);
    free(old);
}

/* With every count wrong the log is as long as it can be. */
static void longest_log(struct file full)
{
    uint8_t *old = malloc(full.length);
    memcpy(old, full.bytes, full.length);
    struct call *c = lend(full, EBIKWOTULA_AUDIT_REPLY_BYTES);
    CHECK(audit(c) == EBIKWOTULA_DONE);
    for (size_t i = 0; i < word(c->reply, 1); i++) {
        full.bytes[word(c->reply, 2 + 3 * i) + 4] ^= 1;
    }
    CHECK(answer(mend, full, EBIKWOTULA_BLOCKS_BYTES, EBIKWOTULA_LOG_BYTES - 1, EBIKWOTULA_MEND_REPLY_BYTES) ==
          EBIKWOTULA_SHORT_LOG);
    CHECK(mend(c) == EBIKWOTULA_DONE);
    CHECK(word(c->reply, 1) == EBIKWOTULA_OBJECTS_MOST);
    CHECK(memcmp(old, full.bytes, full.length) == 0);
    free(c);
    free(old);
}

struct job {
    function *run;
    struct call *call;
    uint32_t number;
};

static void *perform(void *argument)
{
    struct job *job = argument;
    if (job->run != NULL) {
        job->number = job->run(job->call);
    }
    return NULL;
}

/* More than any call takes. */
#define STACK (1 << 20)

/* The bytes of a stack that a thread has written to. */
static size_t stack_of(struct job *job)
{
    uint8_t *stack = aligned_alloc(4096, STACK);
    pthread_attr_t attributes;
    pthread_t thread;
    size_t unused = 0;
    memset(stack, 0xa5, STACK);
    pthread_attr_init(&attributes);
    pthread_attr_setstack(&attributes, stack, STACK);
    CHECK(pthread_create(&thread, &attributes, perform, job) == 0);
    pthread_join(thread, NULL);
    while (unused < STACK && stack[unused] == 0xa5) {
        unused++;
    }
    free(stack);
    return STACK - unused;
}

/* The files by their places among the arguments: the first three are small. */
enum { SMALL, WRONG, SMALL_DEEP, FULL, CROWDED, DEEP, FILES };
#define SMALL_FILES 3

/* A call of a file that leaves it as it is, with a path that leads deep into it. */
static struct job job_of(size_t call, struct file *files, int file)
{
    struct job job = {calls[call].run, lend(files[file], calls[call].reply_bytes), 0};
    job.call->limit = 0;
    job.call->path = file == WRONG ? "/a" : "/00001";
    job.call->path_length = strlen(job.call->path);
    return job;
}

/* The most stack that a call takes on the first files, beside what a thread takes that calls nothing. */
static size_t most_stack(size_t call, struct file *files, int count)
{
    struct job nothing = {NULL, NULL, 0};
    size_t base = stack_of(&nothing), most = 0;
    for (int f = 0; f < count; f++) {
        struct job job = job_of(call, files, f);
        size_t used = stack_of(&job) - base;
        most = used > most ? used : most;
        free(job.call);
    }
    return most;
}

/* A constant of the header is no less than what is measured, and not much more. */
#define SPARE 8192

static void stack_is(size_t measured, size_t stated)
{
    CHECK(measured <= stated);
    CHECK(measured + SPARE > stated);
}

static void stacks(struct file *files)
{
    for (int f = 0; f < SMALL_FILES; f++) {
        CHECK(files[f].length <= EBIKWOTULA_SMALL_IMAGE);
    }
    for (size_t i = 0; i < CALLS; i++) {
        size_t most = most_stack(i, files, FILES), small = most_stack(i, files, SMALL_FILES);
        printf("stack of %s: %zu bytes, of a small file %zu\n", calls[i].name, most, small);
        stack_is(most, calls[i].stack_bytes);
        stack_is(small, calls[i].small_stack_bytes);
    }
}

/* What a caller may count on: a thread of this stack, all in all, is enough for every call. */
#define THREAD_STACK 524288

/* Runs a job in a thread of exactly so much stack. Before it lies a page that can't be touched, so that a call that takes more
 * ends the program. */
static void within_stack(struct job *job, size_t bytes)
{
    size_t page = (size_t)sysconf(_SC_PAGESIZE);
    uint8_t *memory = aligned_alloc(page, page + bytes);
    pthread_attr_t attributes;
    pthread_t thread;
    if (memory == NULL || mprotect(memory, page, PROT_NONE) != 0) {
        printf("no memory for a stack\n");
        exit(1);
    }
    pthread_attr_init(&attributes);
    CHECK(pthread_attr_setstack(&attributes, memory + page, bytes) == 0);
    CHECK(pthread_create(&thread, &attributes, perform, job) == 0);
    pthread_join(thread, NULL);
    pthread_attr_destroy(&attributes);
    CHECK(mprotect(memory, page, PROT_READ | PROT_WRITE) == 0);
    free(memory);
}

/* Every call of every file in such a thread, with the answer that it gives elsewhere. */
static void threads(struct file *files)
{
    for (size_t i = 0; i < CALLS; i++) {
        for (int f = 0; f < FILES; f++) {
            struct job job = job_of(i, files, f), alone = job_of(i, files, f);
            within_stack(&job, THREAD_STACK);
            CHECK(job.number == alone.run(alone.call));
            CHECK(memcmp(job.call->reply, alone.call->reply, job.call->reply_length) == 0);
            free(job.call);
            free(alone.call);
        }
    }
}

/* Calls side by side give what each gives alone. */
static void side_by_side(struct file full)
{
    struct call *alone = lend(full, EBIKWOTULA_AUDIT_REPLY_BYTES);
    struct job jobs[8];
    pthread_t threads[8];
    CHECK(audit(alone) == EBIKWOTULA_DONE);
    for (int i = 0; i < 8; i++) {
        jobs[i] = (struct job){audit, lend(full, EBIKWOTULA_AUDIT_REPLY_BYTES), 0};
        CHECK(pthread_create(&threads[i], NULL, perform, &jobs[i]) == 0);
    }
    for (int i = 0; i < 8; i++) {
        pthread_join(threads[i], NULL);
        CHECK(jobs[i].number == EBIKWOTULA_DONE);
        CHECK(memcmp(jobs[i].call->blocks, alone->blocks, sizeof alone->blocks) == 0);
        CHECK(memcmp(jobs[i].call->reply, alone->reply, sizeof alone->reply) == 0);
        free(jobs[i].call);
    }
    free(alone);
}

int main(int count, char **names)
{
    struct file files[FILES];
    if (count != FILES + 1) {
        printf("usage: calls SMALL WRONG FULL CROWDED DEEP\n");
        return 1;
    }
    for (int i = 0; i < FILES; i++) {
        files[i] = read_file(names[i + 1]);
    }
    CHECK(ebikwotula_version() == EBIKWOTULA_VERSION);
    constants();
    reply_lengths(files[SMALL]);
    image_lengths();
    objects_and_blocks(files[FULL], files[CROWDED]);
    paths(files[SMALL]);
    descriptions(files[WRONG]);
    owners(files[WRONG]);
    owners(files[FULL]);
    owners(files[DEEP]);
    described_blocks(files[WRONG]);
    overlaps(files[WRONG]);
    reports(files[SMALL]);
    reports(files[WRONG]);
    reports(files[DEEP]);
    other_reports(files[SMALL]);
    mend_and_undo(files[WRONG]);
    longest_log(files[FULL]);
    stacks(files);
    threads(files);
    side_by_side(files[FULL]);
    printf("%d failures\n", failures);
    return failures == 0 ? 0 : 1;
}
