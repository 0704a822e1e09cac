/* Ebikwotula: the audit of hard links and sharings in an HDF5 file, mending and undo of their counts, path lookup, dataset
 * description and damage report, for C.
 *
 * Link with libebikwotula.a (rt lib in crates/ebikwotula).
 *
 * Slices. Each slice of bytes is passed as a pointer to its first byte and its length in bytes. The slices of one call
 * must not overlap. A pointer must not be null, also where the length is 0.
 *
 * A call keeps no pointer, allocates nothing and has no state, so that calls are safe side by side as long as no slice that
 * one of them writes is lent to another. The stack that a call takes is bounded; what it takes in all, as measured, is given
 * below. The time of an audit, a mending and a report grows with the image's length, or a little faster, whatever the bytes;
 * that of a lookup and a description with the length times the path's components, since for each of them a group is read anew.
 * In a local heap of 1 MiB or more that has a free list, which no file of at most 1 MiB has, it also grows with the number of
 * free blocks times that of names, and with the length of link values.
 *
 * Words. A word is an unsigned number of 64 bits, written as 8 bytes, the lowest byte first, on every machine. Word k of
 * a slice is its bytes 8 * k to 8 * k + 7. A slice has as many words as it has whole eights of bytes. Every byte
 * that is lent for writing is written by each call; bytes that hold no word named below are 0.
 */
#ifndef EBIKWOTULA_H
#define EBIKWOTULA_H

#include <stddef.h>
#include <stdint.h>

#ifdef __cplusplus
extern "C" {
#endif

/* The version of this header. It is raised with every change of a word, an answer or a limit and with every larger figure of the
 * stack, and not with a smaller one or a new call; ebikwotula_version gives that of the library. */
#define EBIKWOTULA_VERSION 6

/* The limits: the length of an image, in bytes; the objects that are counted; the blocks that one walk enters; the length of
 * a path and of a component, in bytes; the dimensions of a dataset. */
#define EBIKWOTULA_IMAGE_LEAST 96
#define EBIKWOTULA_IMAGE_MOST 16777216
#define EBIKWOTULA_OBJECTS_MOST 1024
#define EBIKWOTULA_BLOCKS_MOST 8192
#define EBIKWOTULA_PATH_MOST 1024
#define EBIKWOTULA_NAME_MOST 255
#define EBIKWOTULA_RANK_MOST 32

/* The least length of reply, in bytes: 3,074 words for the audit, 3 for a lookup, 74 for a description, 3 for a mending,
 * 1 for undo, 8 for a report. */
#define EBIKWOTULA_AUDIT_REPLY_BYTES 24592
#define EBIKWOTULA_LOOKUP_REPLY_BYTES 24
#define EBIKWOTULA_DESCRIBE_REPLY_BYTES 592
#define EBIKWOTULA_MEND_REPLY_BYTES 24
#define EBIKWOTULA_UNDO_REPLY_BYTES 8
#define EBIKWOTULA_REPORT_REPLY_BYTES 64

/* The words of a report. */
#define EBIKWOTULA_REPORT_WORDS 8

/* What a block takes in blocks, in bytes: four words. The most that a call uses of blocks: that for each of 8,192 blocks. */
#define EBIKWOTULA_BLOCK_BYTES 32
#define EBIKWOTULA_BLOCKS_BYTES 262144

/* The most that a mending uses of log, in bytes: two words for each of 1,024 objects. */
#define EBIKWOTULA_LOG_BYTES 16384

/* The stack that a call takes in all, in bytes, as measured and rounded up. A thread of 512 KiB has it. */
#define EBIKWOTULA_AUDIT_STACK_BYTES 466944
#define EBIKWOTULA_LOOKUP_STACK_BYTES 409600
#define EBIKWOTULA_DESCRIBE_STACK_BYTES 409600
#define EBIKWOTULA_MEND_STACK_BYTES 499712
#define EBIKWOTULA_UNDO_STACK_BYTES 4096
#define EBIKWOTULA_REPORT_STACK_BYTES 462848

/* The stack that a call takes on an image of at most EBIKWOTULA_SMALL_IMAGE bytes that has at most 64 blocks. */
#define EBIKWOTULA_SMALL_IMAGE 16384
#define EBIKWOTULA_AUDIT_SMALL_STACK_BYTES 110592
#define EBIKWOTULA_LOOKUP_SMALL_STACK_BYTES 81920
#define EBIKWOTULA_DESCRIBE_SMALL_STACK_BYTES 86016
#define EBIKWOTULA_MEND_SMALL_STACK_BYTES 176128
#define EBIKWOTULA_REPORT_SMALL_STACK_BYTES 106496

/* The answers. 12 is given by audit and mending alone, 14 to 17 by lookup and description alone, 18 by mending and undo
 * alone, 19 by undo alone, and 20 by description alone. A report returns 0 or 13; it has the audit's answer as a word. */
enum ebikwotula_answer {
    EBIKWOTULA_DONE = 0,           /* done */
    EBIKWOTULA_IMAGE_LENGTH = 1,   /* the image has under 96 or over 16,777,216 bytes */
    EBIKWOTULA_NO_SIGNATURE = 2,   /* no signature 89 48 44 46 0d 0a 1a 0a */
    EBIKWOTULA_NOT_READ = 3,       /* a version, type or feature that is not read here */
    EBIKWOTULA_SUPERBLOCK = 4,     /* version 1 in under 100 bytes, a group K of 0, a root entry that is no hard link, or an
                                      end of file above the image length */
    EBIKWOTULA_OUTSIDE = 5,        /* a block is not inside the end-of-file address */
    EBIKWOTULA_OVERLAP = 6,        /* a block shares a byte with one already entered: the reply says with which, see below */
    EBIKWOTULA_NODE_OR_HEAP = 7,   /* the signature or version of a node or heap is wrong */
    EBIKWOTULA_TREE = 8,           /* a tree or symbol node is unsound */
    EBIKWOTULA_HEAP_OR_NAME = 9,   /* a heap or name is unsound */
    EBIKWOTULA_OBJECT_HEADER = 10, /* an object header is unsound */
    EBIKWOTULA_DATASET = 11,       /* dataset messages are unsound */
    EBIKWOTULA_OBJECTS = 12,       /* one object more than EBIKWOTULA_OBJECTS_MOST */
    EBIKWOTULA_NO_ROOM = 13,       /* no room for the next block, or a reply of too few words */
    EBIKWOTULA_BAD_PATH = 14,      /* the path has no right form */
    EBIKWOTULA_NAME_ABSENT = 15,   /* a group of the path has no such name */
    EBIKWOTULA_SYMBOLIC_LINK = 16, /* a symbolic link before the last component */
    EBIKWOTULA_NOT_A_GROUP = 17,   /* an object that is no group before the last component */
    EBIKWOTULA_SHORT_LOG = 18,     /* the log has too few words for its entries */
    EBIKWOTULA_LOG_MISMATCH = 19,  /* the log does not fit this image */
    EBIKWOTULA_NOT_A_DATASET = 20  /* the path leads to something else than a dataset */
};

/* The kinds of what a path leads to. */
enum ebikwotula_kind {
    EBIKWOTULA_KIND_GROUP = 1,
    EBIKWOTULA_KIND_DATASET = 2,
    EBIKWOTULA_KIND_COMMITTED_DATATYPE = 3,
    EBIKWOTULA_KIND_SYMBOLIC_LINK = 4
};

/* Blocks. A block is a piece of the file that belongs to one structure. Audit and mending list the blocks that they have
 * entered, in the order in which they entered them, the superblock first; so does a report, also of a damaged file; a
 * description lists those that it has entered for the dataset. For block i, from 0 on, blocks has
 *   word 4 * i       its address
 *   word 4 * i + 1   its length, in bytes
 *   word 4 * i + 2   its kind, one of those below
 *   word 4 * i + 3   the number of the object that it was entered for. In the list of an audit, a mending or a report objects
 *                    are numbered in order of discovery, the root 0, as they stand in the audit's reply; in that of a
 *                    description the number is 0. For the superblock it is EBIKWOTULA_SUPERBLOCK_OBJECT in every list.
 * The words behind the last block are 0. No byte of the file is in two blocks of a list.
 *
 * Room is the lesser of 8,192 blocks and the whole fours of words in blocks. */
enum ebikwotula_block_kind {
    EBIKWOTULA_BLOCK_KIND_SUPERBLOCK = 1,
    EBIKWOTULA_BLOCK_KIND_HEADER = 2,       /* an object header; each object has one, its first block, at its address */
    EBIKWOTULA_BLOCK_KIND_CONTINUATION = 3, /* a continuation of an object header */
    EBIKWOTULA_BLOCK_KIND_HEAP = 4,         /* the header of a group's local heap */
    EBIKWOTULA_BLOCK_KIND_SEGMENT = 5,      /* the data segment of that heap, which has the names */
    EBIKWOTULA_BLOCK_KIND_TREE = 6,         /* a node of a group's tree, of any level */
    EBIKWOTULA_BLOCK_KIND_SYMBOL_NODE = 7,  /* a symbol table node, which has the entries */
    EBIKWOTULA_BLOCK_KIND_DATA = 8          /* the contiguous data of a dataset */
};

/* The object number of the superblock: all ones, which no object has. */
#define EBIKWOTULA_SUPERBLOCK_OBJECT UINT64_MAX

/* Answer 6 of audit, lookup, description and mending: a block is refused, since it shares a byte with one already entered, or
 * with several. Word 0 of reply is then the address of the block met: of these the one that was entered first, which need
 * not be the lowest. All other bytes of blocks, log and reply are 0. Word 0 may itself be 0, where the superblock is met: the
 * answer 6 alone says that the word counts. What is already entered is what stands in the list of the walk at hand: an audit
 * has one list, while a lookup and a description begin anew for each component of a path and for what it leads to. So they may
 * meet another block than the audit, or none. Undo never gives 6. */

/* The version of the library: EBIKWOTULA_VERSION of the header that it came with. */
uint32_t ebikwotula_version(void);

/* Audits the file whose bytes are image. The image is not changed.
 *
 * Returns one of the answers above. 13 is given first, before the image is read, if reply has under 3,074 words.
 *
 * If the answer is 0:
 *   blocks  has four words for each block entered, as above.
 *   reply   word 0   the number of blocks entered
 *           word 1   the number of objects found, at most 1,024
 *           then three words for each object, in order of discovery, the root first: for object i, from 0 on,
 *           word 2 + 3 * i   its address
 *           word 3 + 3 * i   the reference count stored in its header
 *           word 4 + 3 * i   its true count: the number of hard links and sharings that reach it
 *
 * If the answer is 6, word 0 of reply is the address of the block met, which may be 0, and every other byte of blocks and
 * reply is 0. If it is neither 0 nor 6, every byte of blocks and reply is 0.
 */
uint32_t ebikwotula_audit(const uint8_t *image, size_t image_length, uint8_t *blocks, size_t blocks_length, uint8_t *reply,
                          size_t reply_length);

/* Looks up a path in the file whose bytes are image. The image is not changed.
 *
 * The path is "/", or a '/' before each of its components; it has 1 to 1,024 bytes and no NUL at its end. A component
 * has 1 to 255 bytes, holds no NUL, and is not ".".
 *
 * Returns one of the answers above. 13 is given first, before the path and the image are read, if reply has under 3
 * words; then 14, before the image is read.
 *
 * blocks is only lent: its length decides the room of each walk, and every byte of it is 0 at the end.
 *
 * If the answer is 0:
 *   reply   word 0   0, the number of blocks in blocks
 *           word 1   the kind of what the path leads to, one of the kinds above
 *           word 2   the address of its object header; 0 for a symbolic link
 *
 * If the answer is 6, word 0 of reply is the address of the block met, which may be 0, and every other byte of reply is 0.
 * If it is neither 0 nor 6, every byte of reply is 0.
 */
uint32_t ebikwotula_lookup(const uint8_t *image, size_t image_length, const uint8_t *path, size_t path_length,
                           uint8_t *blocks, size_t blocks_length, uint8_t *reply, size_t reply_length);

/* Describes the dataset that a path leads to, in the file whose bytes are image. The image is not changed.
 *
 * The path has the form that a lookup takes.
 *
 * Returns one of the answers above. 13 is given first, before the path and the image are read, if reply has under 74
 * words; then 14, before the image is read.
 *
 * If the answer is 0:
 *   blocks  has four words for each block entered for the dataset, as above: superblock, header, continuations, data.
 *   reply   word 0          the number of blocks entered
 *           word 1          the rank, at most 32
 *           words 2 to 33   the size of each dimension, 0 from the rank on
 *           words 34 to 65  the maximum of each dimension, which is the size where none is stored, 0 from the rank on
 *           word 66         the class of the datatype
 *           word 67         the version of the datatype
 *           word 68         the class bits of the datatype
 *           word 69         the element size
 *           word 70         the address of a shared datatype, whose words 66 to 69 are 0; else 0
 *           word 71         the class of the layout: 0 compact, 1 contiguous
 *           word 72         the address of the data; if compact, the place of its first byte in image
 *           word 73         the size of the data, in bytes
 *
 * If the answer is 6, word 0 of reply is the address of the block met, which may be 0, and every other byte of blocks and
 * reply is 0. If it is neither 0 nor 6, every byte of blocks and reply is 0.
 */
uint32_t ebikwotula_describe(const uint8_t *image, size_t image_length, const uint8_t *path, size_t path_length,
                             uint8_t *blocks, size_t blocks_length, uint8_t *reply, size_t reply_length);

/* Mends the file whose bytes are image: audits it, writes the undo log whole, and then sets wrong reference counts right,
 * in the order of the log, but no more of them than limit. A count is wrong if the stored and the true count of an
 * object differ. A limit of 0 writes the log and leaves the image as it is.
 *
 * Every call writes the whole log: a mend into a log that is still needed destroys it. After a mend that wrote every entry
 * a second one finds no wrong count and leaves zeros, and so does one that is refused. Keep the log of a mend, with the
 * file, before anything else is done.
 *
 * Returns one of the answers above. 13 is given first, before the image is read, if reply has under 3 words; 18 after the
 * audit, if log has under two words for each wrong count.
 *
 * If the answer is 0:
 *   blocks  is as after the audit.
 *   log     has an entry of two words for each wrong count, in the order in which the objects were discovered: for entry
 *           i, from 0 on,
 *           word 2 * i       the address of the count's field, which has 4 bytes: the object's address plus 4
 *           word 2 * i + 1   the old count times 2^32 plus the true count
 *   reply   word 0   the number of blocks entered
 *           word 1   the number of entries in the log, at most 1,024
 *           word 2   the number of counts written: the lesser of limit and the number of entries
 *   image   is changed in the fields of the entries written, and nowhere else.
 *
 * If the answer is not 0, the image is not changed. If it is 6, word 0 of reply is the address of the block met, which may
 * be 0, and every other byte of blocks, log and reply is 0. If it is neither 0 nor 6, every byte of blocks, log and reply
 * is 0.
 */
uint32_t ebikwotula_mend(uint8_t *image, size_t image_length, uint8_t *blocks, size_t blocks_length, uint8_t *log,
                         size_t log_length, uint8_t *reply, size_t reply_length, uint64_t limit);

/* Undo: writes the old reference counts of a mending's log back into image, the bytes of the mended file.
 *
 * The log has two words for each entry, in the order of the mending's writes: for entry i, from 0 on,
 *   word 2 * i       the place in image of a count, which has 4 bytes, the lowest first
 *   word 2 * i + 1   the old count times 2^32, plus the new count
 * It may have any length, and is not changed. entries is the number of its entries to take, from the first on. limit is
 * the most counts to write: the old counts of the last limit of the entries taken are written, or of all if limit is
 * above entries, the last entry first.
 *
 * Returns one of the answers above, the first of these that holds:
 *   13   reply has under 1 word; nothing else is read
 *   1    image has a length that is not read here
 *   18   log has under two words for each entry
 *   19   for some entry, also one that limit leaves out, the count is not inside image, or is neither the old nor the new
 *   0    done
 *
 * If the answer is 0:
 *   image   has the old counts written, and no other byte is changed
 *   reply   word 0   the number of counts written
 *
 * If the answer is not 0, image is not changed, and every byte of reply is 0.
 */
uint32_t ebikwotula_undo(uint8_t *image, size_t image_length, const uint8_t *log, size_t log_length, uint8_t *reply,
                         size_t reply_length, uint64_t entries, uint64_t limit);

/* Reports where the file whose bytes are image is damaged: audits it, and names the block in which the audit stopped. The image
 * is not changed.
 *
 * Returns 0 for every image, also for a damaged one: the audit's answer is a word of reply. Returns 13, before the image is
 * read, if reply has under 8 words; then every byte of blocks and reply is 0.
 *
 * If it returns 0:
 *   blocks  has four words for each block entered, as above: all of a sound file, else those entered before the fault. The
 *           words behind them are 0.
 *   reply   word 0   the audit's answer, 0 to 13, as an audit with the same blocks_length gives it
 *           word 1   the number of blocks entered
 *           word 2   the place in the file where the fault was met: the first byte of the message, key or entry that is
 *                    wrong, or that of the block
 *           word 3   the address of the damaged block
 *           word 4   its length, in bytes
 *           word 5   its kind, one of the block kinds above
 *           word 6   the number of its object, as in blocks
 *           word 7   with answer 6 the address of the block met, as above; else 0
 *
 * The damaged block is the one of blocks that holds the place. With answer 5, 6 or 13 it is the block that can't be entered,
 * as it is pointed to, and the place is its address; it was not entered, and may lie outside the file. A header whose first 16
 * bytes are not inside has length 16.
 *
 * With answer 0 words 2 to 7 are 0. With answer 1 words 1 to 7 are 0. With 2, 4, or 3 of the superblock no block was entered,
 * word 2 is 0 and the damaged block is the superblock: 0, 96, EBIKWOTULA_BLOCK_KIND_SUPERBLOCK,
 * EBIKWOTULA_SUPERBLOCK_OBJECT.
 */
uint32_t ebikwotula_report(const uint8_t *image, size_t image_length, uint8_t *blocks, size_t blocks_length, uint8_t *reply,
                           size_t reply_length);

#ifdef __cplusplus
}
#endif

#endif
