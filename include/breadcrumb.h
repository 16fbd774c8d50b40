/*
 * The breadcrumb catalogue: a multiset of 64-bit hashes in a lent byte slice.
 *
 * An image has 576 * B + 512 bytes, B from 1 to 65,536: F = 8 * B front buckets and B + 7
 * backyard buckets of 64 bytes each, then a tail of 64 bytes. What is kept of a hash is its
 * fingerprint; hashes with equal fingerprints are alike to every call, and each copy is a member of
 * its own.
 *
 * The tail has the total of the members in bytes 0 to 7 and the change count in 8 to 15, both
 * little-endian, the layout in byte 16, which is 1, and 0 in the rest. An accepted insert adds 1 to
 * both numbers, an accepted delete takes 1 from the total and adds 1 to the change count; a fresh
 * image, a merged one and one moved from the old form start with the change count 0. A bad tail has
 * another layout, a rest byte that is not 0, or a total above the slots of the image.
 *
 * An old image is one without the tail, 576 * B + 448 bytes. bcf_attach and bcf_detach move between
 * the two forms; all other functions take the new form only.
 *
 * The library keeps no state and allocates nothing. Every function takes any bytes and any
 * numbers. The slices of one call must not overlap, but the two sources of a merge may be one
 * image. An image may be read by several threads at once; a call that writes needs it alone.
 *
 * Every function returns one number, packed: BCF_NUMBER(answer) is 0 when the call is accepted
 * and otherwise tells why it is refused, BCF_VALUE(answer) is the rest. A refused call leaves all
 * bytes as they were, but for BCF_FULL from a merge, whose target is then fresh.
 */
#ifndef BREADCRUMB_H
#define BREADCRUMB_H

#include <stddef.h>
#include <stdint.h>

#ifdef __cplusplus
extern "C" {
#endif

/* The length of an image and of an old one, its numbers of buckets, and the slots of all buckets,
 * for B from 1 to 65,536. */
#define BCF_LENGTH(b) ((size_t)576 * (b) + 512)
#define BCF_OLD_LENGTH(b) ((size_t)576 * (b) + 448)
#define BCF_FRONTS(b) ((uint64_t)8 * (b))
#define BCF_BACKYARDS(b) ((uint64_t)(b) + 7)
#define BCF_SLOTS(b) ((uint64_t)246 * (b) + 154)

/* Numbers. */
enum {
    BCF_ACCEPTED = 0,
    BCF_WRONG_LENGTH = 1,   /* no image of the form asked for has this length */
    BCF_LENGTHS_DIFFER = 2, /* merge, attach, detach: the images do not have one B */
    BCF_UNSOUND = 3,        /* a bucket that was read is unsound: BCF_TABLE_NUMBER */
    BCF_FULL = 4,           /* insert, merge: both backyard buckets are full */
    BCF_ABSENT = 5,         /* delete: no such member */
    BCF_PAST_THE_END = 6,   /* page: start is above F; occupancy: a page past the last */
    BCF_DOES_NOT_FIT = 7,   /* page: bucket start does not fit; occupancy, tail: output too short */
    BCF_EARLY = 8,          /* check, merge, attach, detach: a backyard member before its turn:
                               BCF_TABLE_NUMBER */
    BCF_DESCENDING = 10,    /* row: an entry's front bucket is below that of the entry before it */
    BCF_BAD_TAIL = 11,      /* the tail is bad */
    BCF_MISCOUNTED = 12,    /* check, merge, detach: the total differs from the members; insert,
                               delete: it would go above the slots or below 0 */
    BCF_SPENT = 13,         /* insert, delete: the change count is at its top, 2^64 - 1 */
    BCF_CHANGED = 14        /* page: the change count is not the image's */
};

#define BCF_NUMBER(answer) ((unsigned)((uint64_t)(answer) >> 56))
#define BCF_VALUE(answer) ((uint64_t)(answer) & (((uint64_t)1 << 56) - 1))

/* Of a refusal with BCF_UNSOUND or BCF_EARLY. Front bucket f has table number f, backyard bucket
 * j has F + j. */
#define BCF_TABLE_NUMBER(answer) BCF_VALUE(answer)

/* Every bucket empty, total and change count 0. The image may hold any bytes before. */
uint64_t bcf_fresh(uint8_t *image, size_t length);

/* Tells whether every bucket is sound, every backyard member in its turn, and the total that of the
 * members. */
uint64_t bcf_check(const uint8_t *image, size_t length);

/* Writes the total into out[0] and the change count into out[1]; the rest of the output keeps its
 * content. No bucket is read. Value: 0. */
uint64_t bcf_tail(const uint8_t *image, size_t length, uint64_t *out, size_t out_length);

/* Value: 0, or 1 + the backyard bucket that took the overflow. */
uint64_t bcf_insert(uint8_t *image, size_t length, uint64_t hash);

/* Takes one copy. Value: 0, or 1 + the backyard bucket that a member left. */
uint64_t bcf_delete(uint8_t *image, size_t length, uint64_t hash);

/* Of an accepted insert or delete: whether a backyard bucket changed, and which. */
#define BCF_MOVED(answer) (BCF_VALUE(answer) != 0)
#define BCF_BACKYARD(answer) (BCF_VALUE(answer) - 1)

/* Where the fingerprint is, its copies there, and the buckets read: at most three, and at most two
 * where both backyard buckets of its front bucket are one, in which nothing is in first. */
uint64_t bcf_ask(const uint8_t *image, size_t length, uint64_t hash);

/* Of an accepted ask. The slot is the lowest one of the fingerprint, the copies are those at this
 * place: of a fingerprint in front more may be in first and second, of one in first more in second,
 * and bcf_count tells them all. Both are 0 where there is none. */
enum { BCF_NONE = 0, BCF_FRONT = 1, BCF_FIRST = 2, BCF_SECOND = 3 };
#define BCF_ASK_READS(answer) ((unsigned)(BCF_VALUE(answer) % 16))
#define BCF_ASK_PLACE(answer) ((unsigned)(BCF_VALUE(answer) / 16 % 16))
#define BCF_ASK_SLOT(answer) ((unsigned)(BCF_VALUE(answer) / 256 % 256))
#define BCF_ASK_COPIES(answer) ((unsigned)(BCF_VALUE(answer) / 65536))

/* An ask in a row. An accepted row keeps the hash and sets reads, place, slot and copies to what a
 * lone ask gives, slot and copies to 0 where there is none. */
typedef struct {
    uint64_t hash;
    uint32_t reads, place, slot, copies;
} bcf_entry;

/* Asks for the hash of each of `row_length` entries. Front buckets must not descend from entry to
 * entry; they do not in a row that is sorted by hash. Neighbours with the same front bucket share
 * their reads. Value: the total, the sum over such groups of the greatest reads in the group. */
uint64_t bcf_row(const uint8_t *image, size_t length, bcf_entry *row, size_t row_length);

/* The copies of the fingerprint, and the buckets read, as many as an ask reads at most. */
uint64_t bcf_count(const uint8_t *image, size_t length, uint64_t hash);

/* Of an accepted count. */
#define BCF_COUNT_COPIES(answer) ((uint32_t)BCF_VALUE(answer))
#define BCF_COUNT_READS(answer) ((uint32_t)(BCF_VALUE(answer) >> 32))

/* Writes the fingerprints of the longest run of whole front buckets from `start` on that fits,
 * ascending; the rest of the output keeps its content. `changes` must be the change count of the
 * image. 72 entries hold any bucket.
 *
 * A walk lists all members. It takes the change count from bcf_tail before its first page, brings
 * that number with every page, starts at 0 and follows BCF_PAGE_NEXT up to F. BCF_CHANGED tells
 * that the image has changed: the walk must begin anew. A walk whose pages were all accepted has
 * listed the members as they stood at its first page, each copy, ascending, whatever was called
 * between its pages. Only bcf_fresh, bcf_merge, also one that is full, and bcf_attach into the
 * image start its count anew, so that a change may go unnoticed: no walk may go on across them. */
uint64_t bcf_page(const uint8_t *image, size_t length, uint64_t start, uint64_t changes,
                  uint64_t *out, size_t out_length);

/* Of an accepted page. */
#define BCF_PAGE_HOW_MANY(answer) ((uint32_t)BCF_VALUE(answer))
#define BCF_PAGE_NEXT(answer) ((uint32_t)(BCF_VALUE(answer) >> 32))

/* Lines of an occupancy page, bytes of a line with its newline, bytes of a page. */
#define BCF_OCCUPANCY_LINES 24
#define BCF_OCCUPANCY_LINE 42
#define BCF_OCCUPANCY_BYTES 1008

/* Writes a line for each of 24 front buckets from 24 * page on: its number in columns 1 to 6, its
 * front members in 8 and 9 and its overflow in 11 and 12, all right-aligned, and from 14 to 41 one
 * # a front member, then dots. Lines past the last front bucket are blank. Pages are numbered from
 * 0. The rest of the output keeps its content. Value: 0. */
uint64_t bcf_occupancy(const uint8_t *image, size_t length, uint64_t page, uint8_t *out,
                       size_t out_length);

/* Checks both sources, then writes the members of both into the target, which may hold any bytes
 * before. All three have one length. The totals are added, the change count is 0. */
uint64_t bcf_merge(const uint8_t *first, size_t first_length, const uint8_t *second,
                   size_t second_length, uint8_t *target, size_t target_length);

/* Checks an old image, then writes its bytes and a tail behind them into the target, which may hold
 * any bytes before: the total is that of the members, the change count 0. Both have one B. An old
 * image in which a member leads by choice 0 to a front bucket with b0 = b1 is unsound. Value: 0. */
uint64_t bcf_attach(const uint8_t *old, size_t old_length, uint8_t *target, size_t target_length);

/* Checks an image, then writes its bytes without the tail into the target, which has the length of
 * an old image and may hold any bytes before. Both have one B. Value: 0. */
uint64_t bcf_detach(const uint8_t *image, size_t length, uint8_t *target, size_t target_length);

#ifdef __cplusplus
}
#endif

#endif
