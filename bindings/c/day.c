/*
 * A day of readings from C: 96 quarter hours of 20 houses are filed, walked, asked for, taken out,
 * moved to the old form and back, and merged with another day, a house's day is asked for in one
 * row, and lines of an occupancy page are printed. Prints the same as the example in Rust.
 */
#include "breadcrumb.h"

#include <inttypes.h>
#include <stdio.h>
#include <stdlib.h>
#include <string.h>

enum { B = 20, HOUSES = 20, QUARTERS = 96 };

static uint8_t today[BCF_LENGTH(B)], tomorrow[BCF_LENGTH(B)], both[BCF_LENGTH(B)];
static uint8_t old[BCF_OLD_LENGTH(B)];

/* SplitMix64's finaliser. */
static uint64_t hash_of(uint64_t house, uint64_t quarter)
{
    uint64_t z = house << 32 | quarter;
    z = (z ^ z >> 30) * UINT64_C(0xBF58476D1CE4E5B9);
    z = (z ^ z >> 27) * UINT64_C(0x94D049BB133111EB);
    return z ^ z >> 31;
}

/* The value of an accepted answer; anything else ends the program. */
static uint64_t value(uint64_t answer)
{
    if (BCF_NUMBER(answer) != BCF_ACCEPTED) {
        printf("refused with %u, %" PRIu64 "\n", BCF_NUMBER(answer), BCF_VALUE(answer));
        exit(1);
    }
    return BCF_VALUE(answer);
}

static void file_day(uint8_t *image, uint64_t from)
{
    int behind = 0;
    value(bcf_fresh(image, BCF_LENGTH(B)));
    for (uint64_t house = 0; house < HOUSES; house++)
        for (uint64_t quarter = from; quarter < from + QUARTERS; quarter++)
            behind += value(bcf_insert(image, BCF_LENGTH(B), hash_of(house, quarter))) != 0;
    value(bcf_check(image, BCF_LENGTH(B)));
    printf("filed %d readings, %d times with overflow\n", HOUSES * QUARTERS, behind);
}

/* What the tail of an image tells, without a walk. */
static void print_tail(const char *name, const uint8_t *image)
{
    uint64_t out[2];
    value(bcf_tail(image, BCF_LENGTH(B), out, 2));
    printf("%s: total %" PRIu64 ", change count %" PRIu64 "\n", name, out[0], out[1]);
}

/* The change count, which every page of a walk brings. */
static uint64_t changes_of(const uint8_t *image)
{
    uint64_t out[2];
    value(bcf_tail(image, BCF_LENGTH(B), out, 2));
    return out[1];
}

/* Walks the pages of an image. */
static void list(const char *name, const uint8_t *image)
{
    uint64_t out[100], changes = changes_of(image), next = 0, members = 0, last = 0;
    int pages = 0;
    while (next < BCF_FRONTS(B)) {
        uint64_t answer = bcf_page(image, BCF_LENGTH(B), next, changes, out, 100);
        value(answer);
        members += BCF_PAGE_HOW_MANY(answer);
        if (BCF_PAGE_HOW_MANY(answer) > 0)
            last = out[BCF_PAGE_HOW_MANY(answer) - 1];
        next = BCF_PAGE_NEXT(answer);
        pages++;
    }
    printf("%s: %" PRIu64 " members on %d pages, the last %" PRIu64 "\n", name, members, pages, last);
}

/* Files a reading between two pages of a walk, which must then begin anew. */
static void file_between_pages(uint8_t *image, uint64_t hash)
{
    uint64_t out[100], changes = changes_of(image);
    uint64_t answer = bcf_page(image, BCF_LENGTH(B), 0, changes, out, 100);
    value(answer);
    value(bcf_insert(image, BCF_LENGTH(B), hash));
    answer = bcf_page(image, BCF_LENGTH(B), BCF_PAGE_NEXT(answer), changes, out, 100);
    printf("filed between two pages, the second is refused: %u\n", BCF_NUMBER(answer));
    list("walked anew", image);
}

/* Asks for one reading, files it again in the middle of a walk, and takes it out. */
static void try_reading(uint8_t *image, uint64_t hash)
{
    uint64_t asked = bcf_ask(image, BCF_LENGTH(B), hash);
    value(asked);
    printf("house 7, quarter 30: place %u, slot %u, %u reads\n", BCF_ASK_PLACE(asked),
           BCF_ASK_SLOT(asked), BCF_ASK_READS(asked));
    file_between_pages(image, hash);
    uint64_t counted = bcf_count(image, BCF_LENGTH(B), hash);
    value(counted);
    asked = bcf_ask(image, BCF_LENGTH(B), hash);
    value(asked);
    printf("filed twice: %u copies, %u of them where the ask ended\n", BCF_COUNT_COPIES(counted),
           BCF_ASK_COPIES(asked));
    value(bcf_delete(image, BCF_LENGTH(B), hash));
    value(bcf_delete(image, BCF_LENGTH(B), hash));
    printf("taken out a third time: %u\n", BCF_NUMBER(bcf_delete(image, BCF_LENGTH(B), hash)));
}

/* Entries in the order of their hashes are in the order of their front buckets. */
static int by_hash(const void *left, const void *right)
{
    uint64_t x = ((const bcf_entry *)left)->hash, y = ((const bcf_entry *)right)->hash;
    return (x > y) - (x < y);
}

/* All quarter hours of a house in one row. */
static void ask_day(const uint8_t *image, uint64_t house)
{
    bcf_entry row[QUARTERS] = {{0}};
    uint64_t alone = 0;
    int filed = 0;
    for (uint64_t quarter = 0; quarter < QUARTERS; quarter++)
        row[quarter].hash = hash_of(house, quarter);
    printf("house %" PRIu64 ", not sorted: %u\n", house,
           BCF_NUMBER(bcf_row(image, BCF_LENGTH(B), row, QUARTERS)));
    qsort(row, QUARTERS, sizeof row[0], by_hash);
    uint64_t total = value(bcf_row(image, BCF_LENGTH(B), row, QUARTERS));
    for (int i = 0; i < QUARTERS; i++) {
        filed += row[i].place != BCF_NONE;
        alone += row[i].reads;
    }
    printf("house %" PRIu64 " in one row: %d of %d filed\n", house, filed, QUARTERS);
    printf("reads in the row: %" PRIu64 ", one by one: %" PRIu64 "\n", total, alone);
}

/* The first lines of an occupancy page. */
static void print_lines(const uint8_t *image, uint64_t page, size_t lines)
{
    uint8_t out[BCF_OCCUPANCY_BYTES];
    value(bcf_occupancy(image, BCF_LENGTH(B), page, out, sizeof out));
    fwrite(out, BCF_OCCUPANCY_LINE, lines, stdout);
}

int main(void)
{
    file_day(today, 0);
    file_day(tomorrow, QUARTERS);
    list("today", today);

    uint64_t asked = bcf_ask(today, sizeof today, hash_of(99, 30));
    value(asked);
    printf("house 99, quarter 30: place %u\n", BCF_ASK_PLACE(asked));
    try_reading(today, hash_of(7, 30));
    print_tail("today", today);

    /* The targets may hold any bytes. */
    value(bcf_detach(today, sizeof today, old, sizeof old));
    value(bcf_attach(old, sizeof old, both, sizeof both));
    printf("old form: %zu bytes, the same buckets: %s\n", sizeof old,
           memcmp(old, today, sizeof old) == 0 ? "yes" : "no");
    print_tail("moved there and back", both);

    value(bcf_merge(today, sizeof today, tomorrow, sizeof tomorrow, both, sizeof both));
    list("both days", both);
    print_tail("both days", both);
    ask_day(both, 7);
    print_lines(both, 3, 4);
    both[0] = 0xFF;
    both[1] = 0xFF;
    uint64_t damaged = bcf_check(both, sizeof both);
    printf("damaged: %u in bucket %" PRIu64 "\n", BCF_NUMBER(damaged), BCF_TABLE_NUMBER(damaged));
    return 0;
}
