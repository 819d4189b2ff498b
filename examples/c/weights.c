// Six installations report how many bytes a feature saved them, where a number below 0 is a loss. The features have names of three bits. A weighted
// search finds the features whose savings, and those of each group of features whose names begin alike, add to at least 1,000 bytes.
//
// From the top of the repository, after `tools/library`:
//
//     cc -std=c11 -O2 -Iinclude examples/c/weights.c target/staticlib/libcapi.a -o target/weights && target/weights

#include <stdio.h>
#include <stdlib.h>

#include "tally.h"

// The string length, the threshold and the number of reports.
#define N 3
#define T 1000
#define REPORTS 6

// A report: the feature's name, packed, and the bytes that it saved.
typedef struct saving {
    uint8_t feature;
    int16_t bytes;
} saving;

// 010 saved 700 and 600 bytes, 011 lost 200, 000 lost 50, 110 saved 1,500, and 111 lost 1,200.
static const saving savings[REPORTS] = {{0x40, 700}, {0x40, 600}, {0x60, -200}, {0x00, -50}, {0xc0, 1500}, {0xe0, -1200}};

// What both servers hold: each its own seeds, and the public shares.
static uint8_t seeds0[REPORTS * TALLY_SEED_LENGTH], seeds1[REPORTS * TALLY_SEED_LENGTH];
static uint8_t public_shares[REPORTS * TALLY_PUBLIC_SHARE_LENGTH(N)];

// Leaves the program where a call was refused.
static void must_pass(const char *call, uint64_t number)
{
    if (number != TALLY_OK) {
        fprintf(stderr, "%s: %s\n", call, tally_refusal_text(number));
        exit(EXIT_FAILURE);
    }
}

// A numbered block in place of a random seed, so that each run is the same; an installation has to draw its seeds at random.
static void draw(uint64_t number, uint8_t *seed)
{
    static const uint8_t from[TALLY_SEED_LENGTH] = {1};
    must_pass("tally_block", tally_block(TALLY_EXPANDER_AES, from, sizeof from, number, seed, TALLY_SEED_LENGTH).number);
}

// Report i: the weight is the number of bytes saved.
static void report(size_t i)
{
    uint8_t *seed0 = seeds0 + i * TALLY_SEED_LENGTH, *seed1 = seeds1 + i * TALLY_SEED_LENGTH;
    draw(2 * i, seed0);
    draw(2 * i + 1, seed1);
    tally_reply reply = tally_key(N, TALLY_EXPANDER_AES, savings[i].bytes, &savings[i].feature, 1, seed0, TALLY_SEED_LENGTH, seed1,
                                  TALLY_SEED_LENGTH, public_shares + i * TALLY_PUBLIC_SHARE_LENGTH(N), TALLY_PUBLIC_SHARE_LENGTH(N));
    must_pass("tally_key", reply.number);
}

// The bits of a packed string.
static void print_bits(const uint8_t *packed, size_t bits)
{
    for (size_t i = 0; i < bits; i++)
        putchar(packed[i / 8] >> (7 - i % 8) & 1 ? '1' : '0');
}

// The queries of a record with their totals, one line a prefix; before them stands the number of reports.
static void print_record(const uint8_t *record, size_t length)
{
    for (size_t at = TALLY_HEADING_LENGTH; at < length;) {
        const size_t bits = ((size_t)record[at] << 8 | record[at + 1]) + 1;
        const size_t count = (size_t)record[at + 2] << 24 | (size_t)record[at + 3] << 16 | (size_t)record[at + 4] << 8 | record[at + 5];
        const uint8_t *totals = record + at + TALLY_QUERY_LENGTH(bits, count);
        for (size_t i = 0; i < count; i++) {
            print_bits(record + at + 6 + i * TALLY_PACKED_LENGTH(bits), bits);
            printf(" %lld\n", (long long)tally_signed_total(tally_total(totals + i * TALLY_NUMBER_LENGTH)));
        }
        at += TALLY_QUERY_LENGTH(bits, count) + TALLY_SHARE_LENGTH(count);
    }
}

// What the bytes of the features whose first bits are those of `packed` add to.
static int saved(uint8_t packed, int bits)
{
    int sum = 0;
    for (size_t i = 0; i < REPORTS; i++)
        if (savings[i].feature >> (8 - bits) == packed >> (8 - bits))
            sum += savings[i].bytes;
    return sum;
}

int main(void)
{
    for (size_t i = 0; i < REPORTS; i++)
        report(i);
    size_t record_space = (size_t)tally_record_space(N, TALLY_WEIGHTED, T, REPORTS);
    size_t list_space = (size_t)tally_list_space(N, TALLY_WEIGHTED, T, REPORTS);
    // One byte more, so that no pointer is null where the space is 0.
    uint8_t *record = malloc(record_space + 1), *list = malloc(list_space + 1);
    if (record == NULL || list == NULL) {
        fprintf(stderr, "no memory\n");
        return EXIT_FAILURE;
    }
    tally_found found = tally_search(N, TALLY_WEIGHTED, T, TALLY_EXPANDER_AES, seeds0, sizeof seeds0, public_shares, sizeof public_shares,
                                     seeds1, sizeof seeds1, public_shares, sizeof public_shares, record, record_space, list, list_space);
    must_pass("tally_search", found.number);
    print_record(record, (size_t)found.record_length);
    for (size_t at = 0; at < found.list_length; at += TALLY_PACKED_LENGTH(N)) {
        printf("heavy ");
        print_bits(list + at, N);
        putchar('\n');
    }
    printf("110 saved %d bytes, but 1 only %d: it is not in the list\n", saved(0xc0, 3), saved(0x80, 1));
    free(record);
    free(list);
    return EXIT_SUCCESS;
}
