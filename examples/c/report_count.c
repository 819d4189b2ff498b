// For collectors that expect a count of reports beside the result: the record of a search piece by piece, which begins with that number. The
// strings are 01, 01 and 11, as in example D of the scope paper; then come too little space, no reports, and weights that cancel.
//
// From the top of the repository, after `tools/library`:
//
//     cc -std=c11 -O2 -Iinclude examples/c/report_count.c target/staticlib/libcapi.a -o target/report_count && target/report_count

#include <stdio.h>
#include <stdlib.h>

#include "tally.h"

// The string length, the threshold, the most reports of a search, and the bytes of example D's record.
#define N 2
#define T 2
#define MOST_REPORTS 3
#define RECORD_LENGTH (TALLY_HEADING_LENGTH + TALLY_QUERY_LENGTH(1, 2) + TALLY_SHARE_LENGTH(2) + TALLY_QUERY_LENGTH(2, 2) + TALLY_SHARE_LENGTH(2))

// What an installation reports: its string, packed, and a weight.
typedef struct held {
    uint8_t string;
    int16_t weight;
} held;

// Example D, and two reports whose weights cancel.
static const held example_d[] = {{0x40, 1}, {0x40, 1}, {0xc0, 1}}, cancelling[] = {{0x40, 5}, {0x40, -5}};

// Leaves the program where something is not as it must be.
static void must(bool holds, const char *subject, const char *sentence)
{
    if (!holds) {
        fprintf(stderr, "%s: %s\n", subject, sentence);
        exit(EXIT_FAILURE);
    }
}

// Leaves the program where a call was refused.
static void must_pass(const char *call, uint64_t number)
{
    must(number == TALLY_OK, call, tally_refusal_text(number));
}

// A numbered block in place of a random seed, so that each run is the same; an installation has to draw its seeds at random.
static void draw(uint64_t number, uint8_t *seed)
{
    static const uint8_t from[TALLY_SEED_LENGTH] = {3};
    must_pass("tally_block", tally_block(TALLY_EXPANDER_AES, from, sizeof from, number, seed, TALLY_SEED_LENGTH).number);
}

// The whole search of some reports, whose record goes into the lent space.
static tally_found search(const held *all, size_t reports, bool weighted, uint8_t *record, size_t space)
{
    const size_t seed = TALLY_SEED_LENGTH, share = TALLY_PUBLIC_SHARE_LENGTH(N);
    uint8_t seeds0[MOST_REPORTS * TALLY_SEED_LENGTH], seeds1[sizeof seeds0], shares[MOST_REPORTS * TALLY_PUBLIC_SHARE_LENGTH(N)], list[MOST_REPORTS];
    for (size_t i = 0; i < reports; i++) {
        draw(2 * i, seeds0 + i * seed);
        draw(2 * i + 1, seeds1 + i * seed);
        must_pass("tally_key", tally_key(N, TALLY_EXPANDER_AES, all[i].weight, &all[i].string, 1, seeds0 + i * seed, seed, seeds1 + i * seed, seed,
                                         shares + i * share, share).number);
    }
    return tally_search(N, weighted, T, TALLY_EXPANDER_AES, seeds0, reports * seed, shares, reports * share, seeds1, reports * seed, shares,
                        reports * share, record, space, list, sizeof list);
}

// Some bytes in hexadecimal, and two spaces.
static void print_bytes(const uint8_t *bytes, size_t length)
{
    for (size_t i = 0; i < length; i++)
        printf("%02x", bytes[i]);
    printf("  ");
}

// The bits of a packed string.
static void print_bits(const uint8_t *packed, size_t bits)
{
    for (size_t i = 0; i < bits; i++)
        putchar(packed[i / 8] >> (7 - i % 8) & 1 ? '1' : '0');
}

// A record that a search wrote, one line for each piece of it: the number of reports, and then each query with its totals.
static void print_record(const uint8_t *record, size_t length)
{
    print_bytes(record, TALLY_HEADING_LENGTH);
    printf("the number of reports: %llu\n", (unsigned long long)tally_report_count(record));
    for (size_t at = TALLY_HEADING_LENGTH; at < length;) {
        const uint8_t *query = record + at, *prefixes = query + 6;
        const size_t bits = ((size_t)query[0] << 8 | query[1]) + 1, size = TALLY_PACKED_LENGTH(bits);
        const size_t count = (size_t)query[2] << 24 | (size_t)query[3] << 16 | (size_t)query[4] << 8 | query[5];
        const uint8_t *totals = query + TALLY_QUERY_LENGTH(bits, count);
        print_bytes(query, TALLY_QUERY_LENGTH(bits, count));
        printf("a query:");
        for (size_t i = 0; i < count; i++) {
            putchar(' ');
            print_bits(prefixes + i * size, bits);
        }
        putchar('\n');
        for (size_t i = 0; i < count; i++) {
            print_bytes(totals + i * TALLY_NUMBER_LENGTH, TALLY_NUMBER_LENGTH);
            printf("the total of ");
            print_bits(prefixes + i * size, bits);
            printf(": %llu\n", (unsigned long long)tally_total(totals + i * TALLY_NUMBER_LENGTH));
        }
        at += TALLY_QUERY_LENGTH(bits, count) + TALLY_SHARE_LENGTH(count);
    }
}

// Searches some reports in enough space, and prints the record.
static void search_and_print(const held *all, size_t reports, bool weighted, uint8_t *record)
{
    tally_found found = search(all, reports, weighted, record, RECORD_LENGTH);
    must_pass("tally_search", found.number);
    print_record(record, (size_t)found.record_length);
}

int main(void)
{
    uint8_t record[RECORD_LENGTH];
    search_and_print(example_d, 3, TALLY_UNWEIGHTED, record);
    const uint8_t *totals = record + TALLY_HEADING_LENGTH + TALLY_QUERY_LENGTH(1, 2);
    const uint64_t reports = tally_report_count(record), first = tally_total(totals), second = tally_total(totals + TALLY_NUMBER_LENGTH);
    must(first + second == reports, "the first two totals", "they do not add to the number of reports");
    printf("%d bytes; the first two totals add to the number of reports: %d + %d = %d\n", (int)sizeof record, (int)first, (int)second, (int)reports);

    tally_found refused = search(example_d, 3, TALLY_UNWEIGHTED, record, sizeof record - 1);
    must(refused.number == TALLY_REFUSED_SPACE, "a byte too few", "it was not refused with 11");
    for (size_t i = 0; i < sizeof record - 1; i++)
        must(record[i] == 0, "a byte too few", "the record area is not zero");
    printf("in %d bytes it is refused with %d, and all of them become zero\n", (int)sizeof record - 1, (int)refused.number);

    printf("no reports:\n");
    search_and_print(example_d, 0, TALLY_UNWEIGHTED, record);
    printf("two reports of 01 that weigh 5 and -5, in a weighted search:\n");
    search_and_print(cancelling, 2, TALLY_WEIGHTED, record);
    return EXIT_SUCCESS;
}
