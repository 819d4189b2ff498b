// Three installations hold the strings 01, 01 and 11; two servers and a collector find which string at least two of them hold.
// Then the whole search on the same reports has to give the same record and list.
//
// From the top of the repository, after `tools/library`:
//
//     cc -std=c11 -O2 -Iinclude examples/c/two_servers.c target/staticlib/libcapi.a -o target/two_servers && target/two_servers

#include <stdio.h>
#include <stdlib.h>
#include <string.h>

#include "tally.h"

// The string length, the threshold and the number of reports.
#define N 2
#define T 2
#define REPORTS 3

// The most prefixes in one query: there are four strings of two bits.
#define MOST_PREFIXES 4

// An installation: its packed string, and its two root seeds.
typedef struct installation {
    uint8_t string[TALLY_PACKED_LENGTH(N)];
    uint8_t seed0[TALLY_SEED_LENGTH];
    uint8_t seed1[TALLY_SEED_LENGTH];
} installation;

// Seeds are given here so that each run is the same; an installation has to draw its own, each of them once.
static const installation installations[REPORTS] = {
    {{0x40},
     {0x00, 0x11, 0x22, 0x33, 0x44, 0x55, 0x66, 0x77, 0x88, 0x99, 0xaa, 0xbb, 0xcc, 0xdd, 0xee, 0xff},
     {0xff, 0xee, 0xdd, 0xcc, 0xbb, 0xaa, 0x99, 0x88, 0x77, 0x66, 0x55, 0x44, 0x33, 0x22, 0x11, 0x00}},
    {{0x40},
     {0x10, 0x21, 0x32, 0x43, 0x54, 0x65, 0x76, 0x87, 0x98, 0xa9, 0xba, 0xcb, 0xdc, 0xed, 0xfe, 0x0f},
     {0x0f, 0xfe, 0xed, 0xdc, 0xcb, 0xba, 0xa9, 0x98, 0x87, 0x76, 0x65, 0x54, 0x43, 0x32, 0x21, 0x10}},
    {{0xc0},
     {0x20, 0x31, 0x42, 0x53, 0x64, 0x75, 0x86, 0x97, 0xa8, 0xb9, 0xca, 0xdb, 0xec, 0xfd, 0x0e, 0x1f},
     {0x1f, 0x0e, 0xfd, 0xec, 0xdb, 0xca, 0xb9, 0xa8, 0x97, 0x86, 0x75, 0x64, 0x53, 0x42, 0x31, 0x20}},
};

// A server: which one it is, the seeds that it was given, and the public shares.
typedef struct server {
    bool one;
    uint8_t seeds[REPORTS * TALLY_SEED_LENGTH];
    uint8_t public_shares[REPORTS * TALLY_PUBLIC_SHARE_LENGTH(N)];
} server;

// What a collector has gathered: the record and the list.
typedef struct collected {
    uint8_t record[1024];
    size_t record_length;
    uint8_t list[MOST_PREFIXES * TALLY_PACKED_LENGTH(N)];
    size_t list_length;
} collected;

// Leaves the program where a call was refused.
static void must_pass(const char *call, uint64_t number)
{
    if (number != TALLY_OK) {
        fprintf(stderr, "%s refused %llu\n", call, (unsigned long long)number);
        exit(EXIT_FAILURE);
    }
}

// An installation's report: each server gets one seed and the public share.
static void report(const installation *from, size_t i, server *zero, server *one)
{
    const size_t length = TALLY_PUBLIC_SHARE_LENGTH(N);
    uint8_t *public_share = zero->public_shares + i * length;
    tally_reply reply = tally_key(N, TALLY_EXPANDER_AES, 1, from->string, sizeof from->string, from->seed0, sizeof from->seed0,
                                  from->seed1, sizeof from->seed1, public_share, length);
    must_pass("tally_key", reply.number);
    memcpy(one->public_shares + i * length, public_share, length);
    memcpy(zero->seeds + i * TALLY_SEED_LENGTH, from->seed0, TALLY_SEED_LENGTH);
    memcpy(one->seeds + i * TALLY_SEED_LENGTH, from->seed1, TALLY_SEED_LENGTH);
}

// A server's share for a query; its length.
static size_t answer(const server *by, const uint8_t *query, size_t query_length, uint8_t *share, size_t space)
{
    tally_reply reply = tally_share(N, TALLY_EXPANDER_AES, by->one, by->seeds, sizeof by->seeds, by->public_shares,
                                    sizeof by->public_shares, query, query_length, share, space);
    must_pass("tally_share", reply.number);
    return (size_t)reply.length;
}

// A group number as 8 bytes, least significant first.
static void write_number(uint64_t number, uint8_t *to)
{
    for (int i = 0; i < 8; i++)
        to[i] = (uint8_t)(number >> (8 * i));
}

// The sum of two group numbers, modulo p.
static uint64_t add(uint64_t a, uint64_t b)
{
    uint64_t sum = a + b;
    return sum < a || TALLY_GROUP_ORDER <= sum ? sum - TALLY_GROUP_ORDER : sum;
}

// The bits of a packed string.
static void print_bits(const uint8_t *packed, size_t bits)
{
    for (size_t i = 0; i < bits; i++)
        putchar(packed[i / 8] >> (7 - i % 8) & 1 ? '1' : '0');
}

// Puts a query and its totals at the end of the record, and prints one line for each prefix.
static void note_level(collected *into, const uint8_t *query, size_t query_length, const uint8_t *share0, const uint8_t *share1,
                       size_t count)
{
    const size_t bits = ((size_t)query[0] << 8 | query[1]) + 1;
    if (sizeof into->record - into->record_length < query_length + TALLY_SHARE_LENGTH(count)) {
        fprintf(stderr, "the record does not fit\n");
        exit(EXIT_FAILURE);
    }
    memcpy(into->record + into->record_length, query, query_length);
    into->record_length += query_length;
    for (size_t i = 0; i < count; i++) {
        uint64_t total = add(tally_total(share0 + 8 * i), tally_total(share1 + 8 * i));
        write_number(total, into->record + into->record_length);
        into->record_length += 8;
        print_bits(query + 6 + i * TALLY_PACKED_LENGTH(bits), bits);
        printf(" %llu\n", (unsigned long long)total);
    }
}

// The collector: asks both servers level by level, until the list is found or nothing is kept.
static void collect(const server *zero, const server *one, collected *into)
{
    uint8_t query[TALLY_QUERY_LENGTH(N, MOST_PREFIXES)] = TALLY_FIRST_QUERY;
    size_t query_length = TALLY_QUERY_LENGTH(1, 2);
    tally_write_report_count(REPORTS, into->record);
    into->record_length = TALLY_HEADING_LENGTH;
    into->list_length = 0;
    for (;;) {
        uint8_t share0[TALLY_SHARE_LENGTH(MOST_PREFIXES)];
        uint8_t share1[TALLY_SHARE_LENGTH(MOST_PREFIXES)];
        uint8_t out[TALLY_QUERY_LENGTH(N, MOST_PREFIXES)];
        size_t length0 = answer(zero, query, query_length, share0, sizeof share0);
        size_t length1 = answer(one, query, query_length, share1, sizeof share1);
        tally_combine_reply reply =
            tally_combine(N, TALLY_UNWEIGHTED, T, query, query_length, share0, length0, share1, length1, out, sizeof out);
        must_pass("tally_combine", reply.number);
        note_level(into, query, query_length, share0, share1, length0 / 8);
        if (reply.kind == TALLY_KIND_NEXT) {
            query_length = (size_t)reply.length;
            memcpy(query, out, query_length);
            continue;
        }
        if (reply.kind == TALLY_KIND_LIST) {
            into->list_length = (size_t)reply.length;
            memcpy(into->list, out, into->list_length);
        }
        return;
    }
}

// Whether the whole search on the same reports gives the same record and list.
static bool search_agrees(const server *zero, const server *one, const collected *expected)
{
    size_t record_space = (size_t)tally_record_space(N, TALLY_UNWEIGHTED, T, REPORTS);
    size_t list_space = (size_t)tally_list_space(N, TALLY_UNWEIGHTED, T, REPORTS);
    // One byte more, so that no pointer is null where the space is 0.
    uint8_t *record = malloc(record_space + 1);
    uint8_t *list = malloc(list_space + 1);
    if (record == NULL || list == NULL) {
        fprintf(stderr, "no memory\n");
        exit(EXIT_FAILURE);
    }
    tally_found found = tally_search(N, TALLY_UNWEIGHTED, T, TALLY_EXPANDER_AES, zero->seeds, sizeof zero->seeds,
                                     zero->public_shares, sizeof zero->public_shares, one->seeds, sizeof one->seeds,
                                     one->public_shares, sizeof one->public_shares, record, record_space, list, list_space);
    must_pass("tally_search", found.number);
    bool agrees = found.record_length == expected->record_length && found.list_length == expected->list_length &&
                  memcmp(record, expected->record, expected->record_length) == 0 &&
                  memcmp(list, expected->list, expected->list_length) == 0;
    free(record);
    free(list);
    return agrees;
}

int main(void)
{
    server zero = {.one = false};
    server one = {.one = true};
    collected gathered;
    for (size_t i = 0; i < REPORTS; i++)
        report(&installations[i], i, &zero, &one);
    collect(&zero, &one, &gathered);
    for (size_t at = 0; at < gathered.list_length; at += TALLY_PACKED_LENGTH(N)) {
        printf("heavy ");
        print_bits(gathered.list + at, N);
        putchar('\n');
    }
    if (!search_agrees(&zero, &one, &gathered)) {
        fprintf(stderr, "the whole search differs\n");
        return EXIT_FAILURE;
    }
    printf("the whole search gives the same record and list\n");
    return EXIT_SUCCESS;
}
