// Two servers, each with its reports on two machines. A machine makes the share of its own reports, tally_add adds the two, and the sum has to
// be the share of all. The collector checks in each round that the totals add up. At the end comes a search over no reports.
//
// From the top of the repository, after `tools/library`:
//
//     cc -std=c11 -O2 -Iinclude examples/c/split_server.c target/staticlib/libcapi.a -o target/split_server && target/split_server

#include <stdio.h>
#include <stdlib.h>
#include <string.h>

#include "tally.h"

// The string length, the threshold, the number of reports, and how many of them lie on the first machine.
#define N 2
#define T 2
#define REPORTS 5
#define FIRST_PART 2

// The most prefixes in one query: there are four strings of two bits.
#define MOST_PREFIXES 4

// The installations hold 01, 01, 11, 00 and 01.
static const uint8_t strings[REPORTS] = {0x40, 0x40, 0xc0, 0x00, 0x40};

// A server: which one it is, the seeds that it was given, and the public shares.
typedef struct server {
    bool one;
    uint8_t seeds[REPORTS * TALLY_SEED_LENGTH];
    uint8_t public_shares[REPORTS * TALLY_PUBLIC_SHARE_LENGTH(N)];
} server;

// Leaves the program where something is not as it must be.
static void must(bool holds, const char *subject, const char *sentence)
{
    if (!holds) {
        fprintf(stderr, "%s: %s\n", subject, sentence);
        exit(EXIT_FAILURE);
    }
}

// Leaves the program where a call was refused.
static void must_pass(const char *call, uint64_t number)
{
    must(number == TALLY_OK, call, tally_refusal_text(number));
}

// A numbered block in place of a random seed, so that each run is the same; an installation has to draw its seeds at random.
static void draw(uint64_t number, uint8_t *seed)
{
    static const uint8_t from[TALLY_SEED_LENGTH] = {9};
    must_pass("tally_block", tally_block(TALLY_EXPANDER_AES, from, sizeof from, number, seed, TALLY_SEED_LENGTH).number);
}

// Report i: each server gets one seed and the public share.
static void report(size_t i, server *zero, server *one)
{
    const size_t size = TALLY_PUBLIC_SHARE_LENGTH(N), seed = TALLY_SEED_LENGTH;
    draw(2 * i, zero->seeds + i * seed);
    draw(2 * i + 1, one->seeds + i * seed);
    must_pass("tally_key", tally_key(N, TALLY_EXPANDER_AES, 1, strings + i, 1, zero->seeds + i * seed, seed, one->seeds + i * seed, seed,
                                     zero->public_shares + i * size, size).number);
    memcpy(one->public_shares + i * size, zero->public_shares + i * size, size);
}

// The share of a server's reports from one place up to another; its length.
static size_t part(const server *by, size_t from, size_t to, const uint8_t *query, size_t query_length, uint8_t *share)
{
    const size_t size = TALLY_PUBLIC_SHARE_LENGTH(N), seed = TALLY_SEED_LENGTH;
    tally_reply reply = tally_share(N, TALLY_EXPANDER_AES, by->one, by->seeds + from * seed, (to - from) * seed,
                                    by->public_shares + from * size, (to - from) * size, query, query_length, share,
                                    TALLY_SHARE_LENGTH(MOST_PREFIXES));
    must_pass("tally_share", reply.number);
    return (size_t)reply.length;
}

// A server's share, each machine's added; its length.
static size_t answer(const server *by, const uint8_t *query, size_t query_length, uint8_t *share)
{
    uint8_t first[TALLY_SHARE_LENGTH(MOST_PREFIXES)], second[sizeof first], all[sizeof first];
    size_t first_length = part(by, 0, FIRST_PART, query, query_length, first);
    size_t second_length = part(by, FIRST_PART, REPORTS, query, query_length, second);
    tally_reply sum = tally_add(first, first_length, second, second_length, share, sizeof first);
    must_pass("tally_add", sum.number);
    must(part(by, 0, REPORTS, query, query_length, all) == sum.length && memcmp(share, all, sum.length) == 0, "the server",
         "the shares of its machines do not add to the share of all reports");
    return (size_t)sum.length;
}

// Total i of a query.
static uint64_t total(const uint8_t *totals, size_t i)
{
    return tally_total(totals + i * TALLY_NUMBER_LENGTH);
}

// The collector: asks level by level, and checks that the two totals of each pair of children add to their parent's.
static void collect(const server *zero, const server *one)
{
    uint8_t query[TALLY_QUERY_LENGTH(N, MOST_PREFIXES)] = TALLY_FIRST_QUERY, out[sizeof query];
    size_t query_length = TALLY_QUERY_LENGTH(1, 2);
    uint64_t parents[MOST_PREFIXES] = {REPORTS};
    for (;;) {
        uint8_t share0[TALLY_SHARE_LENGTH(MOST_PREFIXES)], share1[sizeof share0], totals[sizeof share0];
        size_t length0 = answer(zero, query, query_length, share0), length1 = answer(one, query, query_length, share1), kept = 0;
        must_pass("tally_add", tally_add(share0, length0, share1, length1, totals, sizeof totals).number);
        for (size_t i = 0; i < length0 / 8; i += 2) {
            uint64_t left = total(totals, i), right = total(totals, i + 1), parent = parents[i / 2];
            printf("%llu = %llu + %llu\n", (unsigned long long)parent, (unsigned long long)left, (unsigned long long)right);
            must(left <= parent && right == parent - left, "the collector", "the totals do not add up");
        }
        for (size_t i = 0; i < length0 / 8; i++)
            if (T <= total(totals, i))
                parents[kept++] = total(totals, i);
        tally_combine_reply reply = tally_combine(N, TALLY_UNWEIGHTED, T, query, query_length, share0, length0, share1, length1, out,
                                                  sizeof out);
        must_pass("tally_combine", reply.number);
        if (reply.kind != TALLY_KIND_NEXT) {
            for (size_t at = 0; at < reply.length; at += TALLY_PACKED_LENGTH(N))
                printf("heavy %d%d\n", out[at] >> 7 & 1, out[at] >> 6 & 1);
            return;
        }
        query_length = (size_t)reply.length;
        memcpy(query, out, query_length);
    }
}

int main(void)
{
    server zero = {.one = false}, one = {.one = true};
    for (size_t i = 0; i < REPORTS; i++)
        report(i, &zero, &one);
    must(memcmp(zero.public_shares, one.public_shares, sizeof zero.public_shares) == 0, "the firms", "their public shares differ");
    collect(&zero, &one);
    printf("the shares of 2 and of 3 reports add to the share of 5\n");

    uint8_t record[TALLY_HEADING_LENGTH + TALLY_QUERY_LENGTH(1, 2) + TALLY_SHARE_LENGTH(2)];
    const uint8_t *totals = record + TALLY_HEADING_LENGTH + TALLY_QUERY_LENGTH(1, 2);
    tally_found found = tally_search(1, TALLY_UNWEIGHTED, 1, TALLY_EXPANDER_AES, TALLY_EMPTY, 0, TALLY_EMPTY, 0, TALLY_EMPTY, 0, TALLY_EMPTY, 0,
                                     record, sizeof record, TALLY_EMPTY, 0);
    must_pass("tally_search", found.number);
    printf("no reports: totals %d and %d, %d heavy\n", (int)total(totals, 0), (int)total(totals, 1), (int)found.list_length);
    return EXIT_SUCCESS;
}
