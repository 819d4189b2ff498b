// Seven installations hold strings of four bits; two servers that keep their nodes and a collector find which strings at least two of them hold.
// Then the whole search on the same reports has to give the same record and list.
//
// From the top of the repository, after `tools/library`:
//
//     cc -std=c11 -O2 -Iinclude examples/c/kept_nodes.c target/staticlib/libcapi.a -o target/kept_nodes && target/kept_nodes

#include <stdio.h>
#include <stdlib.h>
#include <string.h>

#include "tally.h"

// The string length, the threshold and the number of reports.
#define N 4
#define T 2
#define REPORTS 7

// The most prefixes in one query, and the most that a server answers for: two children of each prefix that at least T of the reports hold.
#define MOST_PREFIXES (2 * (REPORTS / T))

// The strings, packed: 0110 twice, 1011 twice, 0001, 0010 and 1100.
static const uint8_t strings[REPORTS] = {0x60, 0xb0, 0x10, 0x60, 0x20, 0xc0, 0xb0};

// What both servers hold.
static uint8_t public_shares[REPORTS * TALLY_PUBLIC_SHARE_LENGTH(N)];

// A server: which one it is, its seeds, and what it keeps from one query to the next: its list of nodes, and the last query.
typedef struct server {
    bool one;
    uint8_t seeds[REPORTS * TALLY_SEED_LENGTH];
    tally_node *nodes;
    size_t nodes_count;
    uint8_t last_query[TALLY_QUERY_LENGTH(N, MOST_PREFIXES)];
    size_t last_query_length;
} server;

// What a collector has gathered: the record and the list.
typedef struct collected {
    uint8_t record[TALLY_HEADING_LENGTH + N * (TALLY_QUERY_LENGTH(N, MOST_PREFIXES) + TALLY_SHARE_LENGTH(MOST_PREFIXES))];
    size_t record_length;
    uint8_t list[MOST_PREFIXES * TALLY_PACKED_LENGTH(N)];
    size_t list_length;
} collected;

// Leaves the program where a call was refused.
static void must_pass(const char *call, uint64_t number)
{
    if (number != TALLY_OK) {
        fprintf(stderr, "%s: %s\n", call, tally_refusal_text(number));
        exit(EXIT_FAILURE);
    }
}

// Leaves the program where there is no memory.
static void *must_have(void *memory)
{
    if (memory == NULL) {
        fprintf(stderr, "no memory\n");
        exit(EXIT_FAILURE);
    }
    return memory;
}

// A numbered block in place of a random seed, so that each run is the same; an installation has to draw its seeds at random.
static void draw(uint64_t number, uint8_t *seed)
{
    static const uint8_t from[TALLY_SEED_LENGTH] = {2};
    must_pass("tally_block", tally_block(TALLY_EXPANDER_AES, from, sizeof from, number, seed, TALLY_SEED_LENGTH).number);
}

// Report i: each server gets one seed, and both the public share.
static void report(size_t i, server *zero, server *one)
{
    uint8_t *seed0 = zero->seeds + i * TALLY_SEED_LENGTH, *seed1 = one->seeds + i * TALLY_SEED_LENGTH;
    draw(2 * i, seed0);
    draw(2 * i + 1, seed1);
    tally_reply reply = tally_key(N, TALLY_EXPANDER_AES, 1, &strings[i], 1, seed0, TALLY_SEED_LENGTH, seed1, TALLY_SEED_LENGTH,
                                  public_shares + i * TALLY_PUBLIC_SHARE_LENGTH(N), TALLY_PUBLIC_SHARE_LENGTH(N));
    must_pass("tally_key", reply.number);
}

// How many prefixes a query has; none where it is too short to say so.
static size_t prefixes(const uint8_t *query, size_t query_length)
{
    if (query_length < 6)
        return 0;
    return (size_t)query[2] << 24 | (size_t)query[3] << 16 | (size_t)query[4] << 8 | query[5];
}

// Makes a server's list long enough for a number of prefixes, if they are no more than this server answers for; the nodes that are in it stay.
static void make_room(server *by, size_t count)
{
    size_t needed = TALLY_NODES_COUNT(REPORTS, count);
    if (by->nodes_count < needed && count <= MOST_PREFIXES) {
        by->nodes = must_have(realloc(by->nodes, needed * sizeof *by->nodes));
        by->nodes_count = needed;
    }
}

// Puts a server's list at the roots: its last query is then no bytes.
static void begin(server *by)
{
    make_room(by, 1);
    must_pass("tally_roots", tally_roots(by->one, by->seeds, sizeof by->seeds, by->nodes, by->nodes_count));
    by->last_query_length = 0;
}

// A server's reply to a query, from the nodes that it kept; where it accepts, the query is its last one from then on.
static tally_reply answer(server *by, const uint8_t *query, size_t query_length, uint8_t *share, size_t space)
{
    make_room(by, prefixes(query, query_length));
    tally_reply reply = tally_share_kept(N, TALLY_EXPANDER_AES, by->one, public_shares, sizeof public_shares, by->last_query,
                                         by->last_query_length, query, query_length, by->nodes, by->nodes_count, share, space);
    if (reply.number == TALLY_OK) {
        memcpy(by->last_query, query, query_length);
        by->last_query_length = query_length;
    }
    return reply;
}

// The bits of a packed string.
static void print_bits(const uint8_t *packed, size_t bits)
{
    for (size_t i = 0; i < bits; i++)
        putchar(packed[i / 8] >> (7 - i % 8) & 1 ? '1' : '0');
}

// Puts a query and its totals at the end of the record, and prints one line for each prefix.
static void note_level(collected *into, const uint8_t *query, size_t query_length, const uint8_t *totals)
{
    const size_t bits = ((size_t)query[0] << 8 | query[1]) + 1, count = prefixes(query, query_length);
    memcpy(into->record + into->record_length, query, query_length);
    into->record_length += query_length;
    memcpy(into->record + into->record_length, totals, TALLY_SHARE_LENGTH(count));
    into->record_length += TALLY_SHARE_LENGTH(count);
    for (size_t i = 0; i < count; i++) {
        print_bits(query + 6 + i * TALLY_PACKED_LENGTH(bits), bits);
        printf(" %llu\n", (unsigned long long)tally_total(totals + i * TALLY_NUMBER_LENGTH));
    }
    printf("%d prefixes, %d nodes kept by each server\n", (int)count, (int)TALLY_NODES_COUNT(REPORTS, count));
}

// The collector: asks both servers level by level, until the list is found or nothing is kept.
static void collect(server *zero, server *one, collected *into)
{
    uint8_t query[TALLY_QUERY_LENGTH(N, MOST_PREFIXES)] = TALLY_FIRST_QUERY;
    size_t query_length = TALLY_QUERY_LENGTH(1, 2);
    tally_write_report_count(REPORTS, into->record);
    into->record_length = TALLY_HEADING_LENGTH;
    for (;;) {
        uint8_t share0[TALLY_SHARE_LENGTH(MOST_PREFIXES)], share1[sizeof share0], totals[sizeof share0], out[sizeof query];
        tally_reply reply0 = answer(zero, query, query_length, share0, sizeof share0);
        must_pass("tally_share_kept", reply0.number);
        tally_reply reply1 = answer(one, query, query_length, share1, sizeof share1);
        must_pass("tally_share_kept", reply1.number);
        tally_reply sum = tally_add(share0, (size_t)reply0.length, share1, (size_t)reply1.length, totals, sizeof totals);
        must_pass("tally_add", sum.number);
        tally_combine_reply reply = tally_combine(N, TALLY_UNWEIGHTED, T, query, query_length, share0, (size_t)reply0.length, share1,
                                                  (size_t)reply1.length, out, sizeof out);
        must_pass("tally_combine", reply.number);
        note_level(into, query, query_length, totals);
        if (reply.kind == TALLY_KIND_NEXT) {
            query_length = (size_t)reply.length;
            memcpy(query, out, query_length);
            continue;
        }
        if (reply.kind == TALLY_KIND_LIST) {
            into->list_length = (size_t)reply.length;
            memcpy(into->list, out, into->list_length);
        }
        return;
    }
}

// Whether the whole search on the same reports gives the same record and list.
static bool search_agrees(const server *zero, const server *one, const collected *expected)
{
    size_t record_space = (size_t)tally_record_space(N, TALLY_UNWEIGHTED, T, REPORTS);
    size_t list_space = (size_t)tally_list_space(N, TALLY_UNWEIGHTED, T, REPORTS);
    uint8_t *record = must_have(malloc(record_space)), *list = must_have(malloc(list_space));
    tally_found found = tally_search(N, TALLY_UNWEIGHTED, T, TALLY_EXPANDER_AES, zero->seeds, sizeof zero->seeds, public_shares,
                                     sizeof public_shares, one->seeds, sizeof one->seeds, public_shares, sizeof public_shares, record,
                                     record_space, list, list_space);
    must_pass("tally_search", found.number);
    bool agrees = found.record_length == expected->record_length && found.list_length == expected->list_length &&
                  memcmp(record, expected->record, expected->record_length) == 0 &&
                  memcmp(list, expected->list, expected->list_length) == 0;
    free(record);
    free(list);
    return agrees;
}

int main(void)
{
    static server zero = {.one = false}, one = {.one = true};
    static collected gathered;
    for (size_t i = 0; i < REPORTS; i++)
        report(i, &zero, &one);
    begin(&zero);
    begin(&one);
    collect(&zero, &one, &gathered);
    for (size_t at = 0; at < gathered.list_length; at += TALLY_PACKED_LENGTH(N)) {
        printf("heavy ");
        print_bits(gathered.list + at, N);
        putchar('\n');
    }
    if (!search_agrees(&zero, &one, &gathered)) {
        fprintf(stderr, "the whole search differs\n");
        return EXIT_FAILURE;
    }
    printf("the whole search gives the same record and list\n");
    const uint8_t first[] = TALLY_FIRST_QUERY;
    uint8_t share[TALLY_SHARE_LENGTH(2)];
    uint64_t number = answer(&zero, first, sizeof first, share, sizeof share).number;
    printf("the first query once more: %s\n", tally_refusal_text(number));
    begin(&zero);
    must_pass("tally_share_kept", answer(&zero, first, sizeof first, share, sizeof share).number);
    printf("and from the roots again it is answered\n");
    free(zero.nodes);
    free(one.nodes);
    return EXIT_SUCCESS;
}
