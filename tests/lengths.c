// For every string length: the lengths that tally.h gives as macros are those that the calls write and ask for, and for two strings that part at
// their first bit, with t = 1, the space that the library names is what the search writes, byte for byte, weighted or not; the record begins with
// the number of reports. tally_report_count and tally_total read the number of reports and the totals that a search writes, and
// tally_write_report_count writes that number as it does. The largest and the least space are those that tally.h names.
#include <stdio.h>
#include <stdlib.h>
#include <string.h>
#include "tally.h"

#define REPORTS 2
#define READ_MOST 300

static uint8_t record[TALLY_HEADING_LENGTH + TALLY_BITS_MOST * (TALLY_QUERY_LENGTH(TALLY_BITS_MOST, 4) + TALLY_SHARE_LENGTH(4))];

static void same(const char *what, uint64_t n, uint64_t macro, uint64_t call)
{
    if (macro == call)
        return;
    printf("%s at n = %d: %d, and a call %d\n", what, (int)n, (int)macro, (int)call);
    exit(EXIT_FAILURE);
}

// Writes the public share of a string whose bits are all the same, and sees that no other length of the string passes.
static void key(uint64_t n, uint8_t bits, uint8_t *public_share, size_t room)
{
    uint8_t string[TALLY_PACKED_LENGTH(TALLY_BITS_MOST) + 1], seed[TALLY_SEED_LENGTH] = {0};
    size_t size = TALLY_PACKED_LENGTH(n);
    memset(string, bits, sizeof string);
    if (n % 8 != 0)
        string[size - 1] = (uint8_t)(bits << (8 - n % 8));
    tally_reply reply = tally_key(n, TALLY_EXPANDER_CLASSROOM, 1, string, size, seed, sizeof seed, seed, sizeof seed, public_share, room);
    same("TALLY_PUBLIC_SHARE_LENGTH", n, TALLY_PUBLIC_SHARE_LENGTH(n), reply.length);
    for (size_t other = size - 1; other <= size + 1; other += 2) {
        reply = tally_key(n, TALLY_EXPANDER_CLASSROOM, 1, string, other, seed, sizeof seed, seed, sizeof seed, public_share, room);
        same("TALLY_PACKED_LENGTH, another length", n, TALLY_REFUSED_INPUT_LENGTH, reply.number);
    }
}

// Plays the search, and compares each query, each share, the list and the record with the macros.
static void search(uint64_t n)
{
    uint8_t public_shares[REPORTS * TALLY_PUBLIC_SHARE_LENGTH(TALLY_BITS_MOST) + 1], seeds[REPORTS * TALLY_SEED_LENGTH] = {0};
    const uint8_t first[] = TALLY_FIRST_QUERY;
    uint8_t query[TALLY_QUERY_LENGTH(TALLY_BITS_MOST, 4) + 1] = TALLY_FIRST_QUERY, out[sizeof query], share0[TALLY_SHARE_LENGTH(4) + 1], share1[sizeof share0];
    size_t size = TALLY_PUBLIC_SHARE_LENGTH(n), query_length = TALLY_QUERY_LENGTH(1, 2), recorded = TALLY_HEADING_LENGTH;
    key(n, 0x00, public_shares, sizeof public_shares);
    key(n, 0xff, public_shares + size, sizeof public_shares - size);
    for (uint64_t k = 1; k <= n; k++) {
        uint64_t count = k == 1 ? 2 : 4;
        for (int server = 0; server < 2; server++) {
            tally_reply reply = tally_share(n, TALLY_EXPANDER_CLASSROOM, server == 1, seeds, sizeof seeds, public_shares, REPORTS * size, query, query_length,
                                            server == 1 ? share1 : share0, sizeof share0);
            same("TALLY_SHARE_LENGTH", n, TALLY_SHARE_LENGTH(count), reply.length);
        }
        recorded += query_length + TALLY_SHARE_LENGTH(count);
        tally_combine_reply reply = tally_combine(n, TALLY_UNWEIGHTED, 1, query, query_length, share0, TALLY_SHARE_LENGTH(count), share1,
                                                  TALLY_SHARE_LENGTH(count), out, sizeof out);
        same("the kind of answer", n, k < n ? TALLY_KIND_NEXT : TALLY_KIND_LIST, reply.kind);
        query_length = (size_t)reply.length;
        if (k < n)
            same("TALLY_QUERY_LENGTH", n, TALLY_QUERY_LENGTH(k + 1, 4), query_length);
        else
            same("the list in TALLY_PACKED_LENGTH", n, 2 * TALLY_PACKED_LENGTH(n), query_length);
        memcpy(query, out, query_length);
    }
    for (int kind = 0; kind < 2; kind++) {
        const bool weighted = kind == 1;
        const uint64_t record_space = tally_record_space(n, weighted, 1, REPORTS), list_space = tally_list_space(n, weighted, 1, REPORTS);
        tally_found found = tally_search(n, weighted, 1, TALLY_EXPANDER_CLASSROOM, seeds, sizeof seeds, public_shares, REPORTS * size, seeds, sizeof seeds,
                                         public_shares, REPORTS * size, record, (size_t)record_space, out, (size_t)list_space);
        same("the search in the named space", n, TALLY_OK, found.number);
        same("the record", n, recorded, found.record_length);
        for (size_t i = 0; i < TALLY_HEADING_LENGTH; i++)
            same("the number of reports, big-endian", n, i == TALLY_HEADING_LENGTH - 1 ? REPORTS : 0, record[i]);
        same("the first query after it", n, 0, memcmp(record + TALLY_HEADING_LENGTH, first, sizeof first) != 0);
        same("tally_record_space", n, record_space, found.record_length);
        same("tally_list_space", n, list_space, found.list_length);
    }
}

// Searches that many reports of the string 1, and compares the number of reports and the two totals that the record is read to have.
static void read_back(size_t reports)
{
    static uint8_t public_shares[READ_MOST * TALLY_PUBLIC_SHARE_LENGTH(1) + 1], seeds[READ_MOST * TALLY_SEED_LENGTH];
    const size_t size = TALLY_PUBLIC_SHARE_LENGTH(1), space = (size_t)tally_record_space(1, TALLY_UNWEIGHTED, 1, reports);
    uint8_t list[2];
    for (size_t i = 0; i < reports; i++)
        key(1, 0xff, public_shares + i * size, sizeof public_shares - i * size);
    tally_found found = tally_search(1, TALLY_UNWEIGHTED, 1, TALLY_EXPANDER_CLASSROOM, seeds, reports * TALLY_SEED_LENGTH, public_shares, reports * size, seeds,
                                     reports * TALLY_SEED_LENGTH, public_shares, reports * size, record, space, list, sizeof list);
    const uint8_t *totals = record + TALLY_HEADING_LENGTH + TALLY_QUERY_LENGTH(1, 2);
    same("a search of reports of one string", 1, TALLY_OK, found.number);
    same("its record", 1, TALLY_HEADING_LENGTH + TALLY_QUERY_LENGTH(1, 2) + TALLY_SHARE_LENGTH(2), found.record_length);
    same("tally_report_count", 1, reports, tally_report_count(record));
    uint8_t heading[TALLY_HEADING_LENGTH + 1] = {[TALLY_HEADING_LENGTH] = 7};
    tally_write_report_count(reports, heading);
    same("tally_write_report_count", 1, 0, memcmp(heading, record, TALLY_HEADING_LENGTH));
    same("no byte behind it", 1, 7, heading[TALLY_HEADING_LENGTH]);
    same("tally_total of 0", 1, 0, tally_total(totals));
    same("tally_total of 1", 1, reports, tally_total(totals + TALLY_NUMBER_LENGTH));
}

int main(void)
{
    const size_t numbers[] = {0, 1, 256, READ_MOST};
    for (size_t i = 0; i < sizeof numbers / sizeof *numbers; i++)
        read_back(numbers[i]);
    const uint8_t ends[] = {0, 0, 0, 0, 0xff, 0xff, 0xff, 0xff, 0, 0};
    same("tally_total of p - 1, and no byte after it", 1, 1, tally_total(ends) == TALLY_GROUP_ORDER - 1);
    same("tally_report_count of bytes that are no record", 1, 1, tally_report_count(ends + 2) == UINT64_C(0x0000ffffffff0000));
    for (uint64_t n = 1; n <= TALLY_BITS_MOST; n++)
        search(n);
    const uint64_t n = TALLY_BITS_MOST, most = TALLY_REPORTS_MOST;
    same("the largest tally_record_space", n, 803460134, tally_record_space(n, TALLY_UNWEIGHTED, 1, most));
    same("the largest tally_list_space", n, 2097120, tally_list_space(n, TALLY_UNWEIGHTED, 1, most));
    same("the least tally_record_space", 1, 32, tally_record_space(1, TALLY_UNWEIGHTED, TALLY_THRESHOLD_MOST, 0));
    same("tally_list_space, t above the reports", n, 0, tally_list_space(n, TALLY_UNWEIGHTED, 2, 1));
    same("the largest weighted tally_record_space", n, 803460134, tally_record_space(n, TALLY_WEIGHTED, TALLY_WEIGHT_MOST, most));
    same("the largest weighted tally_list_space", n, 2097120, tally_list_space(n, TALLY_WEIGHTED, TALLY_WEIGHT_MOST, most));
    same("the least weighted tally_record_space", 1, 32, tally_record_space(1, TALLY_WEIGHTED, TALLY_WEIGHTED_THRESHOLD_MOST, most));
    same("weighted tally_list_space, too few reports", n, 0, tally_list_space(n, TALLY_WEIGHTED, TALLY_WEIGHTED_THRESHOLD_MOST, most));
    return EXIT_SUCCESS;
}
