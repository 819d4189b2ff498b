// What tally.h has of its own about weights: totals read as signed numbers, exact at both ends, and the texts of refusals; and that 12 stands in the
// place of 2 where a call is weighted.
#include <inttypes.h>
#include <stdio.h>
#include <stdlib.h>
#include "tally.h"

static void same(const char *what, int64_t expected, int64_t found)
{
    if (expected == found)
        return;
    printf("%s: %" PRId64 ", and not %" PRId64 "\n", what, found, expected);
    exit(EXIT_FAILURE);
}

// The number with which a call refuses: a search over no reports, and combining of two totals 0.
static uint64_t refused(bool weighted, uint64_t t)
{
    const uint8_t query[] = TALLY_FIRST_QUERY, share[TALLY_SHARE_LENGTH(2)] = {0};
    uint8_t record[TALLY_HEADING_LENGTH + TALLY_QUERY_LENGTH(1, 2) + TALLY_SHARE_LENGTH(2)];
    tally_found found = tally_search(1, weighted, t, TALLY_EXPANDER_AES, TALLY_EMPTY, 0, TALLY_EMPTY, 0, TALLY_EMPTY, 0, TALLY_EMPTY, 0, record, sizeof record,
                                     TALLY_EMPTY, 0);
    tally_combine_reply reply = tally_combine(1, weighted, t, query, sizeof query, share, sizeof share, share, sizeof share, TALLY_EMPTY, 0);
    same("combining refuses as the search does", (int64_t)found.number, (int64_t)reply.number);
    return found.number;
}

int main(void)
{
    const uint64_t p = TALLY_GROUP_ORDER, half = (p - 1) / 2;
    same("(p - 1) / 2", INT64_C(9223372034707292160), (int64_t)half);
    same("0", 0, tally_signed_total(0));
    same("(p - 1) / 2 as itself", (int64_t)half, tally_signed_total(half));
    same("(p + 1) / 2 as its negative", -(int64_t)half, tally_signed_total(half + 1));
    same("p - 32768", TALLY_WEIGHT_LEAST, tally_signed_total(p - 32768));
    same("p - 1", -1, tally_signed_total(p - 1));
    same("p", 0, tally_signed_total(p));
    same("p + 1", 1, tally_signed_total(p + 1));
    same("the largest word", INT64_C(4294967294), tally_signed_total(UINT64_MAX));

    const uint64_t thresholds[] = {0, 1, 65535, 65536, 2147483647, 2147483648, UINT64_MAX};
    for (size_t i = 0; i < sizeof thresholds / sizeof *thresholds; i++) {
        const uint64_t t = thresholds[i];
        same("a search that is not weighted", 1 <= t && t <= TALLY_THRESHOLD_MOST ? TALLY_OK : TALLY_REFUSED_THRESHOLD, (int64_t)refused(TALLY_UNWEIGHTED, t));
        same("a weighted search", 1 <= t && t <= TALLY_WEIGHTED_THRESHOLD_MOST ? TALLY_OK : TALLY_REFUSED_WEIGHTED_THRESHOLD, (int64_t)refused(TALLY_WEIGHTED, t));
    }
    for (uint64_t number = 0; number <= 15; number++)
        same("a number that has a text", number <= 14, tally_refusal_text(number)[0] != 'u');
    return EXIT_SUCCESS;
}
