// Vembuzsa's functions for C and C++: the calls of the proved library libcapi.a.
//
// An installation makes the public share of its string with tally_key and gives each server one of its two seeds and the public share. Its
// report has a weight, which is 1 where reports are counted. For a query each server makes its share with tally_share; where many machines share
// a server's work, each makes that of its own reports, and tally_add adds them. A server that keeps a list of nodes from one query to the next,
// begun with tally_roots, makes the same shares with tally_share_kept and goes down one level alone. A collector turns two shares into the next
// query or the list with tally_combine. tally_search does the whole search where one program holds both servers' reports. tally_exam does all of
// it for an exam text, and tally_respond writes that text's whole output, refusals too.
//
// This header needs C99 or later, or C++.
//
// What every call does:
// - It reads and writes only what it is lent: each area is a pointer and a length in bytes, or for a list of nodes how many nodes it has.
// - No pointer may be null, not even with length 0: TALLY_EMPTY can be lent there, for nodes TALLY_NODES_EMPTY, and several times in one call.
// - An area that is written may not overlap any other area of the same call; areas that are only read may overlap each other, and an area of
//   length 0 overlaps none.
// - It keeps nothing: no allocation, no state between calls, so calls from several threads are independent.
// - It returns number 0 on success, with how many bytes were written from the beginning of an area; bytes past them are unchanged.
// - Where it refuses, it returns the first number that applies, in the order 10, 1, 2 or 12, 3, 4, 5, 6, 7, 8, 9, 13, 14, 11, with lengths 0, and
//   every lent byte and node is then unchanged; with one exception: when tally_search refuses with 11, every byte of the record area becomes
//   zero. No call judges both 2 and 12: 12 stands in the place of 2 where the call is weighted.
// - tally_respond refuses with 11 alone: where 10, 1, 2 or 3 applies, it writes the line that names the number, and returns 0 and that line's
//   length.
// - It takes stack for each bit of n: a search with n = 256 was measured at 214 KiB on x86-64, as the kit before this one built it,
//   so a thread should have 256 KiB or more; tally_exam and tally_respond ran in 128 KiB.
// - The archive is not instrumented: a caller's sanitizer sees the caller's own reads and writes, and the library's where they go through a
//   memcpy or memset that the sanitizer has replaced, but no others inside a call, and one that looks for bytes never written may take what a
//   call wrote or returned for such.
//
//  number | cause of refusal
//  -------+---------------------------------------------------------------------------------------------------------------
//       1 | The string length n is not from 1 to 256.
//       2 | The threshold t is not from 1 to 65,535, and the call is not weighted.
//       3 | The expander is not 1 or 2.
//       4 | A lent input has the wrong length, seeds and public shares disagree in count, or the two servers' counts differ.
//       5 | There are more than 65,535 reports.
//       6 | A group number, in a public share or in a share, is p or more.
//       7 | Spare bits are set in a string or in a public share.
//       8 | The two servers' public shares differ.
//       9 | The query is not as laid out below, or is outside its limits, or its prefixes are longer than n; or the last query, where it has
//         | any bytes.
//      10 | The exam text is not as laid out below; only tally_exam returns it, and tally_respond writes it as text.
//      11 | What is to be written would not fit the lent space, or a next query would pass 131,070 prefixes.
//      12 | The threshold t is not from 1 to 2,147,483,647, and the call is weighted.
//      13 | There are fewer nodes than reports x prefixes of the last query or of the new one, or, in tally_roots, than seeds.
//      14 | The parent of a prefix, the prefix without its last bit, was not in the last query.
//
// How totals are read:
// - With honest reports the total of a prefix is the sum of the weights of those whose strings begin with it, its holders, modulo p; where every
//   weight is 1 it is how many these are.
// - In a search that is not weighted a total is a number from 0 to p - 1, and a prefix is kept when it is at least t. A report is honest there
//   only if its weight is 1.
// - In a weighted search a total up to (p - 1) / 2 reads as itself and a larger one as itself minus p, as tally_signed_total reads it, and a
//   prefix is kept when that is at least t. The weights of 65,535 reports add to no less than -2,147,450,880 and no more than 2,147,385,345, so
//   that every sum reads back exactly. Records and shares hold group numbers as they are: p - 5 for -5.
// - A weighted search goes below a prefix only where it is kept. So a string whose weights add to t or more is not in the list if one of its
//   prefixes of 1 to n bits has a sum below t, which negative weights of other strings make possible.
//
// How bytes are laid out:
// - A string of n bits, or a prefix, is packed in the fewest bytes, first bit highest, spare bits zero.
// - A group number is below p = 2^64 - 2^32 + 1 and takes 8 bytes, least significant first.
// - A seed has 16 bytes; several seeds stand one after the other, and so do several public shares, in the same order of reports.
// - A public share is the control bits, two for each of n levels, left then right, level by level, packed in the fewest bytes, lowest bit first,
//   spare bits zero; then for each level 16 bytes of seed correction and 8 of payload correction, a group number.
// - A query is 2 bytes with the prefix length minus one, big-endian; 4 bytes with how many prefixes there are, big-endian; then
//   the prefixes, strictly ascending.
// - A share is one group number for each prefix of its query, in order.
// - A list of nodes has a node for each report and each prefix of the last query: report by report in the order of the public shares, and of each
//   report the prefixes in the order of the query. At the roots, where the last query is no bytes, it has one node a report.
// - A record is the number of reports that the search was lent, 8 bytes, big-endian; then each query followed by its totals, one group number for
//   each prefix. Beware: the number of reports is big-endian, each total little-endian; tally_report_count and tally_total read them.
// - A list is the heavy strings, packed, ascending: those that at least t reports hold, or in a weighted search those of n bits all of whose
//   prefixes of 1 to n bits have holders' weights that add to t or more.
// - An exam text is a line `n t C e`, then C lines `string seed0 seed1`, and nothing after them: single spaces, and one newline at the end of
//   each line. n, t, C and e are decimal, at most 5 digits without leading zeros (zero is `0`); n and C are at most 32; e is the expander, and
//   where it is missing, with the space before it, it is 2. A string is n digits 0 or 1, a seed 32 hexadecimal digits in lower case. The text
//   has at most 4,096 bytes.
// - The answer to an exam text is a line for each queried prefix, its bits and its decimal total with a space between, in record order; then a
//   line `heavy` and the string, with a space between, for each string of the list. Each line ends in a newline.
// - The whole output for an exam text is its answer, or where 10, 1, 2 or 3 applies the one line `refused` and the number, with a space between.

#ifndef TALLY_H
#define TALLY_H

#include <stdbool.h>
#include <stddef.h>
#include <stdint.h>

#ifdef __cplusplus
extern "C" {
#endif

// The version of this header and of the library beside it.
#define TALLY_VERSION "0.5.0"

// ---- numbers

// The causes of refusal, and success.
#define TALLY_OK 0
#define TALLY_REFUSED_STRING_LENGTH 1
#define TALLY_REFUSED_THRESHOLD 2
#define TALLY_REFUSED_EXPANDER 3
#define TALLY_REFUSED_INPUT_LENGTH 4
#define TALLY_REFUSED_TOO_MANY_REPORTS 5
#define TALLY_REFUSED_GROUP_NUMBER 6
#define TALLY_REFUSED_SPARE_BITS 7
#define TALLY_REFUSED_PUBLIC_SHARES_DIFFER 8
#define TALLY_REFUSED_QUERY 9
#define TALLY_REFUSED_EXAM_TEXT 10
#define TALLY_REFUSED_SPACE 11
#define TALLY_REFUSED_WEIGHTED_THRESHOLD 12
#define TALLY_REFUSED_TOO_FEW_NODES 13
#define TALLY_REFUSED_NO_PARENT 14

// A sentence for each number that a call returns. It is plain C in this header and no part of the proved library.
static inline const char *tally_refusal_text(uint64_t number)
{
    switch (number) {
    case TALLY_OK:
        return "The call succeeded.";
    case TALLY_REFUSED_STRING_LENGTH:
        return "The string length is not from 1 to 256.";
    case TALLY_REFUSED_THRESHOLD:
        return "The threshold is not from 1 to 65,535.";
    case TALLY_REFUSED_EXPANDER:
        return "The expander is not 1 or 2.";
    case TALLY_REFUSED_INPUT_LENGTH:
        return "A lent input has the wrong length, seeds and public shares disagree in count, or the two servers' counts differ.";
    case TALLY_REFUSED_TOO_MANY_REPORTS:
        return "There are more than 65,535 reports.";
    case TALLY_REFUSED_GROUP_NUMBER:
        return "A group number, in a public share or in a share, is p or more.";
    case TALLY_REFUSED_SPARE_BITS:
        return "Spare bits are set in a string or in a public share.";
    case TALLY_REFUSED_PUBLIC_SHARES_DIFFER:
        return "The two servers' public shares differ.";
    case TALLY_REFUSED_QUERY:
        return "The query, or the last query, is not as laid out, is outside its limits, or its prefixes are longer than n.";
    case TALLY_REFUSED_EXAM_TEXT:
        return "The exam text is not as laid out.";
    case TALLY_REFUSED_SPACE:
        return "What is to be written would not fit the lent space, or a next query would pass 131,070 prefixes.";
    case TALLY_REFUSED_WEIGHTED_THRESHOLD:
        return "The weighted threshold is not from 1 to 2,147,483,647.";
    case TALLY_REFUSED_TOO_FEW_NODES:
        return "There are fewer nodes than reports x prefixes of the last query or of the new one, or at the roots than seeds.";
    case TALLY_REFUSED_NO_PARENT:
        return "The parent of a prefix was not in the last query.";
    default:
        return "unknown number";
    }
}

// The expanders: AES-128, and the classroom's, which hides nothing.
#define TALLY_EXPANDER_AES 1
#define TALLY_EXPANDER_CLASSROOM 2

// The kinds of answer of tally_combine; a refusal has none of the other three.
#define TALLY_KIND_REFUSED 0
#define TALLY_KIND_NEXT 1
#define TALLY_KIND_LIST 2
#define TALLY_KIND_ENDED 3

// Whether a search is weighted, for the argument of that name.
#define TALLY_UNWEIGHTED false
#define TALLY_WEIGHTED true

// The bounds; the least string length, threshold and number of prefixes is 1, the least number of reports 0. Every int16_t is a weight.
#define TALLY_BITS_MOST 256
#define TALLY_THRESHOLD_MOST 65535
#define TALLY_WEIGHTED_THRESHOLD_MOST 2147483647
#define TALLY_WEIGHT_LEAST (-32768)
#define TALLY_WEIGHT_MOST 32767
#define TALLY_REPORTS_MOST 65535
#define TALLY_PREFIXES_MOST 131070

// The bounds of an exam text: string length, reports, and bytes.
#define TALLY_EXAM_BITS_MOST 32
#define TALLY_EXAM_REPORTS_MOST 32
#define TALLY_EXAM_TEXT_MOST 4096

// The order p of the group.
#define TALLY_GROUP_ORDER UINT64_C(18446744069414584321)

// A total as a weighted search reads it: up to (p - 1) / 2 as itself, a larger one as itself minus p, also p and above, which are no totals.
// It is plain C in this header and no part of the proved library.
static inline int64_t tally_signed_total(uint64_t total)
{
    if (total <= (TALLY_GROUP_ORDER - 1) / 2)
        return (int64_t)total;
    if (total < TALLY_GROUP_ORDER)
        return -1 - (int64_t)(TALLY_GROUP_ORDER - 1 - total);
    return (int64_t)(total - TALLY_GROUP_ORDER);
}

// What to lend, with length 0, where there is nothing to read or to write: a pointer to a static byte that no call touches, since no pointer
// may be null.
static inline uint8_t *tally_empty(void)
{
    static uint8_t untouched;
    return &untouched;
}
#define TALLY_EMPTY tally_empty()

// ---- lengths in bytes: macros, since they give arrays their size; tally_record_space and tally_list_space, below, are calls of the library

// A seed, a block, and a group number.
#define TALLY_SEED_LENGTH 16
#define TALLY_BLOCK_LENGTH 16
#define TALLY_NUMBER_LENGTH 8

// A packed string or prefix of that many bits.
#define TALLY_PACKED_LENGTH(bits) (((size_t)(bits) + 7) / 8)

// The public share of one report of n bits.
#define TALLY_PUBLIC_SHARE_LENGTH(n) (((size_t)(n) + 3) / 4 + 24 * (size_t)(n))

// A query of count prefixes of that many bits.
#define TALLY_QUERY_LENGTH(bits, count) (6 + (size_t)(count) * TALLY_PACKED_LENGTH(bits))

// A share, or the totals, for a query of count prefixes.
#define TALLY_SHARE_LENGTH(count) (8 * (size_t)(count))

// The heading of a record, that is what stands before its first query: the number of reports, big-endian.
#define TALLY_HEADING_LENGTH 8

// The first query of every search, `0` and `1`, as the initializer of an array of 8 bytes.
#define TALLY_FIRST_QUERY {0x00, 0x00, 0x00, 0x00, 0x00, 0x02, 0x00, 0x80}

// Space that is enough for the answer to every exam text, and for its whole output: 64 lines of k + 4 bytes for each prefix length k from 1
// to 32, and 32 heavy strings in lines of 39 bytes.
#define TALLY_EXAM_SPACE 43232

// ---- the numbers of a record: plain C in this header, and no part of the proved library

// The number of reports of a record: its first 8 bytes, big-endian. It is for what tally_search wrote and returned 0 for: after 11 the area reads
// as that of no reports, after any other refusal as what it held before. Nothing is checked: where the number is above TALLY_REPORTS_MOST, the
// bytes are no record.
static inline uint64_t tally_report_count(const uint8_t *record)
{
    uint64_t number = 0;
    for (size_t i = 0; i < TALLY_HEADING_LENGTH; i++)
        number = number << 8 | record[i];
    return number;
}

// Writes the number of reports, TALLY_HEADING_LENGTH bytes, for a collector that keeps a record of the loop with tally_share and tally_combine.
static inline void tally_write_report_count(uint64_t reports, uint8_t *record)
{
    for (size_t i = TALLY_HEADING_LENGTH; 0 < i; i--) {
        record[i - 1] = (uint8_t)(reports & 0xff);
        reports >>= 8;
    }
}

// A total of a record, or another group number, such as one of a share: 8 bytes, little-endian. In a weighted search tally_signed_total reads it
// further.
static inline uint64_t tally_total(const uint8_t *bytes)
{
    uint64_t number = 0;
    for (size_t i = TALLY_NUMBER_LENGTH; 0 < i; i--)
        number = number << 8 | bytes[i - 1];
    return number;
}

// ---- nodes

// A node of one report at one prefix: what a server keeps to go further down from there. It has 17 bytes, without padding, and is as secret as
// the seed that it came from. The bit has to be 0 or 1, as what C stores into a bool is; the byte of any other value, read from a file for
// instance, may not be lent.
typedef struct tally_node {
    uint8_t seed[16];
    bool bit;
} tally_node;

// What to lend, with count 0, where there are no nodes: a pointer to a static node that no call touches, since no pointer may be null.
static inline tally_node *tally_nodes_empty(void)
{
    static tally_node untouched;
    return &untouched;
}
#define TALLY_NODES_EMPTY tally_nodes_empty()

// How many nodes a list needs for a query of that many prefixes. A call needs enough for the last query and for the new one.
#define TALLY_NODES_COUNT(reports, prefixes) ((size_t)(reports) * (size_t)(prefixes))

// ---- calls

// What most calls return: the number of the cause that refused, or 0; and how many bytes were written.
typedef struct tally_reply {
    uint64_t number;
    uint64_t length;
} tally_reply;

// What tally_combine returns: the number; the kind of answer; and how many bytes were written, 0 where the search ended.
typedef struct tally_combine_reply {
    uint64_t number;
    uint64_t kind;
    uint64_t length;
} tally_combine_reply;

// What tally_search returns: the number; and how many bytes of the record area and of the list area were written.
typedef struct tally_found {
    uint64_t number;
    uint64_t record_length;
    uint64_t list_length;
} tally_found;

// Writes block j of a seed under an expander.
// Reads: the seed, 16 bytes.
// Writes: 16 bytes of block.
// Refuses with 3; 4, the seed is not 16 bytes; 11, block has fewer than 16 bytes.
tally_reply tally_block(uint64_t expander,
                        const uint8_t *seed, size_t seed_length,
                        uint64_t j,
                        uint8_t *block, size_t block_length);

// Writes the public share of a string of n bits with a weight under two root seeds, which must come from a generator fit for keys. For a
// search that is not weighted the weight is 1; a wider number that is given for it is cut to 16 bits by C before the call.
// Reads: the packed string, TALLY_PACKED_LENGTH(n) bytes; the seed of server 0 and that of server 1, 16 bytes each.
// Writes: TALLY_PUBLIC_SHARE_LENGTH(n) bytes of public_share, that is ceil(n / 4) + 24 * n.
// Refuses with 1; 3; 4, the string or a seed has another length; 7, spare bits of the string are set; 11.
tally_reply tally_key(uint64_t n, uint64_t expander, int16_t weight,
                      const uint8_t *string, size_t string_length,
                      const uint8_t *seed0, size_t seed0_length,
                      const uint8_t *seed1, size_t seed1_length,
                      uint8_t *public_share, size_t public_share_length);

// Writes a server's share for a query: for each prefix in order the sum over all lent reports. The server is false for 0, true for 1.
// Reads: the server's own seeds, 16 bytes a report; the public shares, TALLY_PUBLIC_SHARE_LENGTH(n) bytes a report; the query.
// Writes: TALLY_SHARE_LENGTH(count) bytes of share, that is 8 for each prefix of the query.
// Refuses with 1; 3; 4, seeds or public shares are not whole or disagree in count; 5; 6; 7; 9; 11. Numbers 6 and 7 look at all levels of
// every lent public share.
tally_reply tally_share(uint64_t n, uint64_t expander, bool server,
                        const uint8_t *seeds, size_t seeds_length,
                        const uint8_t *public_shares, size_t public_shares_length,
                        const uint8_t *query, size_t query_length,
                        uint8_t *share, size_t share_length);

// Writes a list of nodes at the roots, where a server that keeps nodes begins: for each seed in order a node with that seed and the server's bit,
// false for 0, true for 1. The list's last query is then no bytes.
// Reads: the server's own seeds, 16 bytes a report.
// Writes: a node for each seed; nodes past them are unchanged.
// Returns the number alone. Refuses with 4, the seeds' length is no multiple of 16; 5; 13, there are fewer nodes than seeds.
uint64_t tally_roots(bool server,
                     const uint8_t *seeds, size_t seeds_length,
                     tally_node *nodes, size_t nodes_count);

// Writes a server's share for a query from kept nodes: goes down one level from the nodes of the last query, and leaves in the list the nodes of
// the new one. No seeds are lent, and there are as many reports as whole public shares.
// It is what tally_share writes for the new query, as long as reports, n, expander and server stay the same; the list began at the roots, with
// no bytes for the last query; and each later call is lent the list as the accepted call before left it, with that call's query as the last.
// The call cannot see whether that is so: other nodes give another share, and no refusal.
// Reads: the public shares, TALLY_PUBLIC_SHARE_LENGTH(n) bytes a report; the last query, or no bytes where the list is at the roots; the query,
// whose prefixes are children of prefixes of the last one, as those of every next query of tally_combine are; of the list, the first
// reports x prefixes of the last query. Between two calls the list may be moved, made longer or cut, as long as these stay.
// Writes: TALLY_SHARE_LENGTH(count) bytes of share, that is 8 for each prefix of the query; and reports x count nodes, while those past them are
// unchanged. The list needs TALLY_NODES_COUNT(reports, prefixes) nodes for the last query and for the new one, whichever has more.
// Refuses with 1; 3; 4, public shares are not whole; 5; 6; 7; 9, also where the last query is neither no bytes nor a query; 13; 14; 11. Numbers 6
// and 7 look at all levels of every lent public share. A refusal changes no node, so that the same list can be lent again.
tally_reply tally_share_kept(uint64_t n, uint64_t expander, bool server,
                             const uint8_t *public_shares, size_t public_shares_length,
                             const uint8_t *last_query, size_t last_query_length,
                             const uint8_t *query, size_t query_length,
                             tally_node *nodes, size_t nodes_count,
                             uint8_t *share, size_t share_length);

// Writes the sum of two shares of one server for one query: for each prefix in order the sum of its two numbers modulo p. Where they are what
// tally_share writes for two lists of reports, with the same n and expander and at most 65,535 reports together, it is what tally_share
// writes for both laid together.
// Reads: both shares, 8 bytes for each prefix.
// Writes: as many bytes of out as either share has.
// Refuses with 4, the shares' lengths differ or are no multiple of 8; 6; 11.
tally_reply tally_add(const uint8_t *share0, size_t share0_length,
                      const uint8_t *share1, size_t share1_length,
                      uint8_t *out, size_t out_length);

// Turns two servers' shares for a query into an answer. A prefix is kept when its total, the sum of its two numbers modulo p, is at least t;
// where weighted is true the total is first read as tally_signed_total reads it.
// Kinds: TALLY_KIND_NEXT, the next query with both children of each kept prefix; TALLY_KIND_LIST, at length n the list of kept strings,
// empty or not; TALLY_KIND_ENDED, before length n where nothing is kept; TALLY_KIND_REFUSED.
// Reads: the query; the share of server 0 and that of server 1, 8 bytes for each prefix.
// Writes, into out, where the query has prefixes of k bits and `kept` of them are kept: TALLY_QUERY_LENGTH(k + 1, 2 * kept) bytes for the next
// query, kept * TALLY_PACKED_LENGTH(n) for the list, none where the search ended.
// Refuses with 1; 2, or where weighted 12; 4, the shares' lengths differ, are no multiple of 8, or are not 8 for each prefix of a query that
// passes 9; 6; 9; 11, also where more than 65,535 prefixes are kept before length n.
tally_combine_reply tally_combine(uint64_t n, bool weighted, uint64_t t,
                                  const uint8_t *query, size_t query_length,
                                  const uint8_t *share0, size_t share0_length,
                                  const uint8_t *share1, size_t share1_length,
                                  uint8_t *out, size_t out_length);

// Space that is enough for the record of a search over this many honest reports: TALLY_HEADING_LENGTH bytes for the number of reports; and for
// each prefix length k from 1 to n, 6 bytes for the two fields of a query and TALLY_PACKED_LENGTH(k) + 8 bytes for each prefix, of which there
// are 2 at length 1 and then at most min(2^k, 2 * w), and no bytes where there are none. Here w is the most prefixes of one length that can be
// kept: floor(reports / t), and where weighted is true floor(reports / ceil(t / 32767)), since a weight is at most 32,767 and a kept prefix so
// has at least ceil(t / 32767) holders. It is 0 where n, t or the number of reports is outside its bounds, which the search refuses; within them
// it is never below 32, so that 0 means outside. The bounds of t are those of 2, or where weighted those of 12.
// It is a proved function of the library, as is tally_list_space: neither is lent anything, and neither refuses. No arguments overflow: with
// n = 256, 65,535 reports and t = 1, or where weighted any t up to 32,767, come the largest results, 803,460,134 for the record and 2,097,120
// for the list, which fit a size_t of 32 bits. Both are calls and no constant expressions, so the two areas are allocated.
uint64_t tally_record_space(uint64_t n, bool weighted, uint64_t t, uint64_t reports);

// Space that is enough for the list of such a search: w packed strings, not cut to the 2^n strings that there are. It is 0 where an argument is
// outside its bounds, and also where w is 0, since the reports are too few for any prefix to be kept, which is no error: the list is then empty,
// and TALLY_EMPTY can be lent for it, since malloc(0) may be null.
uint64_t tally_list_space(uint64_t n, bool weighted, uint64_t t, uint64_t reports);

// Does the whole search: asks the first query, and then what combining answers, weighted or not, until the list is found or nothing is kept; the
// list is then empty.
// Reads: each server's seeds, 16 bytes a report, and its public shares, TALLY_PUBLIC_SHARE_LENGTH(n) bytes a report.
// Writes: the record into record, that is the number of reports lent, 8 bytes, big-endian, also where there are none, and then each query
// followed by its totals; the list into list. tally_record_space(n, weighted, t, reports) and tally_list_space(n, weighted, t, reports) are
// enough for honest reports; ill-formed ones may need more.
// Refuses with 1; 2, or where weighted 12; 3; 4, seeds or public shares of a server are not whole or disagree in count, or the servers' counts
// differ; 5; 6; 7; 8; 11, and then makes every byte of the record area zero, while the list area is unchanged. With at least these two spaces 11
// means that the reports are not all honest, that is, not all what tally_key was given and wrote for one string of n bits with this expander, and
// where the search is not weighted with weight 1, each server lent its own seed: a search of honest reports is then accepted. Where more space
// lets the others pass, nothing is claimed of their list; and 0 does not say that all are honest.
tally_found tally_search(uint64_t n, bool weighted, uint64_t t, uint64_t expander,
                         const uint8_t *seeds0, size_t seeds0_length,
                         const uint8_t *public_shares0, size_t public_shares0_length,
                         const uint8_t *seeds1, size_t seeds1_length,
                         const uint8_t *public_shares1, size_t public_shares1_length,
                         uint8_t *record, size_t record_length,
                         uint8_t *list, size_t list_length);

// Answers an exam text: makes the keys of its strings with weight 1, does the whole search over them, which is not weighted, and writes the
// queries and totals of the record, and the list, as lines; the number of reports is not among them.
// Reads: the text, which need not end in a zero byte.
// Writes: the answer into out, without a zero byte at its end. TALLY_EXAM_SPACE bytes are always enough; every answer has at least 8.
// Refuses with 10, judged first; 1, n is 0; 2; 3; 11, out is too small for the whole answer.
tally_reply tally_exam(const uint8_t *text, size_t text_length,
                       uint8_t *out, size_t out_length);

// Writes the whole output for an exam text: what tally_exam answers, or the line of its refusal with 10, 1, 2 or 3. Where it writes that line it
// returns number 0, with the line's length, while tally_exam returns the number.
// Reads: the text, which need not end in a zero byte.
// Writes: the output into out, without a zero byte at its end. TALLY_EXAM_SPACE bytes are always enough; every output has at least 8.
// Refuses with 11 alone, out is too small for the whole output, whatever the text.
tally_reply tally_respond(const uint8_t *text, size_t text_length,
                          uint8_t *out, size_t out_length);

#ifdef __cplusplus
}
#endif

#endif
