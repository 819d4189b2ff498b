// What tally.h has of its own about kept nodes: the size of a node, lists of no nodes, and the numbers of refusals; and that a refusal changes no node, and an
// accepted call none past its own.
#include <stdio.h>
#include <stdlib.h>
#include <string.h>
#include "tally.h"

#define N 3
#define REPORTS 2
#define ROOM 10

static uint8_t seeds[REPORTS * TALLY_SEED_LENGTH], public_shares[REPORTS * TALLY_PUBLIC_SHARE_LENGTH(N)];
static const uint8_t first[] = TALLY_FIRST_QUERY;
static const uint8_t second[] = {0x00, 0x01, 0x00, 0x00, 0x00, 0x04, 0x00, 0x40, 0x80, 0xc0};

static void same(const char *what, uint64_t expected, uint64_t found)
{
    if (expected == found)
        return;
    printf("%s: %d, and not %d\n", what, (int)found, (int)expected);
    exit(EXIT_FAILURE);
}

// Nodes that are all bytes 0x5a with the bit 1, ahead of a call.
static void fill(tally_node *nodes)
{
    for (size_t i = 0; i < ROOM; i++) {
        memset(nodes[i].seed, 0x5a, sizeof nodes[i].seed);
        nodes[i].bit = true;
    }
}

// The share from kept nodes, which has to be refused with a number: nothing is then written.
static void refused(const char *what, uint64_t due, uint64_t n, size_t shares_length, const uint8_t *last, size_t last_length, const uint8_t *query,
                    size_t query_length, const tally_node *nodes, size_t count, size_t space)
{
    tally_node lent[ROOM];
    uint8_t share[TALLY_SHARE_LENGTH(4)], before[sizeof share];
    memcpy(lent, nodes, sizeof lent);
    memset(share, 7, sizeof share);
    memset(before, 7, sizeof before);
    tally_reply reply = tally_share_kept(n, TALLY_EXPANDER_AES, true, public_shares, shares_length, last, last_length, query, query_length, lent, count, share, space);
    same(what, due, reply.number);
    same("the length of a refusal", 0, reply.length);
    same("the nodes after a refusal", 0, memcmp(lent, nodes, sizeof lent) != 0);
    same("the share after a refusal", 0, memcmp(share, before, sizeof share) != 0);
}

// The share from kept nodes, which has to be that of the walk from the root; the nodes past its own are as they were.
static void answered(const uint8_t *last, size_t last_length, const uint8_t *query, size_t query_length, tally_node *nodes, size_t prefixes)
{
    uint8_t kept[TALLY_SHARE_LENGTH(4)], walked[sizeof kept];
    tally_node before[ROOM];
    size_t written = TALLY_NODES_COUNT(REPORTS, prefixes);
    memcpy(before, nodes, sizeof before);
    tally_reply reply = tally_share_kept(N, TALLY_EXPANDER_AES, true, public_shares, sizeof public_shares, last, last_length, query, query_length, nodes, ROOM,
                                         kept, sizeof kept);
    same("a share from kept nodes", TALLY_OK, reply.number);
    same("its length", TALLY_SHARE_LENGTH(prefixes), reply.length);
    reply = tally_share(N, TALLY_EXPANDER_AES, true, seeds, sizeof seeds, public_shares, sizeof public_shares, query, query_length, walked, sizeof walked);
    same("the share of the walk", TALLY_OK, reply.number);
    same("both shares agree", 0, memcmp(kept, walked, (size_t)reply.length) != 0);
    same("the nodes change", 1, memcmp(nodes, before, written * sizeof *nodes) != 0);
    same("the nodes past them stay", 0, memcmp(nodes + written, before + written, (ROOM - written) * sizeof *nodes) != 0);
}

int main(void)
{
    same("the bytes of a node", 17, sizeof(tally_node));
    same("TALLY_REFUSED_TOO_FEW_NODES", 13, TALLY_REFUSED_TOO_FEW_NODES);
    same("TALLY_REFUSED_NO_PARENT", 14, TALLY_REFUSED_NO_PARENT);

    const size_t size = TALLY_PUBLIC_SHARE_LENGTH(N), all = sizeof public_shares;
    for (size_t i = 0; i < REPORTS; i++) {
        const uint8_t string = (uint8_t)(0x60 + 0x20 * i), seed0[TALLY_SEED_LENGTH] = {9};
        uint8_t *seed1 = seeds + i * TALLY_SEED_LENGTH;
        seed1[0] = (uint8_t)(i + 1);
        tally_reply reply = tally_key(N, TALLY_EXPANDER_AES, 1, &string, 1, seed0, sizeof seed0, seed1, TALLY_SEED_LENGTH, public_shares + i * size, size);
        same("a key", TALLY_OK, reply.number);
    }

    tally_node nodes[ROOM], before[ROOM];
    fill(nodes);
    fill(before);
    same("roots of half a seed", TALLY_REFUSED_INPUT_LENGTH, tally_roots(true, seeds, 24, nodes, ROOM));
    same("roots in too few nodes", TALLY_REFUSED_TOO_FEW_NODES, tally_roots(true, seeds, sizeof seeds, nodes, REPORTS - 1));
    same("roots of no seeds", TALLY_OK, tally_roots(true, TALLY_EMPTY, 0, TALLY_NODES_EMPTY, 0));
    same("refused roots change no node", 0, memcmp(nodes, before, sizeof nodes) != 0);
    same("roots", TALLY_OK, tally_roots(true, seeds, sizeof seeds, nodes, ROOM));
    for (size_t i = 0; i < REPORTS; i++) {
        same("a root's seed", 0, memcmp(nodes[i].seed, seeds + i * TALLY_SEED_LENGTH, TALLY_SEED_LENGTH) != 0);
        same("a root's bit", 1, nodes[i].bit);
    }
    same("the nodes past the roots", 0, memcmp(nodes + REPORTS, before + REPORTS, sizeof nodes - REPORTS * sizeof *nodes) != 0);

    const uint8_t spare[] = {0x00, 0x00, 0x00, 0x00, 0x00, 0x01, 0x01};
    refused("n = 257", TALLY_REFUSED_STRING_LENGTH, 257, all, TALLY_EMPTY, 0, first, sizeof first, nodes, ROOM, 16);
    refused("half a public share", TALLY_REFUSED_INPUT_LENGTH, N, all - 1, TALLY_EMPTY, 0, first, sizeof first, nodes, ROOM, 16);
    refused("a last query with a spare bit", TALLY_REFUSED_QUERY, N, all, spare, sizeof spare, first, sizeof first, nodes, 0, 0);
    refused("no query", TALLY_REFUSED_QUERY, N, all, TALLY_EMPTY, 0, TALLY_EMPTY, 0, nodes, 0, 0);
    refused("too few nodes", TALLY_REFUSED_TOO_FEW_NODES, N, all, TALLY_EMPTY, 0, first, sizeof first, nodes, 3, 0);
    refused("too few nodes, and no parent", TALLY_REFUSED_TOO_FEW_NODES, N, all, TALLY_EMPTY, 0, second, sizeof second, nodes, 7, 0);
    refused("no parent", TALLY_REFUSED_NO_PARENT, N, all, TALLY_EMPTY, 0, second, sizeof second, nodes, 8, 0);
    refused("too little space", TALLY_REFUSED_SPACE, N, all, TALLY_EMPTY, 0, first, sizeof first, nodes, 4, 15);
    answered(TALLY_EMPTY, 0, first, sizeof first, nodes, 2);
    refused("the same query again", TALLY_REFUSED_NO_PARENT, N, all, first, sizeof first, first, sizeof first, nodes, ROOM, 16);
    answered(first, sizeof first, second, sizeof second, nodes, 4);

    uint8_t share[TALLY_SHARE_LENGTH(2)], zeros[sizeof share] = {0};
    memset(share, 7, sizeof share);
    tally_reply reply = tally_share_kept(N, TALLY_EXPANDER_AES, true, TALLY_EMPTY, 0, TALLY_EMPTY, 0, first, sizeof first, TALLY_NODES_EMPTY, 0, share, sizeof share);
    same("no reports", TALLY_OK, reply.number);
    same("their sums are zero", 0, memcmp(share, zeros, sizeof share) != 0);
    return EXIT_SUCCESS;
}
