// Measures builds of the library beside each other in one process. The script `run` beside it makes the shared libraries and calls it:
//
//     beside NAME=LIBRARY ..                      prints a table of times, a column for each build
//     beside --rows NAME=LIBRARY ..               prints a line for each row of that table: its word, how many calls count it well, its title
//     beside --count ROW CALLS NAME=LIBRARY       makes that many calls of one row and prints nothing, for a program that counts instructions
//
// All outputs are compared with those of the first build; where one differs the program says so and its status is 1.

#define _POSIX_C_SOURCE 200809L

#include <dlfcn.h>
#include <stdio.h>
#include <stdlib.h>
#include <string.h>
#include <time.h>

#include "tally.h"

// The string length, the threshold and the number of reports, and the most builds that are measured.
#define N 32
#define T 2
#define REPORTS 100
#define MOST_BUILDS 8

// The length of a public share, and the most that the record and the list of a search have.
#define KEY_LENGTH TALLY_PUBLIC_SHARE_LENGTH(N)
#define MOST_PREFIXES (2 * (REPORTS / T))
#define RECORD_LENGTH (TALLY_HEADING_LENGTH + N * (TALLY_QUERY_LENGTH(N, MOST_PREFIXES) + TALLY_SHARE_LENGTH(MOST_PREFIXES)))
#define LIST_LENGTH (REPORTS / T * TALLY_PACKED_LENGTH(N))

// A build: its name, its calls, and two blocks under one key as the compiler passes them: by aes::encrypt_two, which is lent both blocks, or by
// expander::two_blocks, which is given the expander, 0 for AES, and both numbers. Either is NULL where the compiler left no such function.
typedef struct build {
    const char *name;
    __typeof__(tally_block) *block;
    __typeof__(tally_key) *key;
    __typeof__(tally_share) *share;
    __typeof__(tally_share_kept) *share_kept;
    __typeof__(tally_search) *search;
    void (*aes_two)(uint8_t *out, const uint8_t *key, const uint8_t *first, const uint8_t *second);
    void (*expander_two)(uint8_t *out, uint8_t expander, const uint8_t *seed, uint64_t i, uint64_t j);
} build;

// A row of the table: its word and title; what runs it a number of times, writes its last output and returns that output's length; how many
// calls a round has, how many rounds there are, and how many calls count its instructions.
typedef struct row {
    const char *word, *title;
    size_t (*run)(const build *by, size_t calls, uint8_t *out);
    size_t calls, rounds, counted;
} row;

// The string of the first report, and queries of it, of it and the string beside it, and of their parent.
static const uint8_t string[] = {0x01, 0x23, 0x45, 0x67};
static const uint8_t of_string[] = {0, N - 1, 0, 0, 0, 1, 0x01, 0x23, 0x45, 0x67};
static const uint8_t of_children[] = {0, N - 1, 0, 0, 0, 2, 0x01, 0x23, 0x45, 0x66, 0x01, 0x23, 0x45, 0x67};
static const uint8_t of_parent[] = {0, N - 2, 0, 0, 0, 1, 0x01, 0x23, 0x45, 0x66};

// The reports: both servers' seeds and the public shares.
static uint8_t seeds0[REPORTS * TALLY_SEED_LENGTH], seeds1[REPORTS * TALLY_SEED_LENGTH], public_shares[REPORTS * KEY_LENGTH];

// Leaves the program where something is not as it must be.
static void must(bool holds, const char *subject, const char *sentence)
{
    if (!holds) {
        fprintf(stderr, "beside: %s: %s\n", subject, sentence);
        exit(EXIT_FAILURE);
    }
}

// Leaves the program where a build refused a call.
static void must_pass(const build *by, uint64_t number)
{
    must(number == TALLY_OK, by->name, tally_refusal_text(number));
}

// Blocks with a fresh key each: the seed of a call is the block that the call before it gave.
static size_t run_block(const build *by, size_t calls, uint8_t *out)
{
    uint8_t seed[TALLY_SEED_LENGTH] = {7};
    for (size_t j = 0; j < calls; j++) {
        must_pass(by, by->block(TALLY_EXPANDER_AES, seed, sizeof seed, j, out, TALLY_BLOCK_LENGTH).number);
        memcpy(seed, out, sizeof seed);
    }
    return TALLY_BLOCK_LENGTH;
}

// Blocks 2 and 3 of one seed, which comes from either block of the call before it in turn.
static size_t run_two(const build *by, size_t calls, uint8_t *out)
{
    static const uint8_t first[TALLY_BLOCK_LENGTH] = {[15] = 2}, second[TALLY_BLOCK_LENGTH] = {[15] = 3};
    uint8_t seed[TALLY_SEED_LENGTH] = {7};
    for (size_t j = 0; j < calls; j++) {
        if (by->aes_two != NULL)
            by->aes_two(out, seed, first, second);
        else
            by->expander_two(out, 0, seed, 2, 3);
        memcpy(seed, out + j % 2 * TALLY_BLOCK_LENGTH, sizeof seed);
    }
    return 2 * TALLY_BLOCK_LENGTH;
}

// Keys of one string: the first seed of a call is the last seed correction of the key before it.
static size_t run_key(const build *by, size_t calls, uint8_t *out)
{
    uint8_t seed0[TALLY_SEED_LENGTH] = {1}, seed1[TALLY_SEED_LENGTH] = {2};
    for (size_t j = 0; j < calls; j++) {
        must_pass(by, by->key(N, TALLY_EXPANDER_AES, 1, string, sizeof string, seed0, sizeof seed0, seed1, sizeof seed1, out, KEY_LENGTH).number);
        memcpy(seed0, out + KEY_LENGTH - 24, sizeof seed0);
    }
    return KEY_LENGTH;
}

// Shares of one report for a query: the seed of a call begins with the number that the call before it gave.
static size_t run_share(const build *by, size_t calls, const uint8_t *query, size_t query_length, uint8_t *out)
{
    const size_t length = TALLY_SHARE_LENGTH(query[5]);
    uint8_t seed[TALLY_SEED_LENGTH] = {3};
    for (size_t j = 0; j < calls; j++) {
        tally_reply reply = by->share(N, TALLY_EXPANDER_AES, false, seed, sizeof seed, public_shares, KEY_LENGTH, query, query_length, out, length);
        must_pass(by, reply.number);
        memcpy(seed, out, TALLY_NUMBER_LENGTH);
    }
    return length;
}

// Shares at one prefix.
static size_t run_one_prefix(const build *by, size_t calls, uint8_t *out)
{
    return run_share(by, calls, of_string, sizeof of_string, out);
}

// Shares at both children of a prefix.
static size_t run_children(const build *by, size_t calls, uint8_t *out)
{
    return run_share(by, calls, of_children, sizeof of_children, out);
}

// Shares at both children of a prefix from its kept node: that of a call is the left child's node of the call before it.
static size_t run_kept(const build *by, size_t calls, uint8_t *out)
{
    tally_node nodes[2] = {{.seed = {4}}};
    for (size_t j = 0; j < calls; j++) {
        tally_reply reply = by->share_kept(N, TALLY_EXPANDER_AES, false, public_shares, KEY_LENGTH, of_parent, sizeof of_parent, of_children,
                                           sizeof of_children, nodes, 2, out, TALLY_SHARE_LENGTH(2));
        must_pass(by, reply.number);
    }
    memcpy(out + TALLY_SHARE_LENGTH(2), nodes, sizeof nodes);
    return TALLY_SHARE_LENGTH(2) + sizeof nodes;
}

// How many bytes stand before the first query of a record: those of the number of reports, or none where the build is older than 0.5.0. The first
// query is no number of reports, since it would be above 65,535.
static size_t before_queries(const uint8_t *record)
{
    static const uint8_t first_query[] = TALLY_FIRST_QUERY;
    return memcmp(record, first_query, sizeof first_query) == 0 ? 0 : TALLY_HEADING_LENGTH;
}

// Whole searches of the same reports, into areas that are cleared before each; the output is the record from its first query on, and the list.
static size_t run_search(const build *by, size_t calls, uint8_t *out)
{
    tally_found found = {0};
    if (calls == 0)
        return 0;
    for (size_t j = 0; j < calls; j++) {
        memset(out, 0, RECORD_LENGTH + LIST_LENGTH);
        found = by->search(N, TALLY_UNWEIGHTED, T, TALLY_EXPANDER_AES, seeds0, sizeof seeds0, public_shares, sizeof public_shares, seeds1,
                           sizeof seeds1, public_shares, sizeof public_shares, out, RECORD_LENGTH, out + RECORD_LENGTH, LIST_LENGTH);
        must_pass(by, found.number);
        must(found.list_length != 0, by->name, "the search found no string");
    }
    const size_t before = before_queries(out), queries = (size_t)found.record_length - before;
    memmove(out, out + before, queries);
    memmove(out + queries, out + RECORD_LENGTH, (size_t)found.list_length);
    return queries + (size_t)found.list_length;
}

// The table. A round is far shorter than the time for which the system lets a program run, except that of a search.
static const row rows[] = {
    {"block", "one block, fresh key", run_block, 2000, 256, 100},
    {"two", "two blocks under one key", run_two, 1000, 256, 100},
    {"key", "one key, n = 32", run_key, 10, 256, 10},
    {"share", "one server's share of one report, one prefix of 32 bits, n = 32", run_one_prefix, 30, 256, 10},
    {"children", "one server's share of one report, both children of a prefix, n = 32", run_children, 30, 256, 10},
    {"kept", "the same with kept nodes", run_kept, 300, 256, 100},
    {"search", "a whole search, C = 100, n = 32, t = 2", run_search, 1, 5, 1},
};
#define ROWS (sizeof rows / sizeof *rows)

// A call of a build, by its name.
static void *call(void *library, const char *name)
{
    void *found = dlsym(library, name);
    must(found != NULL, name, "the library does not have it");
    return found;
}

// Whether a build has a function for two blocks under one key that gives the blocks that tally_block gives.
static bool has_two(const build *by)
{
    static const uint8_t seed[TALLY_SEED_LENGTH] = {7};
    uint8_t both[2 * TALLY_BLOCK_LENGTH], expected[2 * TALLY_BLOCK_LENGTH];
    if (by->aes_two == NULL && by->expander_two == NULL)
        return false;
    for (size_t j = 0; j < 2; j++) {
        tally_reply reply = by->block(TALLY_EXPANDER_AES, seed, sizeof seed, 2 + j, expected + j * TALLY_BLOCK_LENGTH, TALLY_BLOCK_LENGTH);
        must_pass(by, reply.number);
    }
    run_two(by, 1, both);
    return memcmp(both, expected, sizeof both) == 0;
}

// The build of an argument NAME=LIBRARY.
static build opened(char *argument)
{
    char *path = strchr(argument, '=');
    must(path != NULL, argument, "not NAME=LIBRARY");
    *path++ = '\0';
    void *library = dlopen(path, RTLD_NOW | RTLD_LOCAL);
    must(library != NULL, argument, library == NULL ? dlerror() : "");
    return (build){
        .name = argument,
        .block = call(library, "tally_block"),
        .key = call(library, "tally_key"),
        .share = call(library, "tally_share"),
        .share_kept = call(library, "tally_share_kept"),
        .search = call(library, "tally_search"),
        .aes_two = dlsym(library, "aes_two_blocks"),
        .expander_two = dlsym(library, "expander_two_blocks"),
    };
}

// A numbered block in place of random bytes, so that each run is the same.
static void draw(const build *by, uint64_t number, uint8_t *block)
{
    static const uint8_t from[TALLY_SEED_LENGTH] = {5};
    must_pass(by, by->block(TALLY_EXPANDER_AES, from, sizeof from, number, block, TALLY_BLOCK_LENGTH).number);
}

// Makes the reports: ten strings are held by two installations each and the others by one; the first is the one that is asked for.
static void make_reports(const build *by)
{
    for (size_t i = 0; i < REPORTS; i++) {
        uint8_t held[TALLY_BLOCK_LENGTH], *seed0 = seeds0 + i * TALLY_SEED_LENGTH, *seed1 = seeds1 + i * TALLY_SEED_LENGTH;
        draw(by, i < 20 ? i / 2 : i, held);
        if (i < 2)
            memcpy(held, string, sizeof string);
        draw(by, REPORTS + 2 * i, seed0);
        draw(by, REPORTS + 2 * i + 1, seed1);
        must_pass(by, by->key(N, TALLY_EXPANDER_AES, 1, held, sizeof string, seed0, TALLY_SEED_LENGTH, seed1, TALLY_SEED_LENGTH,
                              public_shares + i * KEY_LENGTH, KEY_LENGTH).number);
    }
}

// Nanoseconds of the processor that this program has had; those in which another program had the core are not among them.
static double now(void)
{
    struct timespec moment;
    clock_gettime(CLOCK_PROCESS_CPUTIME_ID, &moment);
    return (double)moment.tv_sec * 1e9 + (double)moment.tv_nsec;
}

// One round of a row: each build in turn makes as many calls, keeps its quickest time of a call, and gives what the first build gave. The stack
// begins that many bytes lower, since code may be slow at a few of its places.
static void run_round(const row *at, size_t calls, size_t lower, const build *builds, size_t count, double *best)
{
    static uint8_t first[RECORD_LENGTH + LIST_LENGTH], other[sizeof first];
    size_t first_length = 0;
    volatile uint8_t passed[lower + 1];
    passed[0] = 0;
    (void)passed[0];
    for (size_t b = 0; b < count; b++) {
        uint8_t *out = b == 0 ? first : other;
        double start = now();
        size_t length = at->run(&builds[b], calls, out);
        double took = (now() - start) / (double)calls;
        if (took < best[b])
            best[b] = took;
        if (b == 0)
            first_length = length;
        if (length != first_length || memcmp(out, first, length) != 0) {
            printf("%s: the output of %s differs from that of %s\n", at->title, builds[b].name, builds[0].name);
            exit(EXIT_FAILURE);
        }
    }
}

// A time as people read it.
static void print_time(double ns)
{
    if (ns < 1e4)
        printf("%.*f ns", ns < 1e3 ? 1 : 0, ns);
    else if (ns < 1e6)
        printf("%.1f µs", ns / 1e3);
    else if (ns < 1e9)
        printf("%.1f ms", ns / 1e6);
    else
        printf("%.2f s", ns / 1e9);
}

// Measures a row and prints it: the first build's time, and for each other its time and the ratio to the first.
static void print_row(const row *at, const build *builds, size_t count)
{
    double best[MOST_BUILDS];
    for (size_t b = 0; b < count; b++)
        best[b] = 1e300;
    for (size_t round = 0; round < at->rounds; round++)
        run_round(at, at->calls, 256 * round / at->rounds * 16, builds, count, best);
    printf("| %s |", at->title);
    for (size_t b = 0; b < count; b++) {
        putchar(' ');
        print_time(best[b]);
        if (b != 0)
            printf(" (%.2f)", best[b] / best[0]);
        printf(" |");
    }
    putchar('\n');
    fflush(stdout);
}

// Whether every build can run a row; where one cannot, says so.
static bool all_have(const row *at, const build *builds, size_t count)
{
    for (size_t b = 0; at->run == run_two && b < count; b++)
        if (!has_two(&builds[b])) {
            fprintf(stderr, "%s: left out, since %s has no function of its own that gives the blocks of tally_block\n", at->title, builds[b].name);
            return false;
        }
    return true;
}

// Compares the builds on every row, and prints the rows' words, calls and titles.
static void print_words(const build *builds, size_t count)
{
    double best[MOST_BUILDS] = {0};
    for (const row *at = rows; at < rows + ROWS; at++)
        if (all_have(at, builds, count)) {
            run_round(at, at->counted, 0, builds, count, best);
            printf("%s %d %s\n", at->word, (int)at->counted, at->title);
        }
}

// Prints the table of times.
static void print_table(const build *builds, size_t count)
{
    printf("Time of one call, and in brackets the ratio: build / %s.\n\n|", builds[0].name);
    for (size_t b = 0; b < count; b++)
        printf(" | %s", builds[b].name);
    printf(" |\n|---");
    for (size_t b = 0; b < count; b++)
        printf("|---");
    printf("|\n");
    for (const row *at = rows; at < rows + ROWS; at++)
        if (all_have(at, builds, count))
            print_row(at, builds, count);
}

// Makes as many calls of the row with this word.
static void count_calls(const char *word, const char *calls, const build *by)
{
    static uint8_t out[RECORD_LENGTH + LIST_LENGTH];
    const row *at = rows;
    while (at < rows + ROWS && strcmp(at->word, word) != 0)
        at++;
    must(at < rows + ROWS && all_have(at, by, 1), word, "there is no such row");
    at->run(by, strtoul(calls, NULL, 10), out);
}

int main(int argc, char **argv)
{
    const bool words = 1 < argc && strcmp(argv[1], "--rows") == 0, counted = 3 < argc && strcmp(argv[1], "--count") == 0;
    build builds[MOST_BUILDS];
    size_t count = 0;
    for (int i = words ? 2 : counted ? 4 : 1; i < argc; i++) {
        must(count < MOST_BUILDS, argv[i], "there are too many builds");
        builds[count++] = opened(argv[i]);
    }
    must(count != 0, "usage", "beside [--rows | --count ROW CALLS] NAME=LIBRARY ..");
    make_reports(&builds[0]);
    if (words)
        print_words(builds, count);
    else if (counted)
        count_calls(argv[2], argv[3], &builds[0]);
    else
        print_table(builds, count);
    return EXIT_SUCCESS;
}
