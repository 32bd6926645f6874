/*
 * Calls of the library, one row or item per call or all of them in one: `price WHAT ROWS`. WHAT is `insert`,
 * `insert_all`, `next`, `take` or `commits`. Two runs with different numbers of rows tell what one more row costs.
 */
#include "gist.h"

#include <stdio.h>
#include <stdlib.h>
#include <string.h>

static void need(uint32_t answer)
{
    if (answer != GIST_OK)
        exit((int)answer);
}

/* A number that looks random, the same in each run. */
static int64_t drawn(uint64_t n)
{
    n *= 0x9E3779B97F4A7C15u;
    n ^= n >> 29;
    return (int64_t)(n % 1000000);
}

int main(int argc, char **argv)
{
    const gist_limits limits = GIST_LIMITS;
    size_t rows = argc == 3 ? strtoul(argv[2], NULL, 10) : 0;
    gist_entry *entries = malloc(rows * sizeof *entries);
    gist_item *items = malloc(rows * sizeof *items);
    gist_store store = GIST_NONE;
    gist_query all = GIST_NONE;
    gist_snapshot snapshot = GIST_NONE;
    uint64_t number = 0, sum = 0, cursor;

    if (rows == 0 || entries == NULL || items == NULL)
        return 2;
    for (size_t n = 0; n < rows; n++)
        entries[n] = (gist_entry){gist_interval(drawn(n), drawn(n) + 10), n};
    need(gist_create(&store, GIST_INTERVALS, &limits));
    need(gist_ask(&all, GIST_INTERVALS, GIST_OVERLAPS, gist_interval(0, 2000000)));
    if (strcmp(argv[1], "insert") == 0) {
        for (size_t n = 0; n < rows; n++)
            need(gist_insert(&store, &entries[n], 1, &number));
    } else {
        need(gist_insert(&store, entries, rows, &number));
    }
    need(gist_follow(&store, &all, 0, &cursor));
    if (strcmp(argv[1], "next") == 0) {
        for (size_t n = 0; n < rows; n++)
            need(gist_next(&store, cursor, &items[n], 1, &number));
    } else if (strcmp(argv[1], "take") == 0) {
        need(gist_next(&store, cursor, items, rows, &number));
    } else if (strcmp(argv[1], "commits") == 0) {
        need(gist_take(&store, &snapshot));
        for (size_t n = 0; n < rows; n++) {
            need(gist_commits(&snapshot, &number));
            sum += number;
        }
        gist_drop(&snapshot);
    }
    gist_forget(&all);
    gist_destroy(&store);
    printf("%llu\n", (unsigned long long)(sum + number));
    free(entries);
    free(items);
    return 0;
}
