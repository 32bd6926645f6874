/*
 * Each limit of the library, reached and exceeded by one: pages, commits, cursors and subscriptions. A refused call
 * changes nothing, and once there is room again it succeeds.
 *
 * It prints nothing, and ends with status 0, or tells the line of the first thing that isn't as it should be.
 */
#include "checks.h"
#include "gist.h"

#define MOST_CURSORS 256
#define MOST_SUBSCRIPTIONS 1000000

static gist_store made(uint32_t pages, uint32_t commits) {
    const gist_limits limits = {4, 2, pages, commits};
    gist_store store = GIST_NONE;
    IS(gist_create(&store, GIST_INTERVALS, &limits), GIST_OK);
    return store;
}

static uint32_t insert(gist_store *store, int64_t at) {
    const gist_entry entry = {gist_interval(at, at), (uint64_t)at};
    uint64_t added;
    return gist_insert(store, &entry, 1, &added);
}

static gist_query all(void) {
    gist_query query = GIST_NONE;
    IS(gist_ask(&query, GIST_INTERVALS, GIST_OVERLAPS, gist_interval(INT64_MIN, INT64_MAX)), GIST_OK);
    return query;
}

static uint64_t commits_of(gist_store *store) {
    gist_figures figures;
    IS(gist_stats(store, &figures), GIST_OK);
    return figures.commits;
}

/* As many rows as the pages have room for; a sweep of deleted ones makes room again. */
static void pages(void) {
    gist_store store = made(3, 1000);
    uint64_t rows = 0, removed, deleted;
    uint32_t answer;

    while ((answer = insert(&store, (int64_t)rows)) == GIST_OK)
        rows++;
    IS(answer, GIST_PAGES_FULL);
    IS(rows >= 4 && commits_of(&store) == rows, true);
    IS(gist_move(&store, 1, gist_interval((int64_t)rows, (int64_t)rows), &deleted), GIST_PAGES_FULL);
    IS(commits_of(&store) == rows, true);
    for (uint64_t row = 1; row <= rows; row++)
        IS(gist_delete(&store, &row, 1, &deleted), GIST_OK);
    IS(gist_sweep(&store, &removed), GIST_OK);
    IS(removed == rows, true);
    IS(insert(&store, 0), GIST_OK);
    gist_destroy(&store);
}

/* As many commits as the limit, and none more of any kind; what only reads goes on. */
static void commits(void) {
    gist_store store = made(100, 5);
    gist_snapshot now = GIST_NONE;
    gist_query every = all();
    const uint64_t row = 1;
    uint64_t done, cursor, count;

    for (int64_t at = 0; at < 5; at++)
        IS(insert(&store, at), GIST_OK);
    IS(insert(&store, 5), GIST_COMMITS_FULL);
    IS(gist_move(&store, row, gist_interval(9, 9), &done), GIST_COMMITS_FULL);
    IS(gist_delete(&store, &row, 1, &done), GIST_COMMITS_FULL);
    IS(commits_of(&store) == 5, true);
    IS(gist_open(&store, &every, &cursor), GIST_OK);
    IS(gist_take(&store, &now), GIST_OK);
    IS(gist_count(&now, &every, &count), GIST_OK);
    IS(count == 5, true);
    gist_drop(&now);
    gist_forget(&every);
    gist_destroy(&store);
}

/* As many cursors as may be open, whose places are free again once they are closed. */
static void cursors(void) {
    gist_store store = made(100, 5);
    gist_query every = all();
    uint64_t cursor, first = 0;

    for (int n = 0; n < MOST_CURSORS; n++) {
        IS(gist_open(&store, &every, &cursor), GIST_OK);
        first = n == 0 ? cursor : first;
    }
    IS(gist_open(&store, &every, &cursor), GIST_CURSORS_FULL);
    IS(gist_follow(&store, &every, 0, &cursor), GIST_CURSORS_FULL);
    IS(gist_close(&store, first), GIST_OK);
    IS(gist_follow(&store, &every, 0, &cursor), GIST_OK);
    gist_forget(&every);
    gist_destroy(&store);
}

/* As many subscriptions as may be open, whose places are free again once they end. */
static void subscriptions(void) {
    gist_feed feed = GIST_NONE;
    gist_query every = all();
    uint64_t first = 0, subscription;

    IS(gist_begin(&feed, GIST_INTERVALS), GIST_OK);
    for (int n = 0; n < MOST_SUBSCRIPTIONS; n++) {
        IS(gist_subscribe(&feed, &every, 0, &subscription), GIST_OK);
        first = n == 0 ? subscription : first;
    }
    IS(gist_subscribe(&feed, &every, 0, &subscription), GIST_FEED_FULL);
    IS(gist_unsubscribe(&feed, first), GIST_OK);
    IS(gist_subscribe(&feed, &every, 0, &subscription), GIST_OK);
    IS(subscription == first + MOST_SUBSCRIPTIONS, true);
    IS(gist_subscribe(&feed, &every, 0, &subscription), GIST_FEED_FULL);
    gist_end(&feed);
    gist_forget(&every);
}

int main(void) {
    pages();
    commits();
    cursors();
    subscriptions();
    return 0;
}
