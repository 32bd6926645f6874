/*
 * One thread adds rows under a lock for readers and writers. Others take snapshots as readers, and search them without it,
 * all at once; and others share one snapshot and one query, which they all read through the same two handles meanwhile.
 *
 *     cc -std=c11 -Wall -Wextra -pedantic -pthread tests/library/threads.c -IFOLDER FOLDER/libgist.a && ./a.out
 *
 * It prints nothing, and ends with status 0, or tells the line of the first thing that isn't as it should be.
 */
#define _XOPEN_SOURCE 700

#include <inttypes.h>
#include <pthread.h>
#include <stdlib.h>

#include "checks.h"
#include "gist.h"

enum { ROWS = 4000, AT_ONCE = 10, TAKERS = 3, LOOKS = 60, SHARED_ROWS = 300, SHARERS = 4, SHARED_LOOKS = 200 };

static pthread_rwlock_t lock = PTHREAD_RWLOCK_INITIALIZER;
static gist_store store = GIST_NONE;

/* What is shared, as it is read: by const pointers alone. */
static gist_snapshot shared_snapshot = GIST_NONE;
static gist_query shared_query = GIST_NONE;

static void *write_rows(void *nothing) {
    gist_entry rows[AT_ONCE];
    uint64_t added = 0;

    for (int first = SHARED_ROWS; first < ROWS; first += AT_ONCE) {
        for (int i = 0; i < AT_ONCE; i++) {
            rows[i].key = gist_interval(first + i, first + i + 5);
            rows[i].tag = (uint64_t)(first + i);
        }
        pthread_rwlock_wrlock(&lock);
        IS(gist_insert(&store, rows, AT_ONCE, &added), GIST_OK);
        pthread_rwlock_unlock(&lock);
        IS(added, AT_ONCE);
    }
    return nothing;
}

/* Whatever the writer does meanwhile, a snapshot has as many rows as commits, and each is found where it was put. */
static void *look(void *nothing) {
    gist_query all = GIST_NONE;
    gist_row found[8];
    uint64_t commits = 0, count = 0, n = 0, last = 0;

    IS(gist_ask(&all, GIST_INTERVALS, GIST_OVERLAPS, gist_interval(INT64_MIN, INT64_MAX)), GIST_OK);
    for (int i = 0; i < LOOKS; i++) {
        gist_snapshot now = GIST_NONE;

        pthread_rwlock_rdlock(&lock);
        IS(gist_take(&store, &now), GIST_OK);
        pthread_rwlock_unlock(&lock);
        IS(gist_commits(&now, &commits), GIST_OK);
        IS(commits >= last, 1);
        IS(gist_count(&now, &all, &count), GIST_OK);
        IS(count, commits);
        if (commits >= 10) {
            const gist_key key = gist_interval((int64_t)commits - 4, (int64_t)commits - 4);
            uint64_t ends[1];

            IS(gist_find_each(&now, GIST_OVERLAPS, &key, 1, found, 8, ends, 1, &n), GIST_OK);
            IS(n, 1);
            IS(ends[0], 6);
            for (uint64_t place = 0; place < 6; place++) {
                IS(found[place].row, commits - 8 + place);
                IS(found[place].tag, commits - 9 + place);
            }
        }
        last = commits;
        gist_drop(&now);
    }
    gist_forget(&all);
    return nothing;
}

/* Whatever is done to the store meanwhile, what is shared answers the same each time, to every thread. */
static void *look_at_shared(void *nothing) {
    const gist_snapshot *snapshot = &shared_snapshot;
    const gist_query *query = &shared_query;
    gist_feed feed = GIST_NONE;
    gist_row rows[8], row;
    gist_item items[8], item;
    gist_told told_items[8];
    bool lives = false;
    uint64_t n = 0, upto = 0, subscription = 0;

    IS(gist_begin(&feed, GIST_INTERVALS), GIST_OK);
    IS(gist_subscribe(&feed, query, 0, &subscription), GIST_OK);
    for (int i = 0; i < SHARED_LOOKS; i++) {
        IS(gist_commits(snapshot, &n), GIST_OK);
        IS(n, SHARED_ROWS);
        IS(gist_count(snapshot, query, &n), GIST_OK);
        IS(n, 6);
        IS(gist_find(snapshot, query, rows, 8, &n), GIST_OK);
        IS(n, 6);
        for (uint64_t place = 0; place < n; place++)
            IS(rows[place].row, 96 + place);
        IS(gist_row_of(snapshot, 100, &row, &lives), GIST_OK);
        IS(row.tag, 99);
        IS(lives, true);
        IS(gist_commit_of(snapshot, 100, &item), GIST_OK);
        IS(item.tag, 99);
        IS(gist_changes(snapshot, query, 0, items, 8, &n, &upto), GIST_OK);
        IS(n, 6);
        IS(upto, SHARED_ROWS);
        if (i == 0) {
            IS(gist_advance(&feed, snapshot, SHARED_ROWS, told_items, 8, &n, &upto), GIST_OK);
            IS(n, 6);
            IS(told_items[5].item.number, 101);
        }
    }
    gist_end(&feed);
    return nothing;
}

int main(void) {
    const gist_limits limits = GIST_LIMITS;
    pthread_t writer, takers[TAKERS], sharers[SHARERS];

    IS(gist_create(&store, GIST_INTERVALS, &limits), GIST_OK);
    for (int i = 0; i < SHARED_ROWS; i++) {
        const gist_entry row = {gist_interval(i, i + 5), (uint64_t)i};
        uint64_t added = 0;

        IS(gist_insert(&store, &row, 1, &added), GIST_OK);
        IS(added, 1);
    }
    IS(gist_take(&store, &shared_snapshot), GIST_OK);
    IS(gist_ask(&shared_query, GIST_INTERVALS, GIST_OVERLAPS, gist_interval(100, 100)), GIST_OK);
    IS(pthread_create(&writer, NULL, write_rows, NULL), 0);
    for (int i = 0; i < TAKERS; i++)
        IS(pthread_create(&takers[i], NULL, look, NULL), 0);
    for (int i = 0; i < SHARERS; i++)
        IS(pthread_create(&sharers[i], NULL, look_at_shared, NULL), 0);
    IS(pthread_join(writer, NULL), 0);
    for (int i = 0; i < TAKERS; i++)
        IS(pthread_join(takers[i], NULL), 0);
    for (int i = 0; i < SHARERS; i++)
        IS(pthread_join(sharers[i], NULL), 0);
    gist_drop(&shared_snapshot);
    gist_forget(&shared_query);
    gist_destroy(&store);
    return 0;
}
