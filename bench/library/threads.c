/*
 * Threads that find in snapshots of one store while one thread writes: `threads READERS ROWS FINDS INSERTS`.
 *
 * It fills a store with ROWS intervals and lets READERS threads find FINDS times in all. If INSERTS isn't 0, one more
 * thread inserts until the last reader has ended: INSERTS times a second, or as often as it can if that is 1. A
 * reader takes a snapshot under the lock once in TAKEN finds, and finds without the lock. The keys and queries are
 * those of bench/peer/threads.cpp, and so are the two lines that it prints: one of the inserting thread, one of the
 * readers, each with nanoseconds by the clock, in the threads, and of their processor time, then calls, 0, and rows
 * found.
 */
#include "gist.h"

#include <inttypes.h>
#include <pthread.h>
#include <stdatomic.h>
#include <stdio.h>
#include <stdlib.h>
#include <string.h>
#include <time.h>

enum { TAKEN = 1024, ROOM = 1024, MOST_READERS = 64 };

typedef struct part {
    _Alignas(64) uint64_t wall;
    uint64_t threads_wall, threads_cpu, calls, items;
} part;

typedef struct reader {
    pthread_t thread;
    uint64_t seed, finds, rows;
    part told;
} reader;

static gist_store store = GIST_NONE;
static pthread_mutex_t lock = PTHREAD_MUTEX_INITIALIZER;
static atomic_uint reading;

static void need(uint32_t answer) {
    if (answer != GIST_OK)
        exit((int)answer);
}

static uint64_t nanoseconds(clockid_t clock) {
    struct timespec time;
    clock_gettime(clock, &time);
    return (uint64_t)time.tv_sec * 1000000000u + (uint64_t)time.tv_nsec;
}

/* A number below a limit, by Knuth's linear congruence. */
static int64_t below(uint64_t *state, uint32_t limit) {
    *state = *state * 6364136223846793005u + 1442695040888963407u;
    return (int64_t)((uint32_t)(*state >> 33) % limit);
}

static gist_key row_key(uint64_t *state, uint64_t rows) {
    const int64_t low = below(state, (uint32_t)(rows * 100));
    return gist_interval(low, low + below(state, 20));
}

/* Ten rows match on the average. */
static gist_key query_key(uint64_t *state, uint64_t rows) {
    const int64_t low = below(state, (uint32_t)(rows * 100));
    return gist_interval(low, low + 990);
}

static void insert(uint64_t *state, uint64_t rows) {
    const gist_entry entry = {row_key(state, rows), 0};
    uint64_t added;
    need(gist_insert(&store, &entry, 1, &added));
}

/* Waits until a thread that began at `since` may do its next piece of work, at `a_second` pieces a second; at 1 it never waits. */
static void keep_pace(uint64_t since, uint64_t done, uint64_t a_second) {
    const uint64_t due = a_second == 1 ? 0 : since + done * 1000000000u / a_second;
    while (nanoseconds(CLOCK_MONOTONIC) < due)
        nanosleep(&(struct timespec){0, 20000}, NULL);
}

static void begin(part *of) {
    of->threads_wall = nanoseconds(CLOCK_MONOTONIC);
    of->threads_cpu = nanoseconds(CLOCK_THREAD_CPUTIME_ID);
}

static void end(part *of) {
    of->threads_wall = nanoseconds(CLOCK_MONOTONIC) - of->threads_wall;
    of->threads_cpu = nanoseconds(CLOCK_THREAD_CPUTIME_ID) - of->threads_cpu;
}

static void *find_all(void *given) {
    reader *of = given;
    gist_snapshot now = GIST_NONE;
    gist_row *rows = malloc(ROOM * sizeof *rows);
    uint64_t state = of->seed, last = 0, answered = 0;

    if (rows == NULL)
        exit(2);
    begin(&of->told);
    for (uint64_t find = 0; find < of->finds; find++) {
        const gist_key key = query_key(&state, of->rows);
        if (find % TAKEN == 0) {
            gist_drop(&now);
            pthread_mutex_lock(&lock);
            need(gist_take(&store, &now));
            pthread_mutex_unlock(&lock);
        }
        need(gist_find_each(&now, GIST_OVERLAPS, &key, 1, rows, ROOM, &last, 1, &answered));
        of->told.calls++;
        of->told.items += answered == 1 ? last : 0;
    }
    end(&of->told);
    gist_drop(&now);
    free(rows);
    reading--;
    return NULL;
}

static void print(const part *of) {
    printf("%" PRIu64 " %" PRIu64 " %" PRIu64 " %" PRIu64 " 0 %" PRIu64 "\n", of->wall, of->threads_wall, of->threads_cpu,
           of->calls, of->items);
}

int main(int count, char **words) {
    static reader readers[MOST_READERS];
    const gist_limits limits = GIST_LIMITS;
    uint64_t threads, rows, finds, inserts, state = 1, since;
    part writing = {0}, found = {0};

    if (count != 5)
        return 2;
    threads = strtoull(words[1], NULL, 10);
    rows = strtoull(words[2], NULL, 10);
    finds = strtoull(words[3], NULL, 10);
    inserts = strtoull(words[4], NULL, 10);
    if (threads == 0 || threads > MOST_READERS)
        return 2;
    need(gist_create(&store, GIST_INTERVALS, &limits));
    for (uint64_t row = 0; row < rows; row++)
        insert(&state, rows);

    reading = (unsigned)threads;
    since = nanoseconds(CLOCK_MONOTONIC);
    for (uint64_t it = 0; it < threads; it++) {
        readers[it] = (reader){.seed = it + 1001, .finds = finds / threads, .rows = rows};
        if (pthread_create(&readers[it].thread, NULL, find_all, &readers[it]) != 0)
            return 2;
    }
    state = 2;
    begin(&writing);
    while (inserts != 0 && reading != 0) {
        pthread_mutex_lock(&lock);
        insert(&state, rows);
        pthread_mutex_unlock(&lock);
        writing.calls++;
        keep_pace(since, writing.calls, inserts);
    }
    end(&writing);
    writing.wall = writing.threads_wall;
    for (uint64_t it = 0; it < threads; it++) {
        pthread_join(readers[it].thread, NULL);
        found.threads_wall += readers[it].told.threads_wall;
        found.threads_cpu += readers[it].told.threads_cpu;
        found.calls += readers[it].told.calls;
        found.items += readers[it].told.items;
    }
    found.wall = nanoseconds(CLOCK_MONOTONIC) - since;
    print(&writing);
    print(&found);
    gist_destroy(&store);
    return 0;
}
