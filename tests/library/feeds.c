/*
 * A feed while items wait: an older snapshot is refused, a new subscription gets what it missed, and taking many items a
 * few at a time costs processor time in proportion to their number. And a feed whose queries come and go.
 *
 *     cc -std=c11 -Wall -Wextra -pedantic tests/library/feeds.c -IFOLDER FOLDER/libgist.a && ./a.out
 *
 * It prints nothing and ends with status 0; else it prints the line of each check that failed, and ends with status 1.
 */
#include <inttypes.h>
#include <stdio.h>
#include <stdlib.h>
#include <string.h>
#include <time.h>

#include "gist.h"

static int failures;

static void check(int line, const char *what, uint64_t is, uint64_t wanted) {
    if (is != wanted) {
        fprintf(stderr, "line %d: %s is %" PRIu64 ", not %" PRIu64 "\n", line, what, is, wanted);
        failures++;
    }
}

#define IS(what, wanted) check(__LINE__, #what, (uint64_t)(what), (uint64_t)(wanted))

/* Stops at once: without this call nothing else can be tested. */
#define NEED(call)                                                                                                     \
    do {                                                                                                               \
        if ((call) != GIST_OK) {                                                                                       \
            fprintf(stderr, "line %d: %s is refused\n", __LINE__, #call);                                             \
            exit(1);                                                                                                   \
        }                                                                                                              \
    } while (0)

typedef struct setting {
    gist_store store;
    gist_feed feed;
    gist_query all;
} setting;

static setting begin(void) {
    const gist_limits limits = GIST_LIMITS;
    setting s = {GIST_NONE, GIST_NONE, GIST_NONE};
    NEED(gist_create(&s.store, GIST_INTERVALS, &limits));
    NEED(gist_begin(&s.feed, GIST_INTERVALS));
    NEED(gist_ask(&s.all, GIST_INTERVALS, GIST_OVERLAPS, gist_interval(INT64_MIN, INT64_MAX)));
    return s;
}

static void end(setting *s) {
    gist_end(&s->feed);
    gist_forget(&s->all);
    gist_destroy(&s->store);
}

/* Adds rows (i i) with tag i, from `first` on. */
static void insert(setting *s, uint64_t first, uint64_t n) {
    uint64_t added = 0;
    for (uint64_t i = first; i < first + n; i++) {
        const gist_entry entry = {gist_interval((int64_t)i, (int64_t)i), i};
        NEED(gist_insert(&s->store, &entry, 1, &added));
    }
}

/* An older snapshot is refused whether items wait or not, and what waits is delivered by a later call. */
static void refuses_an_older_snapshot(void) {
    setting s = begin();
    gist_snapshot none = GIST_NONE, now = GIST_NONE;
    const gist_entry entry = {gist_interval(5, 6), 77};
    const uint64_t row = 1;
    uint64_t subscription = 0, given = 0, upto = 0, n = 0;
    gist_told told[10], untouched[10];

    NEED(gist_take(&s.store, &none));
    NEED(gist_insert(&s.store, &entry, 1, &n));
    NEED(gist_delete(&s.store, &row, 1, &n));
    NEED(gist_take(&s.store, &now));
    NEED(gist_subscribe(&s.feed, &s.all, 0, &subscription));
    NEED(gist_advance(&s.feed, &now, UINT64_MAX, told, 1, &given, &upto));
    IS(given, 1);
    IS(upto, 2);
    IS(told[0].item.kind, GIST_INSERTED);

    memset(told, 0x5a, sizeof told);
    memset(untouched, 0x5a, sizeof untouched);
    given = upto = 99;
    IS(gist_advance(&s.feed, &none, UINT64_MAX, told, 10, &given, &upto), GIST_FROM_FUTURE);
    IS(memcmp(told, untouched, sizeof told), 0);
    IS(given, 99);
    IS(upto, 99);

    NEED(gist_advance(&s.feed, &now, UINT64_MAX, told, 10, &given, &upto));
    IS(given, 1);
    IS(upto, 2);
    IS(told[0].item.kind, GIST_DELETED);
    IS(told[0].item.number, 2);
    IS(told[0].item.ended, 1);
    IS(told[0].item.tag, 77);
    IS(told[0].item.key.interval.lo, 5);
    IS(told[0].item.key.interval.hi, 6);
    IS(gist_advance(&s.feed, &none, UINT64_MAX, told, 10, &given, &upto), GIST_FROM_FUTURE);
    gist_drop(&none);
    gist_drop(&now);
    end(&s);
}

/* A subscription that is made while items wait gets what it missed by the calls that follow, up to the one that leaves
 * nothing waiting. */
static void delivers_what_was_missed(uint64_t room) {
    enum { COMMITS = 10 };
    setting s = begin();
    gist_snapshot now = GIST_NONE;
    gist_told told[64];
    uint64_t first = 0, second = 0, given = 0, upto = 0, of_first = 0, of_second = 0;

    insert(&s, 1, COMMITS);
    NEED(gist_take(&s.store, &now));
    NEED(gist_subscribe(&s.feed, &s.all, 0, &first));
    NEED(gist_advance(&s.feed, &now, UINT64_MAX, told, 3, &given, &upto));
    IS(given, 3);
    of_first = given;
    NEED(gist_subscribe(&s.feed, &s.all, 4, &second));
    do {
        NEED(gist_advance(&s.feed, &now, UINT64_MAX, told, room, &given, &upto));
        for (uint64_t i = 0; i < given; i++) {
            if (told[i].subscription == first)
                IS(told[i].item.number, ++of_first);
            else
                IS(told[i].item.number, 4 + ++of_second);
        }
        IS(upto, COMMITS);
    } while (given == room);
    IS(of_first, COMMITS);
    IS(of_second, COMMITS - 4);
    gist_drop(&now);
    end(&s);
}

/* Commits that came while items waited are processed once none waits. */
static void goes_on_after_what_waits(void) {
    setting s = begin();
    gist_snapshot now = GIST_NONE;
    gist_told told[8];
    uint64_t subscription = 0, given = 0, upto = 0;

    NEED(gist_subscribe(&s.feed, &s.all, 0, &subscription));
    insert(&s, 1, 4);
    NEED(gist_take(&s.store, &now));
    NEED(gist_advance(&s.feed, &now, 3, told, 2, &given, &upto));
    IS(given, 2);
    IS(upto, 3);
    NEED(gist_advance(&s.feed, &now, 9, told, 8, &given, &upto));
    IS(given, 1);
    IS(upto, 3);
    NEED(gist_advance(&s.feed, &now, 9, told, 8, &given, &upto));
    IS(given, 1);
    IS(upto, 4);
    gist_drop(&now);
    end(&s);
}

/* While 12,000 other queries come and go, so that the feed rebuilds its tree of queries several times, each row is
 * delivered to the one subscription that it matches. */
static void queries_come_and_go(void) {
    enum { STAYING = 10, ROUNDS = 12, OTHERS = 1000 };
    setting s = begin();
    gist_told told[8];
    uint64_t stays[STAYING], given = 0, upto = 0, added = 0;

    for (int64_t i = 0; i < STAYING; i++) {
        gist_query query = GIST_NONE;
        NEED(gist_ask(&query, GIST_INTERVALS, GIST_OVERLAPS, gist_interval(100 * i, 100 * i + 9)));
        NEED(gist_subscribe(&s.feed, &query, 0, &stays[i]));
        gist_forget(&query);
    }
    for (int64_t round = 0; round < ROUNDS; round++) {
        const int64_t at = round % STAYING;
        const gist_entry entry = {gist_interval(100 * at + 5, 100 * at + 6), (uint64_t)round};
        gist_snapshot now = GIST_NONE;
        for (int64_t i = 0; i < OTHERS; i++) {
            const int64_t lo = 100000 + OTHERS * round + i;
            gist_query query = GIST_NONE;
            uint64_t passing = 0;
            NEED(gist_ask(&query, GIST_INTERVALS, GIST_OVERLAPS, gist_interval(lo, lo + 3)));
            NEED(gist_subscribe(&s.feed, &query, 0, &passing));
            NEED(gist_unsubscribe(&s.feed, passing));
            gist_forget(&query);
        }
        NEED(gist_insert(&s.store, &entry, 1, &added));
        NEED(gist_take(&s.store, &now));
        NEED(gist_advance(&s.feed, &now, UINT64_MAX, told, 8, &given, &upto));
        IS(given, 1);
        IS(told[0].subscription, stays[at]);
        IS(told[0].item.tag, round);
        gist_drop(&now);
    }
    end(&s);
}

/* Processor seconds to take so many items, ten at a time. */
static double seconds_to_take(uint64_t items) {
    setting s = begin();
    gist_snapshot now = GIST_NONE;
    gist_told told[10];
    uint64_t subscription = 0, given = 0, upto = 0, expected = 1;

    insert(&s, 1, items);
    NEED(gist_take(&s.store, &now));
    NEED(gist_subscribe(&s.feed, &s.all, 0, &subscription));
    NEED(gist_advance(&s.feed, &now, UINT64_MAX, told, 0, &given, &upto));
    const clock_t began = clock();
    do {
        NEED(gist_advance(&s.feed, &now, 0, told, 10, &given, &upto));
        for (uint64_t i = 0; i < given; i++)
            IS(told[i].item.number, expected++);
    } while (given == 10);
    const double seconds = (double)(clock() - began) / CLOCKS_PER_SEC;
    IS(expected, items + 1);
    gist_drop(&now);
    end(&s);
    return seconds;
}

/* Ten times as many items take at most thirty times as long; if each call moved all that waits, it would be a hundred. */
static void takes_in_linear_time(void) {
    const double few = seconds_to_take(4005), many = seconds_to_take(40050);
    if (many > 30 * few + 0.05) {
        fprintf(stderr, "4,005 items took %.4f seconds, and 40,050 took %.4f\n", few, many);
        failures++;
    }
}

int main(void) {
    refuses_an_older_snapshot();
    for (uint64_t room = 1; room <= 64; room++)
        delivers_what_was_missed(room);
    goes_on_after_what_waits();
    queries_come_and_go();
    takes_in_linear_time();
    return failures ? 1 : 0;
}
