/*
 * Maps: each call with its answers, its refusals and what they leave, for each class of keys; items that wait; a map that
 * is restored; and a client that is too late, which finds again.
 *
 *     cc -std=c11 -Wall -Wextra -pedantic tests/library/maps.c -IFOLDER FOLDER/libgist.a && ./a.out
 *
 * It prints nothing and ends with status 0; else it prints the line of each check that failed, and ends with status 1.
 */
#include <inttypes.h>
#include <stdio.h>
#include <stdlib.h>
#include <string.h>

#include "gist.h"

enum { ROOM = 64, ABSENT = 99 };

static int failures;

static void check(int line, const char *what, uint64_t is, uint64_t wanted) {
    if (is != wanted) {
        fprintf(stderr, "line %d: %s is %" PRIu64 ", not %" PRIu64 "\n", line, what, is, wanted);
        failures++;
    }
}

#define IS(what, wanted) check(__LINE__, #what, (uint64_t)(what), (uint64_t)(wanted))

/* Stops at once: without this call nothing else can be tested. */
#define NEED(call)                                                                                                     \
    do {                                                                                                               \
        if ((call) != GIST_OK) {                                                                                       \
            fprintf(stderr, "line %d: %s is refused\n", __LINE__, #call);                                             \
            exit(1);                                                                                                   \
        }                                                                                                              \
    } while (0)

/* Keys of a class: `near` and `close` overlap `around`, `far` doesn't. */
typedef struct keys {
    uint32_t key_class;
    gist_key near, close, far, around;
} keys;

static bool is_same(gist_key one, gist_key other) { return memcmp(&one, &other, sizeof one) == 0; }

static const gist_map_config greatest = GIST_MAP_CONFIG;

static gist_map_config with_identity(uint64_t identity) {
    gist_map_config config = greatest;
    config.identity = identity;
    return config;
}

static gist_map map_of(uint32_t key_class, uint64_t identity) {
    const gist_map_config config = with_identity(identity);
    gist_map map = GIST_NONE;
    NEED(gist_map_create(&map, key_class, &config));
    return map;
}

static gist_map_snapshot snapshot_of(const gist_map *map) {
    gist_map_snapshot snapshot = GIST_NONE;
    NEED(gist_map_snapshot_create(map, &snapshot));
    return snapshot;
}

static gist_query query_for(uint32_t key_class, gist_key key) {
    gist_query query = GIST_NONE;
    NEED(gist_ask(&query, key_class, GIST_OVERLAPS, key));
    return query;
}

static uint64_t put(gist_map *map, uint64_t id, gist_key key) {
    uint64_t revision = 0;
    NEED(gist_map_put(map, id, key, &revision));
    return revision;
}

static void check_state(int line, gist_map_state is, uint64_t revision, uint64_t oldest, uint64_t len, uint64_t identity) {
    check(line, "revision", is.revision, revision);
    check(line, "oldest", is.oldest, oldest);
    check(line, "len", is.len, len);
    check(line, "identity", is.identity, identity);
}

static void check_entry(int line, gist_map_entry is, uint64_t id, gist_key key) {
    check(line, "id", is.id, id);
    check(line, "is_same", is_same(is.key, key), true);
}

static void check_item(int line, gist_map_item is, uint32_t kind, uint64_t revision, uint64_t id, gist_key key) {
    check(line, "kind", is.kind, kind);
    check(line, "revision", is.revision, revision);
    check(line, "id", is.id, id);
    check(line, "is_same", is_same(is.key, key), true);
}

/* Each call of a map and of its snapshots. */
static void calls(const keys *k) {
    const gist_key none = {.words = {0, 0}};
    gist_map map = map_of(k->key_class, 7);
    gist_query query = query_for(k->key_class, k->around);
    gist_map_state state;
    gist_map_entry entries[ROOM];
    gist_map_item items[ROOM];
    gist_key key;
    uint64_t revision = ABSENT, found = 0, count = 0, given = 0, upto = 0;
    bool has_key = true;

    NEED(gist_map_state_of(&map, &state));
    check_state(__LINE__, state, 0, 0, 0, 7);
    NEED(gist_map_remove(&map, 5, &revision));
    IS(revision, 0);

    IS(put(&map, 5, k->near), 1);
    IS(put(&map, 6, k->far), 2);
    IS(put(&map, UINT64_MAX, k->close), 3);
    IS(put(&map, 5, k->close), 4);
    NEED(gist_map_get(&map, 5, &key, &has_key));
    IS(has_key, true);
    IS(is_same(key, k->close), true);
    NEED(gist_map_get(&map, 4, &key, &has_key));
    IS(has_key, false);
    IS(is_same(key, none), true);
    NEED(gist_map_state_of(&map, &state));
    check_state(__LINE__, state, 4, 0, 3, 7);

    gist_map_snapshot before = snapshot_of(&map);
    NEED(gist_map_remove(&map, UINT64_MAX, &revision));
    IS(revision, 5);
    IS(put(&map, 5, k->far), 6);
    IS(put(&map, 6, k->near), 7);
    gist_map_snapshot after = snapshot_of(&map);
    gist_map_free(&map);

    NEED(gist_map_snapshot_state(&before, &state));
    check_state(__LINE__, state, 4, 0, 3, 7);
    NEED(gist_map_snapshot_state(&after, &state));
    check_state(__LINE__, state, 7, 0, 2, 7);

    NEED(gist_map_snapshot_find(&before, &query, entries, ROOM, &found));
    IS(found, 2);
    check_entry(__LINE__, entries[0], UINT64_MAX, k->close);
    check_entry(__LINE__, entries[1], 5, k->close);
    memset(entries, 0x5a, sizeof entries);
    NEED(gist_map_snapshot_find(&before, &query, entries, 1, &found));
    IS(found, 2);
    check_entry(__LINE__, entries[0], UINT64_MAX, k->close);
    IS(entries[1].id, 0x5a5a5a5a5a5a5a5a);
    NEED(gist_map_snapshot_find_any(&before, &query, entries, ROOM, &found));
    IS(found, 2);
    IS(entries[0].id == 5, entries[1].id == UINT64_MAX);
    IS(entries[0].id ^ entries[1].id, 5 ^ UINT64_MAX);
    IS(is_same(entries[0].key, k->close) && is_same(entries[1].key, k->close), true);
    NEED(gist_map_snapshot_find_any(&before, &query, entries, 0, &found));
    IS(found, 2);
    NEED(gist_map_snapshot_count(&before, &query, &count));
    IS(count, 2);
    NEED(gist_map_snapshot_count(&after, &query, &count));
    IS(count, 1);
    NEED(gist_map_snapshot_entries(&before, entries, ROOM, &count));
    IS(count, 3);
    check_entry(__LINE__, entries[0], 6, k->far);
    check_entry(__LINE__, entries[1], UINT64_MAX, k->close);
    check_entry(__LINE__, entries[2], 5, k->close);
    memset(entries, 0x5a, sizeof entries);
    NEED(gist_map_snapshot_entries(&before, entries, 2, &count));
    IS(count, 3);
    IS(entries[2].id, 0x5a5a5a5a5a5a5a5a);

    NEED(gist_map_snapshot_changes(&after, &query, 0, items, ROOM, &given, &upto));
    IS(given, 6);
    IS(upto, 7);
    check_item(__LINE__, items[0], GIST_MAP_ENTERED, 1, 5, k->near);
    check_item(__LINE__, items[1], GIST_MAP_ENTERED, 3, UINT64_MAX, k->close);
    check_item(__LINE__, items[2], GIST_MAP_MOVED, 4, 5, k->close);
    check_item(__LINE__, items[3], GIST_MAP_LEFT, 5, UINT64_MAX, none);
    check_item(__LINE__, items[4], GIST_MAP_LEFT, 6, 5, none);
    check_item(__LINE__, items[5], GIST_MAP_ENTERED, 7, 6, k->near);
    NEED(gist_map_snapshot_changes(&after, &query, 1, items, 2, &given, &upto));
    IS(given, 2);
    IS(upto, 4);
    NEED(gist_map_snapshot_changes(&after, &query, 7, items, 2, &given, &upto));
    IS(given, 0);
    IS(upto, 7);
    memset(items, 0x5a, sizeof items);
    given = upto = ABSENT;
    IS(gist_map_snapshot_changes(&after, &query, 8, items, ROOM, &given, &upto), GIST_FROM_FUTURE);
    IS(given, ABSENT);
    IS(upto, ABSENT);
    IS(items[0].revision, 0x5a5a5a5a5a5a5a5a);

    gist_map_snapshot_free(&before);
    gist_map_snapshot_free(&after);
    gist_map_snapshot_free(&after);
    gist_forget(&query);
}

/* What waits is delivered first, and no further revision is processed meanwhile. */
static void feeds(const keys *k) {
    const gist_key none = {.words = {0, 0}};
    gist_map map = map_of(k->key_class, 3);
    gist_map_feed feed = GIST_NONE;
    gist_query query = query_for(k->key_class, k->around);
    gist_map_told told[ROOM], untouched[ROOM];
    uint64_t subscription = 0, other = 0, given = 0, upto = 0, revision = 0;

    NEED(gist_map_feed_create(&feed, k->key_class, 3));
    NEED(gist_map_feed_subscribe(&feed, &query, 0, &subscription));
    IS(subscription, 1);
    gist_map_snapshot empty = snapshot_of(&map);
    put(&map, 5, k->near);
    put(&map, 5, k->close);
    put(&map, 6, k->far);
    NEED(gist_map_remove(&map, 5, &revision));
    gist_map_snapshot now = snapshot_of(&map);
    put(&map, 6, k->near);
    gist_map_snapshot later = snapshot_of(&map);

    NEED(gist_map_feed_advance(&feed, &now, UINT64_MAX, told, 1, &given, &upto));
    IS(given, 1);
    IS(upto, 4);
    IS(told[0].subscription, subscription);
    check_item(__LINE__, told[0].item, GIST_MAP_ENTERED, 1, 5, k->near);

    memset(told, 0x5a, sizeof told);
    memset(untouched, 0x5a, sizeof untouched);
    given = upto = ABSENT;
    IS(gist_map_feed_advance(&feed, &empty, UINT64_MAX, told, ROOM, &given, &upto), GIST_FROM_FUTURE);
    IS(given, ABSENT);
    IS(upto, ABSENT);
    IS(memcmp(told, untouched, sizeof told), 0);

    NEED(gist_map_feed_subscribe(&feed, &query, 1, &other));
    NEED(gist_map_feed_advance(&feed, &later, UINT64_MAX, told, ROOM, &given, &upto));
    IS(given, 4);
    IS(upto, 4);
    for (uint64_t i = 0; i < 4; i += 2) {
        IS(told[i].subscription, i ? other : subscription);
        check_item(__LINE__, told[i].item, GIST_MAP_MOVED, 2, 5, k->close);
        check_item(__LINE__, told[i + 1].item, GIST_MAP_LEFT, 4, 5, none);
    }
    NEED(gist_map_feed_unsubscribe(&feed, other));
    IS(gist_map_feed_unsubscribe(&feed, other), GIST_NOT_SUBSCRIBED);
    NEED(gist_map_feed_advance(&feed, &later, UINT64_MAX, told, ROOM, &given, &upto));
    IS(given, 1);
    IS(upto, 5);
    IS(told[0].subscription, subscription);
    check_item(__LINE__, told[0].item, GIST_MAP_ENTERED, 5, 6, k->near);

    gist_map foreign = map_of(k->key_class, 4);
    gist_map_snapshot of_other = snapshot_of(&foreign);
    IS(gist_map_feed_advance(&feed, &of_other, 9, told, ROOM, &given, &upto), GIST_OTHER_STORE);
    gist_map_snapshot_free(&of_other);
    gist_map_free(&foreign);
    gist_map_snapshot_free(&empty);
    gist_map_snapshot_free(&now);
    gist_map_snapshot_free(&later);
    gist_map_feed_free(&feed);
    gist_map_feed_free(&feed);
    gist_forget(&query);
    gist_map_free(&map);
}

/* A restored map has the entries in their order, knows no earlier change, and goes on with the revisions. A client of
 * earlier ones is refused, and finds again. */
static void restores(const keys *k) {
    const gist_map_config config = with_identity(9);
    const gist_map_entry saved[3] = {{20, k->close}, {10, k->far}, {30, k->near}};
    gist_map map = GIST_NONE;
    gist_map_feed feed = GIST_NONE;
    gist_query query = query_for(k->key_class, k->around);
    gist_map_state state;
    gist_map_entry entries[ROOM];
    gist_map_item items[ROOM];
    gist_map_told told[ROOM];
    uint64_t numbers[2] = {ABSENT, ABSENT}, first = 0, second = 0, third = 0, count = 0, found = 0, given = 0, upto = 0;

    NEED(gist_map_restore(&map, k->key_class, &config, 1000, saved, 3));
    NEED(gist_map_state_of(&map, &state));
    check_state(__LINE__, state, 1000, 1000, 3, 9);
    gist_map_snapshot now = snapshot_of(&map);
    NEED(gist_map_snapshot_entries(&now, entries, ROOM, &count));
    IS(count, 3);
    for (uint64_t i = 0; i < 3; i++)
        check_entry(__LINE__, entries[i], saved[i].id, saved[i].key);
    IS(gist_map_snapshot_changes(&now, &query, 999, items, ROOM, &given, &upto), GIST_COMPACTED);

    NEED(gist_map_feed_create(&feed, k->key_class, 9));
    NEED(gist_map_feed_subscribe(&feed, &query, 999, &first));
    NEED(gist_map_feed_subscribe(&feed, &query, 1000, &second));
    NEED(gist_map_feed_subscribe(&feed, &query, 0, &third));
    IS(gist_map_feed_advance(&feed, &now, 9, told, ROOM, &given, &upto), GIST_COMPACTED);
    NEED(gist_map_feed_compacted(&feed, state.oldest, numbers, 1, &count));
    IS(count, 2);
    IS(numbers[0], first);
    IS(numbers[1], ABSENT);
    NEED(gist_map_feed_compacted(&feed, state.oldest, numbers, 2, &count));
    IS(numbers[1], third);
    NEED(gist_map_feed_unsubscribe(&feed, first));
    NEED(gist_map_feed_unsubscribe(&feed, third));
    NEED(gist_map_feed_compacted(&feed, state.oldest, numbers, 2, &count));
    IS(count, 0);

    NEED(gist_map_snapshot_find(&now, &query, entries, ROOM, &found));
    IS(found, 2);
    check_entry(__LINE__, entries[0], 20, k->close);
    check_entry(__LINE__, entries[1], 30, k->near);
    IS(put(&map, 10, k->near), 1001);
    gist_map_snapshot later = snapshot_of(&map);
    NEED(gist_map_feed_advance(&feed, &later, 9, told, ROOM, &given, &upto));
    IS(given, 1);
    IS(upto, 1001);
    IS(told[0].subscription, second);
    check_item(__LINE__, told[0].item, GIST_MAP_ENTERED, 1001, 10, k->near);

    gist_map_snapshot_free(&now);
    gist_map_snapshot_free(&later);
    gist_map_feed_free(&feed);
    gist_forget(&query);
    gist_map_free(&map);
}

/* A map is made within its limits, of entries that are apart, and each refusal leaves the handle empty. */
static void refusals(const keys *k) {
    const gist_map_entry twice[3] = {{1, k->near}, {2, k->far}, {1, k->close}};
    gist_map_config config = {{4, 2, 13, 12}, 3, 0};
    gist_map map = GIST_NONE;
    gist_map_feed feed = GIST_NONE;
    gist_map_snapshot snapshot = GIST_NONE;
    uint64_t revision = ABSENT;

    for (uint32_t other = 0; other <= 4; other += 4) {
        IS(gist_map_create(&map, other, &config), GIST_BAD_CONFIG);
        IS(gist_map_restore(&map, other, &config, 0, twice, 2), GIST_BAD_CONFIG);
        IS(gist_map_feed_create(&feed, other, 0), GIST_BAD_CONFIG);
    }
    config.history = 4;
    IS(gist_map_create(&map, k->key_class, &config), GIST_BAD_LIMITS);
    IS(gist_map_restore(&map, k->key_class, &config, 0, twice, 2), GIST_BAD_LIMITS);
    config.history = 3;
    config.limits.fan = 3;
    IS(gist_map_create(&map, k->key_class, &config), GIST_BAD_LIMITS);
    config.limits.fan = 4;
    IS(gist_map_restore(&map, k->key_class, &config, 0, twice, 3), GIST_BAD_CONFIG);
    NEED(gist_map_restore(&map, k->key_class, &config, 0, twice, 2));
    IS(gist_map_create(&map, k->key_class, &config), GIST_BAD_CONFIG);
    IS(gist_map_restore(&map, k->key_class, &config, 0, twice, 2), GIST_BAD_CONFIG);
    NEED(gist_map_snapshot_create(&map, &snapshot));
    IS(gist_map_snapshot_create(&map, &snapshot), GIST_BAD_CONFIG);
    gist_map_snapshot_free(&snapshot);
    gist_map_free(&map);
    gist_map_free(&map);

    config.limits.commits = 2;
    config.history = 0;
    const gist_map_entry three[3] = {{1, k->near}, {2, k->far}, {3, k->close}};
    IS(gist_map_restore(&map, k->key_class, &config, 0, three, 3), GIST_COMMITS_FULL);
    NEED(gist_map_restore(&map, k->key_class, &config, UINT64_MAX, three, 1));
    IS(gist_map_put(&map, 1, k->far, &revision), GIST_COMMITS_FULL);
    IS(gist_map_remove(&map, 1, &revision), GIST_COMMITS_FULL);
    IS(revision, ABSENT);
    gist_map_free(&map);
}

/* Keys whose ends are out of order; sets have none. */
static void bad_ends(uint32_t key_class, gist_key good, gist_key bad) {
    const gist_map_entry entries[2] = {{1, good}, {2, bad}};
    gist_map map = GIST_NONE;
    uint64_t revision = ABSENT;

    IS(gist_map_restore(&map, key_class, &greatest, 0, entries, 2), GIST_BAD_ENDS);
    NEED(gist_map_restore(&map, key_class, &greatest, 0, entries, 1));
    IS(gist_map_put(&map, 2, bad, &revision), GIST_BAD_ENDS);
    IS(revision, ABSENT);
    gist_map_free(&map);
}

/* Handles that are empty, hold something of another kind, or are of another class. */
static void handles(void) {
    const gist_key key = gist_interval(1, 2);
    gist_map map = GIST_NONE, no_map = GIST_NONE;
    gist_map_snapshot snapshot = GIST_NONE, no_snapshot = GIST_NONE;
    gist_map_feed feed = GIST_NONE, no_feed = GIST_NONE;
    gist_query query = query_for(GIST_INTERVALS, key), boxes = query_for(GIST_BOXES, gist_box(0, 0, 1, 1)), no_query = GIST_NONE;
    gist_map_state state;
    gist_map_entry entries[ROOM];
    gist_map_item items[ROOM];
    gist_map_told told[ROOM];
    gist_key found_key;
    uint64_t n = ABSENT, m = ABSENT;
    bool has_key = false;

    map = map_of(GIST_INTERVALS, 0);
    snapshot = snapshot_of(&map);
    NEED(gist_map_feed_create(&feed, GIST_INTERVALS, 0));

    IS(gist_map_put(&no_map, 1, key, &n), GIST_NO_HANDLE);
    IS(gist_map_remove(&no_map, 1, &n), GIST_NO_HANDLE);
    IS(gist_map_get(&no_map, 1, &found_key, &has_key), GIST_NO_HANDLE);
    IS(gist_map_state_of(&no_map, &state), GIST_NO_HANDLE);
    IS(gist_map_snapshot_create(&no_map, &no_snapshot), GIST_NO_HANDLE);
    IS(gist_map_snapshot_state(&no_snapshot, &state), GIST_NO_HANDLE);
    IS(gist_map_snapshot_find(&no_snapshot, &query, entries, ROOM, &n), GIST_NO_HANDLE);
    IS(gist_map_snapshot_find(&snapshot, &no_query, entries, ROOM, &n), GIST_NO_HANDLE);
    IS(gist_map_snapshot_find_any(&no_snapshot, &query, entries, ROOM, &n), GIST_NO_HANDLE);
    IS(gist_map_snapshot_count(&no_snapshot, &query, &n), GIST_NO_HANDLE);
    IS(gist_map_snapshot_entries(&no_snapshot, entries, ROOM, &n), GIST_NO_HANDLE);
    IS(gist_map_snapshot_changes(&no_snapshot, &query, 0, items, ROOM, &n, &m), GIST_NO_HANDLE);
    IS(gist_map_feed_subscribe(&no_feed, &query, 0, &n), GIST_NO_HANDLE);
    IS(gist_map_feed_unsubscribe(&no_feed, 1), GIST_NO_HANDLE);
    IS(gist_map_feed_compacted(&no_feed, 0, &n, 1, &m), GIST_NO_HANDLE);
    IS(gist_map_feed_advance(&no_feed, &snapshot, 1, told, ROOM, &n, &m), GIST_NO_HANDLE);
    IS(gist_map_feed_advance(&feed, &no_snapshot, 1, told, ROOM, &n, &m), GIST_NO_HANDLE);

    /* a map's handle isn't a store's, whatever its type says */
    gist_limits limits = GIST_LIMITS;
    gist_store store = GIST_NONE;
    gist_snapshot taken = GIST_NONE;
    NEED(gist_create(&store, GIST_INTERVALS, &limits));
    IS(gist_map_put((gist_map *)(void *)&store, 1, key, &n), GIST_NO_HANDLE);
    IS(gist_map_snapshot_create((gist_map *)(void *)&store, &no_snapshot), GIST_NO_HANDLE);
    IS(gist_take((gist_store *)(void *)&map, &taken), GIST_NO_HANDLE);
    IS(gist_sweep((gist_store *)(void *)&map, &n), GIST_NO_HANDLE);
    gist_destroy(&store);

    IS(gist_map_snapshot_find(&snapshot, &boxes, entries, ROOM, &n), GIST_OTHER_CLASS);
    IS(gist_map_snapshot_find_any(&snapshot, &boxes, entries, ROOM, &n), GIST_OTHER_CLASS);
    IS(gist_map_snapshot_count(&snapshot, &boxes, &n), GIST_OTHER_CLASS);
    IS(gist_map_snapshot_changes(&snapshot, &boxes, 0, items, ROOM, &n, &m), GIST_OTHER_CLASS);
    IS(gist_map_feed_subscribe(&feed, &boxes, 0, &n), GIST_OTHER_CLASS);
    gist_map of_boxes = map_of(GIST_BOXES, 0);
    gist_map_snapshot other = snapshot_of(&of_boxes);
    IS(gist_map_feed_advance(&feed, &other, 1, told, ROOM, &n, &m), GIST_OTHER_CLASS);
    IS(n, ABSENT);
    IS(m, ABSENT);
    gist_map_snapshot_free(&other);
    gist_map_free(&of_boxes);

    gist_map_feed_free(&feed);
    gist_map_snapshot_free(&snapshot);
    gist_map_free(&map);
    gist_forget(&query);
    gist_forget(&boxes);
}

/* A map whose store has few commits makes new ones as it goes on, so that it is never full, and keeps its history. */
static void goes_on_for_ever(void) {
    enum { IDS = 20, PUTS = 3000, HISTORY = 16 };
    const gist_map_config config = {{4, 2, 129, 128}, HISTORY, 1};
    gist_map map = GIST_NONE;
    gist_query query = query_for(GIST_INTERVALS, gist_interval(INT64_MIN, INT64_MAX));
    gist_map_state state;
    gist_map_item items[HISTORY];
    uint64_t given = 0, upto = 0;

    NEED(gist_map_create(&map, GIST_INTERVALS, &config));
    for (uint64_t i = 1; i <= PUTS; i++) {
        IS(put(&map, i % IDS, gist_interval((int64_t)i, (int64_t)i + 5)), i);
        if (i % 500)
            continue;
        gist_map_snapshot now = snapshot_of(&map);
        NEED(gist_map_snapshot_state(&now, &state));
        IS(state.revision, i);
        IS(state.len, IDS);
        IS(state.oldest > 0 && state.oldest + HISTORY <= i, true);
        NEED(gist_map_snapshot_changes(&now, &query, i - HISTORY, items, HISTORY, &given, &upto));
        IS(given, HISTORY);
        IS(upto, i);
        check_item(__LINE__, items[HISTORY - 1], GIST_MAP_MOVED, i, i % IDS, gist_interval((int64_t)i, (int64_t)i + 5));
        IS(gist_map_snapshot_changes(&now, &query, state.oldest - 1, items, HISTORY, &given, &upto), GIST_COMPACTED);
        gist_map_snapshot_free(&now);
    }
    gist_forget(&query);
    gist_map_free(&map);
}

int main(void) {
    const keys all[3] = {
        {GIST_INTERVALS, gist_interval(5, 9), gist_interval(-3, 6), gist_interval(40, 41), gist_interval(6, 20)},
        {GIST_BOXES, gist_box(0, 0, 4, 4), gist_box(-3, 2, 9, 3), gist_box(70, 70, 71, 72), gist_box(3, 3, 8, 8)},
        {GIST_SETS, gist_set(3, 0), gist_set(6, 1), gist_set(0, 8), gist_set(2, 4)},
    };
    for (int i = 0; i < 3; i++) {
        calls(&all[i]);
        feeds(&all[i]);
        restores(&all[i]);
        refusals(&all[i]);
    }
    bad_ends(GIST_INTERVALS, gist_interval(1, 1), gist_interval(1, 0));
    bad_ends(GIST_BOXES, gist_box(1, 1, 1, 1), gist_box(0, 1, 1, 0));
    handles();
    goes_on_for_ever();
    return failures ? 1 : 0;
}
