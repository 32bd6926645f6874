/*
 * Every call that requests memory, for each class. A call that is refused for lack of memory is made again; then it has
 * to succeed, and everything has to be as if it had not been refused. tests/examples runs this with each request for
 * memory refused, one in each run.
 *
 * It prints nothing, and ends with status 0, or tells the line of the first thing that isn't as it should be.
 */
#include "checks.h"
#include "gist.h"

#define ROWS 24

/* Makes a call, and makes it again if memory ran out: one request is refused in a run. */
#define NEED(call)                                                                                  \
    do {                                                                                            \
        uint32_t answer = (call);                                                                   \
        if (answer == GIST_OUT_OF_MEMORY)                                                           \
            answer = (call);                                                                        \
        IS(answer, GIST_OK);                                                                        \
    } while (0)

/* The keys of a class, one for each number, each of which overlaps the one that overlaps all. */
static gist_key key(uint32_t key_class, int at) {
    switch (key_class) {
    case GIST_INTERVALS:
        return gist_interval(at, at + 2);
    case GIST_BOXES:
        return gist_box(at, at, at + 2, at + 2);
    default:
        return gist_set(UINT64_C(1) << at, 1);
    }
}

static const char *all(uint32_t key_class) {
    static const char *const texts[] = {"overlaps (-9 99)", "overlaps (-9 -9 99 99)", "holds {64}"};
    return texts[key_class - GIST_INTERVALS];
}

static size_t length(const char *text) {
    size_t count = 0;
    while (text[count] != 0)
        count++;
    return count;
}

/* Inserts all rows of a list, however many calls that takes. */
static void insert_all(gist_store *store, const gist_entry *entries) {
    uint64_t added;
    for (uint64_t done = 0; done < ROWS; done += added)
        NEED(gist_insert(store, entries + done, ROWS - done, &added));
}

static void delete_all(gist_store *store, const uint64_t *rows, size_t n) {
    uint64_t deleted;
    for (uint64_t done = 0; done < n; done += deleted)
        NEED(gist_delete(store, rows + done, n - done, &deleted));
}

/* Takes all that a cursor gives, and counts it. */
static uint64_t take_all(gist_store *store, uint64_t cursor) {
    gist_item items[5];
    uint64_t given, count = 0;
    do {
        NEED(gist_next(store, cursor, items, 5, &given));
        count += given;
    } while (given > 0);
    return count;
}

/* Asks a snapshot of ROWS rows, of which two were deleted and one was moved by the last three commits. */
static void ask(const gist_snapshot *snapshot, const gist_query *every, uint32_t key_class) {
    const gist_key keys[2] = {key(key_class, 5), key(key_class, 5)};
    gist_row rows[ROWS], row;
    gist_item items[ROWS + 3];
    uint64_t n, upto, ends[2];
    bool lives;

    NEED(gist_find(snapshot, every, rows, ROWS, &n));
    IS(n, ROWS - 2);
    IS(gist_find_any(snapshot, every, rows, ROWS, &n), GIST_OK);
    IS(n, ROWS - 2);
    IS(gist_count(snapshot, every, &n), GIST_OK);
    IS(n, ROWS - 2);
    NEED(gist_row_of(snapshot, 6, &row, &lives));
    IS(row.tag == 5 && lives, true);
    for (uint64_t answered = 0; answered < 2; answered += n)
        NEED(gist_find_each(snapshot, GIST_SAME, keys + answered, 2 - answered, rows, ROWS, ends, 2, &n));
    NEED(gist_changes(snapshot, every, 0, items, ROWS + 3, &n, &upto));
    IS(n == ROWS + 3 && upto == ROWS + 3, true);
}

static void follow(gist_feed *feed, gist_snapshot *snapshot, gist_query *every) {
    gist_told buffer[7];
    uint64_t one, two, given, upto = 0, count = 0;

    NEED(gist_subscribe(feed, every, 0, &one));
    NEED(gist_subscribe(feed, every, ROWS, &two));
    do {
        NEED(gist_advance(feed, snapshot, 10, buffer, 7, &given, &upto));
        count += given;
    } while (given > 0 || upto < ROWS + 3);
    IS(count, ROWS + 3 + 3);
    IS(gist_unsubscribe(feed, one), GIST_OK);
}

static void call_all(uint32_t key_class) {
    const gist_limits limits = {4, 2, 200, 200};
    const uint64_t gone[2] = {1, 2};
    gist_store store = GIST_NONE, anew = GIST_NONE;
    gist_snapshot now = GIST_NONE;
    gist_query every = GIST_NONE, one = GIST_NONE;
    gist_feed feed = GIST_NONE;
    gist_entry entries[ROWS];
    uint64_t cursor, follower, fault, n, numbers[ROWS];

    for (int at = 0; at < ROWS; at++)
        entries[at] = (gist_entry){key(key_class, at), (uint64_t)at};
    NEED(gist_create(&store, key_class, &limits));
    NEED(gist_prepare(&every, key_class, all(key_class), length(all(key_class)), &fault));
    NEED(gist_ask(&one, key_class, GIST_SAME, key(key_class, 5)));
    insert_all(&store, entries);
    NEED(gist_open(&store, &every, &cursor));
    NEED(gist_follow(&store, &one, 0, &follower));
    IS(take_all(&store, cursor), ROWS);
    delete_all(&store, gone, 2);
    NEED(gist_move(&store, 3, key(key_class, 30), &n));
    IS(n, ROWS + 3);
    IS(take_all(&store, cursor), 3);
    IS(take_all(&store, follower), 1);
    NEED(gist_take(&store, &now));
    ask(&now, &every, key_class);
    NEED(gist_begin(&feed, key_class));
    follow(&feed, &now, &every);
    NEED(gist_renew(&now, &limits, &anew, numbers, ROWS, &n));
    IS(n, ROWS - 2);
    IS(gist_close(&store, cursor), GIST_OK);
    NEED(gist_sweep(&store, &n));
    gist_end(&feed);
    gist_drop(&now);
    gist_forget(&one);
    gist_forget(&every);
    gist_destroy(&anew);
    gist_destroy(&store);
}

/* Asks a snapshot of a map of ROWS ids, of which one was removed and one was moved by the last two revisions. */
static void ask_map(const gist_map_snapshot *snapshot, const gist_query *every) {
    gist_map_entry entries[ROWS];
    gist_map_item items[ROWS + 2];
    uint64_t n, upto;

    NEED(gist_map_snapshot_find(snapshot, every, entries, ROWS, &n));
    IS(n, ROWS - 1);
    IS(gist_map_snapshot_find_any(snapshot, every, entries, ROWS, &n), GIST_OK);
    IS(n, ROWS - 1);
    IS(gist_map_snapshot_count(snapshot, every, &n), GIST_OK);
    IS(n, ROWS - 1);
    NEED(gist_map_snapshot_entries(snapshot, entries, ROWS, &n));
    IS(n == ROWS - 1 && entries[ROWS - 2].id == 3, true);
    NEED(gist_map_snapshot_changes(snapshot, every, 0, items, ROWS + 2, &n, &upto));
    IS(n == ROWS + 2 && upto == ROWS + 2, true);
}

static void follow_map(gist_map_feed *feed, const gist_map_snapshot *snapshot, const gist_query *every) {
    gist_map_told buffer[7];
    uint64_t one, two, given, n, numbers[2], upto = 0, count = 0;

    NEED(gist_map_feed_subscribe(feed, every, 0, &one));
    NEED(gist_map_feed_subscribe(feed, every, ROWS, &two));
    NEED(gist_map_feed_compacted(feed, 1, numbers, 2, &n));
    IS(n == 1 && numbers[0] == one, true);
    do {
        NEED(gist_map_feed_advance(feed, snapshot, 10, buffer, 7, &given, &upto));
        count += given;
    } while (given > 0 || upto < ROWS + 2);
    IS(count, ROWS + 2 + 2);
    IS(gist_map_feed_unsubscribe(feed, one), GIST_OK);
}

static void call_maps(uint32_t key_class) {
    const gist_map_config config = {{4, 2, 200, 200}, 50, 1};
    gist_map map = GIST_NONE, anew = GIST_NONE;
    gist_map_snapshot now = GIST_NONE;
    gist_map_feed feed = GIST_NONE;
    gist_query every = GIST_NONE;
    gist_map_entry entries[ROWS];
    uint64_t n, fault;

    NEED(gist_prepare(&every, key_class, all(key_class), length(all(key_class)), &fault));
    NEED(gist_map_create(&map, key_class, &config));
    for (int at = 0; at < ROWS; at++)
        NEED(gist_map_put(&map, (uint64_t)at, key(key_class, at), &n));
    NEED(gist_map_remove(&map, 1, &n));
    NEED(gist_map_put(&map, 3, key(key_class, 30), &n));
    IS(n, ROWS + 2);
    NEED(gist_map_snapshot_create(&map, &now));
    ask_map(&now, &every);
    NEED(gist_map_feed_create(&feed, key_class, 1));
    follow_map(&feed, &now, &every);
    for (int at = 0; at < 8 * ROWS; at++) /* the map makes new stores meanwhile */
        NEED(gist_map_put(&map, (uint64_t)(at % ROWS), key(key_class, at % ROWS), &n));
    gist_map_snapshot_free(&now);
    NEED(gist_map_snapshot_create(&map, &now));
    NEED(gist_map_snapshot_entries(&now, entries, ROWS, &n));
    IS(n, ROWS);
    NEED(gist_map_restore(&anew, key_class, &config, 9 * ROWS, entries, ROWS));
    gist_map_feed_free(&feed);
    gist_map_snapshot_free(&now);
    gist_map_free(&anew);
    gist_map_free(&map);
    gist_forget(&every);
}

int main(void) {
    for (uint32_t key_class = GIST_INTERVALS; key_class <= GIST_SETS; key_class++) {
        call_all(key_class);
        call_maps(key_class);
    }
    return 0;
}
