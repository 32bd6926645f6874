/*
 * Every function of the library, with every refusal that can be had without a lack of memory, for each class.
 *
 *     cc -std=c11 -Wall -Wextra -pedantic tests/library/calls.c -IFOLDER FOLDER/libgist.a && ./a.out
 *
 * It prints nothing, and ends with status 0, or tells the line of the first thing that isn't as it should be.
 */
#include <string.h>

#include "checks.h"
#include "gist.h"

static int same_key(gist_key a, gist_key b) {
    return a.words[0] == b.words[0] && a.words[1] == b.words[1];
}

/* Some keys of a class, of which the first overlaps the second and none overlaps the third. */
typedef struct keys {
    uint32_t key_class;
    gist_key one, two, far;
    const char *text; /* asks for what overlaps the first */
    uint32_t other_class;
} keys;

static void stores(const keys *k) {
    const gist_limits limits = {4, 2, 64, 12};
    gist_store store = GIST_NONE;
    gist_snapshot now = GIST_NONE, later = GIST_NONE;
    gist_query near = GIST_NONE, again = GIST_NONE, other = GIST_NONE;
    gist_entry entries[3] = {{gist_set(0, 0), 0}, {gist_set(0, 0), 0}, {gist_set(0, 0), 0}};
    gist_row rows[8], row;
    gist_item items[16], item;
    gist_figures figures;
    gist_standing standing;
    gist_key asked[2];
    uint64_t n = 77, cursor = 0, follower = 0, fault = 77, upto = 0, ends[2], numbers[8], gone[2] = {1, 1};
    bool lives = false;

    /* a handle of nothing */
    IS(gist_insert(&store, entries, 0, &n), GIST_NO_HANDLE);
    IS(gist_take(&store, &now), GIST_NO_HANDLE);
    IS(gist_stats(&store, &figures), GIST_NO_HANDLE);
    IS(gist_standing_of(&store, 0, &standing), GIST_NO_HANDLE);
    IS(gist_commits(&now, &n), GIST_NO_HANDLE);
    IS(gist_find(&now, &near, rows, 8, &n), GIST_NO_HANDLE);
    IS(gist_open(&store, &near, &cursor), GIST_NO_HANDLE);
    IS(n, 77);

    /* limits, classes and handles that have something */
    IS(gist_create(&store, 4, &limits), GIST_BAD_CONFIG);
    IS(gist_create(&store, k->key_class, &(gist_limits){3, 2, 64, 12}), GIST_BAD_LIMITS);
    IS(gist_create(&store, k->key_class, &limits), GIST_OK);
    IS(gist_create(&store, k->key_class, &limits), GIST_BAD_CONFIG);

    /* rows */
    entries[0] = (gist_entry){k->one, 10};
    entries[1] = (gist_entry){k->two, 20};
    entries[2] = (gist_entry){k->far, 30};
    IS(gist_insert(&store, entries, 3, &n), GIST_OK);
    IS(n, 3);
    IS(gist_delete(&store, gone, 0, &n), GIST_OK);
    IS(n, 0);
    gone[0] = 9;
    IS(gist_delete(&store, gone, 1, &n), GIST_NO_SUCH_ROW);

    /* queries */
    IS(gist_prepare(&near, 9, k->text, strlen(k->text), &fault), GIST_BAD_CONFIG);
    IS(fault, 77);
    IS(gist_prepare(&near, k->key_class, "overlaps ?", 10, &fault), GIST_QUERY_TEXT);
    IS(fault, 9);
    IS(gist_prepare(&near, k->key_class, k->text, strlen(k->text), &fault), GIST_OK);
    IS(gist_prepare(&near, k->key_class, k->text, strlen(k->text), &fault), GIST_BAD_CONFIG);
    IS(gist_ask(&again, k->key_class, 5, k->one), GIST_BAD_CONFIG);
    IS(gist_ask(&again, k->key_class, GIST_OVERLAPS, k->one), GIST_OK);
    IS(gist_ask(&other, k->other_class, GIST_OVERLAPS, gist_set(0, 0)), GIST_OK);

    /* cursors */
    IS(gist_open(&store, &other, &cursor), GIST_OTHER_CLASS);
    IS(gist_open(&store, &near, &cursor), GIST_OK);
    IS(cursor, 1);
    IS(gist_follow(&store, &near, 4, &follower), GIST_FROM_FUTURE);
    IS(gist_follow(&store, &near, 1, &follower), GIST_OK);
    IS(follower, 2);
    IS(gist_next(&store, 3, items, 16, &n), GIST_NO_SUCH_CURSOR);

    /* a snapshot, which stays */
    IS(gist_take(&store, &now), GIST_OK);
    IS(gist_take(&store, &now), GIST_BAD_CONFIG);
    IS(gist_move(&store, 1, k->far, &n), GIST_OK);
    IS(n, 4);
    gone[0] = 2;
    gone[1] = 2;
    IS(gist_delete(&store, gone, 2, &n), GIST_OK);
    IS(n, 1);
    IS(gist_delete(&store, gone + 1, 1, &n), GIST_ALREADY_DELETED);
    IS(gist_take(&store, &later), GIST_OK);
    IS(gist_commits(&now, &n), GIST_OK);
    IS(n, 3);
    IS(gist_commits(&later, &n), GIST_OK);
    IS(n, 5);

    /* finds */
    IS(gist_find(&now, &near, rows, 8, &n), GIST_OK);
    IS(n, 2);
    IS(rows[0].row, 1);
    IS(rows[0].tag, 10);
    IS(same_key(rows[0].key, k->one), 1);
    IS(rows[1].row, 2);
    IS(same_key(rows[1].key, k->two), 1);
    rows[1].row = 77;
    IS(gist_find(&now, &again, rows, 1, &n), GIST_OK);
    IS(n, 2);
    IS(rows[1].row, 77);
    IS(gist_find(&now, &other, rows, 8, &n), GIST_OTHER_CLASS);
    rows[1].row = 77;
    IS(gist_find_any(&now, &again, rows, 1, &n), GIST_OK);
    IS(n, 2);
    IS(rows[0].row == 1 || rows[0].row == 2, true);
    IS(rows[1].row, 77);
    IS(gist_find_any(&now, &near, rows, 8, &n), GIST_OK);
    IS(n, 2);
    IS(rows[0].row + rows[1].row, 3);
    IS(rows[0].tag, 10 * rows[0].row);
    IS(same_key(rows[0].key, rows[0].row == 1 ? k->one : k->two), 1);
    IS(gist_find_any(&now, &near, rows, 0, &n), GIST_OK);
    IS(n, 2);
    IS(gist_find_any(&later, &near, rows, 8, &n), GIST_OK);
    IS(n, 0);
    IS(gist_find_any(&now, &other, rows, 8, &n), GIST_OTHER_CLASS);
    IS(gist_count(&now, &near, &n), GIST_OK);
    IS(n, 2);
    IS(gist_count(&later, &near, &n), GIST_OK);
    IS(n, 0);
    IS(gist_count(&now, &other, &n), GIST_OTHER_CLASS);
    asked[0] = k->one;
    asked[1] = k->far;
    IS(gist_find_each(&now, GIST_OVERLAPS, asked, 2, rows, 8, ends, 2, &n), GIST_OK);
    IS(n, 2);
    IS(ends[0], 2);
    IS(ends[1], 3);
    IS(rows[2].row, 3);
    IS(gist_find_each(&now, GIST_OVERLAPS, asked, 2, rows, 2, ends, 2, &n), GIST_OK);
    IS(n, 1);
    IS(gist_find_each(&now, 0, asked, 2, rows, 8, ends, 2, &n), GIST_BAD_CONFIG);

    /* rows and commits by their numbers */
    IS(gist_row_of(&now, 1, &row, &lives), GIST_OK);
    IS(lives, true);
    IS(gist_row_of(&later, 1, &row, &lives), GIST_OK);
    IS(lives, false);
    IS(row.tag, 10);
    IS(same_key(row.key, k->one), 1);
    IS(gist_row_of(&later, 4, &row, &lives), GIST_OK);
    IS(lives, true);
    IS(row.tag, 10);
    IS(same_key(row.key, k->far), 1);
    IS(gist_row_of(&later, 5, &row, &lives), GIST_NO_SUCH_ROW);
    IS(gist_commit_of(&later, 5, &item), GIST_OK);
    IS(item.kind, GIST_DELETED);
    IS(item.number, 5);
    IS(item.ended, 2);
    IS(item.tag, 20);
    IS(same_key(item.key, k->two), 1);
    IS(gist_commit_of(&later, 4, &item), GIST_OK);
    IS(item.kind, GIST_MOVED);
    IS(item.ended, 1);
    IS(item.tag, 10);
    IS(same_key(item.key, k->far), 1);
    IS(gist_commit_of(&later, 6, &item), GIST_OK);
    IS(item.kind, GIST_NOTHING);

    /* changes */
    IS(gist_changes(&later, &near, 6, items, 16, &n, &upto), GIST_FROM_FUTURE);
    IS(gist_changes(&later, &other, 0, items, 16, &n, &upto), GIST_OTHER_CLASS);
    IS(gist_changes(&later, &near, 0, items, 16, &n, &upto), GIST_OK);
    IS(n, 4);
    IS(upto, 5);
    IS(items[0].kind, GIST_INSERTED);
    IS(items[2].kind, GIST_DELETED);
    IS(items[2].number, 4);
    IS(items[2].ended, 1);
    IS(same_key(items[2].key, k->one), 1);
    IS(items[3].kind, GIST_DELETED);
    IS(items[3].tag, 20);
    IS(gist_changes(&later, &near, 0, items, 3, &n, &upto), GIST_OK);
    IS(n, 3);
    IS(upto, 4);

    /* the cursor gives the rows that are there when it comes to them, and what follows */
    IS(gist_mark(&store, cursor), GIST_OK);
    IS(gist_next(&store, cursor, items, 16, &n), GIST_OK);
    IS(n >= 1, 1);
    IS(items[n - 1].kind, GIST_MARK);
    IS(items[n - 1].number, 5);
    IS(gist_next(&store, cursor, items, 16, &n), GIST_OK);
    IS(n, 0);
    IS(gist_next(&store, follower, items, 2, &n), GIST_OK);
    IS(n, 2);
    IS(items[0].kind, GIST_INSERTED);
    IS(items[0].number, 2);
    IS(items[1].kind, GIST_DELETED);
    IS(items[1].ended, 1);
    IS(items[1].tag, 10);
    IS(same_key(items[1].key, k->one), 1);
    IS(gist_stats(&store, &figures), GIST_OK);
    IS(figures.commits, 5);
    IS(figures.commit_limit, 12);
    IS(figures.page_limit, 64);
    IS(figures.cursors, 2);
    IS(gist_standing_of(&store, 0, &standing), GIST_OK);
    IS(standing.cursor, cursor);
    IS(standing.lag, 0);
    IS(gist_standing_of(&store, 1, &standing), GIST_OK);
    IS(standing.cursor, follower);
    IS(standing.opened, 1);
    IS(standing.lag, 1);
    IS(standing.is_scanning, false);
    IS(gist_standing_of(&store, 2, &standing), GIST_OK);
    IS(standing.cursor, 0);
    IS(gist_close(&store, follower), GIST_OK);
    IS(gist_close(&store, follower), GIST_CURSOR_CLOSED);
    IS(gist_mark(&store, follower), GIST_CURSOR_CLOSED);
    IS(gist_sweep(&store, &n), GIST_OK);
    IS(n, 2);

    /* until the commits are full */
    for (int i = 0; i < 7; i++) {
        IS(gist_insert(&store, entries, 1, &n), GIST_OK);
        IS(n, 1);
    }
    IS(gist_insert(&store, entries, 1, &n), GIST_COMMITS_FULL);

    /* anew */
    IS(gist_renew(&later, &limits, &store, numbers, 8, &n), GIST_BAD_CONFIG);
    gist_destroy(&store);
    IS(gist_renew(&later, &(gist_limits){4, 2, 64, 0}, &store, numbers, 8, &n), GIST_BAD_LIMITS);
    IS(gist_renew(&later, &(gist_limits){4, 2, 64, 1}, &store, numbers, 8, &n), GIST_COMMITS_FULL);
    IS(gist_renew(&later, &limits, &store, numbers, 8, &n), GIST_OK);
    IS(n, 2);
    IS(numbers[0], 3);
    IS(numbers[1], 4);
    gist_drop(&later);
    IS(gist_take(&store, &later), GIST_OK);
    IS(gist_commits(&later, &n), GIST_OK);
    IS(n, 2);
    IS(gist_renew(&later, &limits, &store, numbers, 8, &n), GIST_BAD_CONFIG);
    gist_destroy(&store);
    gist_destroy(&store);
    IS(gist_renew(&now, &limits, &store, numbers, 1, &n), GIST_OK);
    IS(n, 3);
    gist_destroy(&store);

    /* a handle of something else */
    IS(gist_insert((gist_store *)(void *)&now, entries, 1, &n), GIST_NO_HANDLE);
    gist_drop(&now);
    gist_drop(&later);
    IS(gist_commits(&later, &n), GIST_NO_HANDLE);
    gist_forget(&near);
    gist_forget(&again);
    gist_forget(&other);
}

/* A feed over snapshots: what each subscription is given, and what waits. */
static void feeds(const keys *k) {
    const gist_limits limits = {4, 2, 64, 12};
    gist_store store = GIST_NONE;
    gist_snapshot now = GIST_NONE, none = GIST_NONE;
    gist_query near = GIST_NONE, far = GIST_NONE, other = GIST_NONE;
    gist_feed feed = GIST_NONE;
    gist_entry entries[3] = {{k->one, 10}, {k->two, 20}, {k->far, 30}};
    gist_told told_items[8];
    uint64_t n = 77, upto = 0, first = 0, second = 0, row = 1;

    IS(gist_subscribe(&feed, &near, 0, &first), GIST_NO_HANDLE);
    IS(gist_advance(&feed, &now, 9, told_items, 8, &n, &upto), GIST_NO_HANDLE);
    IS(gist_unsubscribe(&feed, 1), GIST_NO_HANDLE);
    IS(gist_begin(&feed, 0), GIST_BAD_CONFIG);
    IS(gist_begin(&feed, k->key_class), GIST_OK);
    IS(gist_begin(&feed, k->key_class), GIST_BAD_CONFIG);
    IS(gist_ask(&near, k->key_class, GIST_OVERLAPS, k->one), GIST_OK);
    IS(gist_ask(&far, k->key_class, GIST_SAME, k->far), GIST_OK);
    IS(gist_ask(&other, k->other_class, GIST_OVERLAPS, gist_set(0, 0)), GIST_OK);
    IS(gist_subscribe(&feed, &other, 0, &first), GIST_OTHER_CLASS);
    IS(gist_subscribe(&feed, &near, 0, &first), GIST_OK);
    IS(first, 1);
    IS(gist_subscribe(&feed, &far, 2, &second), GIST_OK);
    IS(second, 2);
    IS(gist_create(&store, k->key_class, &limits), GIST_OK);
    IS(gist_insert(&store, entries, 3, &n), GIST_OK);
    IS(gist_advance(&feed, &none, 9, told_items, 8, &n, &upto), GIST_NO_HANDLE);
    IS(gist_take(&store, &now), GIST_OK);
    IS(gist_advance(&feed, &now, 2, told_items, 1, &n, &upto), GIST_OK);
    IS(n, 1);
    IS(upto, 2);
    IS(told_items[0].subscription, first);
    IS(told_items[0].item.kind, GIST_INSERTED);
    IS(told_items[0].item.number, 1);
    IS(same_key(told_items[0].item.key, k->one), 1);
    IS(gist_advance(&feed, &now, 9, told_items, 8, &n, &upto), GIST_OK);
    IS(n, 1);
    IS(upto, 2);
    IS(told_items[0].item.number, 2);
    IS(gist_advance(&feed, &now, 9, told_items, 8, &n, &upto), GIST_OK);
    IS(n, 1);
    IS(upto, 3);
    IS(told_items[0].subscription, second);
    IS(told_items[0].item.tag, 30);
    IS(gist_unsubscribe(&feed, second), GIST_OK);
    IS(gist_unsubscribe(&feed, second), GIST_NOT_SUBSCRIBED);
    IS(gist_move(&store, row, k->far, &n), GIST_OK);
    gist_drop(&now);
    IS(gist_take(&store, &now), GIST_OK);
    IS(gist_advance(&feed, &now, 9, told_items, 8, &n, &upto), GIST_OK);
    IS(n, 1);
    IS(upto, 4);
    IS(told_items[0].subscription, first);
    IS(told_items[0].item.kind, GIST_DELETED);
    IS(told_items[0].item.ended, 1);
    IS(told_items[0].item.tag, 10);
    IS(same_key(told_items[0].item.key, k->one), 1);
    gist_destroy(&store);
    gist_drop(&now);
    IS(gist_create(&store, k->key_class, &limits), GIST_OK);
    IS(gist_take(&store, &now), GIST_OK);
    IS(gist_advance(&feed, &now, 9, told_items, 8, &n, &upto), GIST_FROM_FUTURE);
    gist_end(&feed);
    IS(gist_begin(&feed, k->other_class), GIST_OK);
    IS(gist_advance(&feed, &now, 9, told_items, 8, &n, &upto), GIST_OTHER_CLASS);
    gist_end(&feed);
    gist_destroy(&store);
    gist_drop(&now);
    gist_forget(&near);
    gist_forget(&far);
    gist_forget(&other);
}

static void names(void) {
    char name[16];

    memset(name, '?', sizeof name);
    IS(gist_refusal_name(GIST_COMMITS_FULL, name, sizeof name), 11);
    IS(strcmp(name, "CommitsFull"), 0);
    IS(gist_refusal_name(GIST_BAD_LIMITS, name, sizeof name), 9);
    IS(strcmp(name, "BadLimits"), 0);
    IS(gist_refusal_name(GIST_NO_HANDLE, name, 3), 8);
    IS(memcmp(name, "NoHLi", 5), 0);
    IS(gist_refusal_name(0, name, sizeof name), 0);
    IS(gist_refusal_name(GIST_COMPACTED, name, sizeof name), 9);
    IS(strcmp(name, "Compacted"), 0);
    IS(gist_refusal_name(GIST_OTHER_STORE, name, sizeof name), 10);
    IS(strcmp(name, "OtherStore"), 0);
    IS(gist_refusal_name(32, name, sizeof name), 0);
    IS(name[0], 0);
    IS(gist_version(), GIST_VERSION);
}

static void ends(void) {
    const gist_limits limits = GIST_LIMITS;
    const gist_entry bad = {gist_interval(2, 1), 1};
    gist_key keys[2];
    gist_store store = GIST_NONE;
    gist_snapshot now = GIST_NONE;
    gist_query query = GIST_NONE;
    gist_row rows[1];
    uint64_t n = 77, places[2];

    IS(gist_ask(&query, GIST_INTERVALS, GIST_SAME, gist_interval(2, 1)), GIST_BAD_ENDS);
    IS(gist_ask(&query, GIST_BOXES, GIST_SAME, gist_box(0, 1, 0, 0)), GIST_BAD_ENDS);
    IS(gist_create(&store, GIST_INTERVALS, &limits), GIST_OK);
    IS(gist_insert(&store, &bad, 1, &n), GIST_BAD_ENDS);
    IS(gist_move(&store, 1, gist_interval(2, 1), &n), GIST_BAD_ENDS);
    IS(gist_move(&store, 1, gist_interval_until(1, 2), &n), GIST_NO_SUCH_ROW);
    IS(gist_take(&store, &now), GIST_OK);
    keys[0] = gist_interval(2, 1);
    keys[1] = keys[0];
    IS(gist_find_each(&now, GIST_SAME, keys, 2, rows, 1, places, 2, &n), GIST_BAD_ENDS);
    keys[0] = gist_interval(INT64_MIN, INT64_MAX);
    IS(n, 77);
    IS(gist_find_each(&now, GIST_SAME, keys, 2, rows, 1, places, 2, &n), GIST_OK);
    IS(n, 1);
    gist_drop(&now);
    gist_destroy(&store);
}

int main(void) {
    keys intervals, boxes, sets;

    intervals.key_class = GIST_INTERVALS;
    intervals.one = gist_interval(-5, 9);
    intervals.two = gist_interval(9, INT64_MAX);
    intervals.far = gist_interval(INT64_MIN, -6);
    intervals.text = "overlaps (-5 9)";
    intervals.other_class = GIST_SETS;
    stores(&intervals);
    feeds(&intervals);
    boxes.key_class = GIST_BOXES;
    boxes.one = gist_box(-3, -3, 4, INT32_MAX);
    boxes.two = gist_box(4, 0, 9, 0);
    boxes.far = gist_box(INT32_MIN, INT32_MIN, -4, INT32_MAX);
    boxes.text = "overlaps (-3 -3 4 2147483647)";
    boxes.other_class = GIST_SETS;
    stores(&boxes);
    feeds(&boxes);
    sets.key_class = GIST_SETS;
    sets.one = gist_set(6, 0);
    sets.two = gist_set(4, 1);
    sets.far = gist_set(0, UINT64_C(1) << 63);
    sets.text = "overlaps {1 2}";
    sets.other_class = GIST_BOXES;
    stores(&sets);
    feeds(&sets);
    names();
    ends();
    return 0;
}
