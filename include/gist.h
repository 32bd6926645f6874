/*
 * gist: an in-memory index of rows by intervals, boxes or sets, whose readers can follow every change.
 *
 * A store has rows. Each row has a key, a number and a tag, a number that the caller chooses. Each insert, delete or
 * move that succeeds is a commit with the next number: 1, 2, 3 and so on. A row's number is that of the commit that
 * made it; a move ends a row and makes another, which has the new key and the same tag.
 *
 * A snapshot is a store's commits as they stood when it was taken; later commits don't change it. A find in it gives
 * the rows that match a query. A cursor of a store gives them one by one and then goes on: it gives each later change
 * that matters to the query, in the order of the commits, without a gap and without a repetition, whatever is done
 * meanwhile. A feed does that for many queries at once: it goes from snapshot to snapshot and gives each change to the
 * subscriptions that it matters to.
 *
 * A map keeps objects under ids of the caller's own, and lives for ever: it makes a new store of its own before one is
 * used up. Each change of a map makes a revision, and revisions are numbered on. A map has snapshots and feeds too.
 *
 *     gist_store store = GIST_NONE;
 *     gist_snapshot now = GIST_NONE;
 *     gist_query free = GIST_NONE;
 *     gist_limits limits = GIST_LIMITS;
 *     gist_entry day = {gist_interval(9, 17), 4711};
 *     gist_row rows[10];
 *     uint64_t n;
 *     if (gist_create(&store, GIST_INTERVALS, &limits) != GIST_OK) ...
 *     if (gist_insert(&store, &day, 1, &n) != GIST_OK) ...
 *     if (gist_ask(&free, GIST_INTERVALS, GIST_OVERLAPS, gist_interval(12, 13)) != GIST_OK) ...
 *     if (gist_take(&store, &now) != GIST_OK) ...
 *     if (gist_find(&now, &free, rows, 10, &n) != GIST_OK) ...
 *
 * What every caller must keep
 * ---------------------------
 * - Set a handle to GIST_NONE before its first use. Its fields belong to the library: don't read or write them, and
 *   don't copy a handle, since both copies would own the same thing. What a handle holds is freed by gist_destroy,
 *   gist_drop, gist_forget, gist_end, gist_map_free, gist_map_snapshot_free or gist_map_feed_free.
 * - Each pointer points to a valid value of its type, which may be written if the pointer isn't const, and no two
 *   pointers of a call point to the same value. A buffer has as many places as its length says, and isn't null.
 * - While a call has a non-const pointer to a handle, no other call may use that handle. Through const pointers any
 *   number of calls, on any threads, may read a handle at once. So threads may share a snapshot and the queries that
 *   they ask it. Threads that share a store or a map must put a lock of their own around each call (a readers-writer
 *   lock will do), or hand it on at the start or end of a thread; the library has no lock and starts no thread. A
 *   snapshot is a handle of its own: it may be searched during any call on the store, the map or other snapshots.
 * - No call is made from a signal handler, nor from the forked child of a process with threads.
 * - Memory comes from malloc, realloc and free. These belong to one allocator, and align blocks as the C standard asks:
 *   to 16 bytes if the size is a multiple of 16, to 8 if it is a multiple of 8, and so on. The machine is
 *   little-endian, as the words of a key are.
 *
 * What every call answers
 * -----------------------
 * 0 (GIST_OK), or the number of the refusal. A refused call changes neither the commits nor what a cursor still has to
 * give. It doesn't write through its pointers, except for `fault` when a query's text is refused. Every call is refused
 * with GIST_NO_HANDLE if a handle doesn't hold what the call is for, and with GIST_OTHER_CLASS if a query, a feed or a
 * snapshot is for keys of another class. A refused change of a map changes no key, but the map may forget older changes.
 */
#ifndef GIST_H
#define GIST_H

#include <assert.h>
#include <stdbool.h>
#include <stddef.h>
#include <stdint.h>

#ifdef __cplusplus
extern "C" {
#endif

#define GIST_VERSION_MAJOR 0
#define GIST_VERSION_MINOR 3
#define GIST_VERSION_PATCH 6
#define GIST_VERSION (GIST_VERSION_MAJOR * 1000000 + GIST_VERSION_MINOR * 1000 + GIST_VERSION_PATCH)

/* The GIST_VERSION of the library that the program runs with. */
uint32_t gist_version(void);

/* What a call answers. The numbers left out are refusals that no call of this header gives. */
enum {
    GIST_OK = 0,
    GIST_OUT_OF_MEMORY = 1,    /* the call ran out of memory */
    GIST_BAD_CONFIG = 2,       /* no such class or relation, or a handle that should be empty isn't */
    GIST_PAGES_FULL = 3,       /* fewer than two pages are left */
    GIST_COMMITS_FULL = 4,     /* there are as many commits as the limit */
    GIST_CURSORS_FULL = 5,     /* 256 cursors are open, or 4,294,967,295 were opened */
    GIST_FINDERS_FULL = 6,     /* 4,294,967,295 deletes and moves were begun */
    GIST_NO_SUCH_ROW = 14,     /* no insert or move has that number */
    GIST_ALREADY_DELETED = 15, /* the row was deleted or moved */
    GIST_NO_SUCH_CURSOR = 16,  /* the number was never given to a cursor */
    GIST_CURSOR_CLOSED = 17,   /* the cursor is closed */
    GIST_QUERY_TEXT = 21,      /* the query's text is wrong at the byte `fault` */
    GIST_FROM_FUTURE = 23,     /* there are fewer commits than the one to be followed, or the revision is yet to come */
    GIST_FEED_FULL = 24,       /* 1,000,000 subscriptions are open, or 4,294,967,295 were opened */
    GIST_NOT_SUBSCRIBED = 25,  /* no subscription with the number is open */
    GIST_BAD_ENDS = 26,        /* an end of a key is below its start */
    GIST_OTHER_CLASS = 27,     /* the handles are for different classes of keys */
    GIST_NO_HANDLE = 28,       /* a handle is empty, or holds something of another kind */
    GIST_BAD_LIMITS = 29,      /* a limit is out of range */
    GIST_COMPACTED = 30,       /* the map no longer knows the changes after the revision */
    GIST_OTHER_STORE = 31      /* the snapshot is of a map with another identity */
};

/*
 * Writes the name of a refusal, such as "CommitsFull", and a 0 after it into a buffer, as far as there is room, and
 * returns the name's length, which is 0 if no refusal has the number. No name is longer than 14 bytes, so a buffer of
 * 16 always suffices.
 */
size_t gist_refusal_name(uint32_t refusal, char *name, size_t room);

/* A handle of a store, of a snapshot, of a query or of a feed, of a map, its snapshot or its feed, or of nothing. */
typedef struct gist_store { bool is_open; void *inside; } gist_store;
typedef struct gist_snapshot { bool is_open; void *inside; } gist_snapshot;
typedef struct gist_query { bool is_open; void *inside; } gist_query;
typedef struct gist_feed { bool is_open; void *inside; } gist_feed;
typedef struct gist_map { bool is_open; void *inside; } gist_map;
typedef struct gist_map_snapshot { bool is_open; void *inside; } gist_map_snapshot;
typedef struct gist_map_feed { bool is_open; void *inside; } gist_map_feed;

#define GIST_NONE {false, NULL} /* an empty handle; every handle must be so before its first use */

/* The classes of keys. */
enum {
    GIST_INTERVALS = 1, /* the whole numbers from lo to hi, both inside */
    GIST_BOXES = 2,     /* the whole points (x, y) with x1 <= x <= x2 and y1 <= y <= y2 */
    GIST_SETS = 3       /* sets of the numbers from 0 to 127 */
};

/* A key: 16 bytes in every class. The store knows which member of the union its class uses. */
typedef union gist_key {
    struct {
        int64_t lo, hi;
    } interval;
    struct {
        int32_t x1, y1, x2, y2;
    } box;
    struct {
        uint64_t low, high; /* bit e of low for the element e, and bit e - 64 of high */
    } set;
    uint64_t words[2];
} gist_key;

/* The whole numbers from lo to hi. */
static inline gist_key gist_interval(int64_t lo, int64_t hi) {
    gist_key key;
    key.interval.lo = lo;
    key.interval.hi = hi;
    return key;
}

/* The whole numbers from lo to end - 1. `end` must be above INT64_MIN. */
static inline gist_key gist_interval_until(int64_t lo, int64_t end) {
    return gist_interval(lo, end - 1);
}

/* The whole points from (x1, y1) to (x2, y2). */
static inline gist_key gist_box(int32_t x1, int32_t y1, int32_t x2, int32_t y2) {
    gist_key key;
    key.box.x1 = x1;
    key.box.y1 = y1;
    key.box.x2 = x2;
    key.box.y2 = y2;
    return key;
}

/* The set of the numbers whose bits are set in two masks. */
static inline gist_key gist_set(uint64_t low, uint64_t high) {
    gist_key key;
    key.set.low = low;
    key.set.high = high;
    return key;
}

/* A row to add. */
typedef struct gist_entry {
    gist_key key;
    uint64_t tag;
} gist_entry;

/* A row. */
typedef struct gist_row {
    uint64_t row;
    uint64_t tag;
    gist_key key;
} gist_row;

/* What an item tells. */
enum {
    GIST_NOTHING = 0,  /* no item, no commit; all other fields are 0 */
    GIST_ROW = 1,      /* a row that was there at the opening: its number, key and tag */
    GIST_INSERTED = 2, /* a later row: its number, key and tag */
    GIST_DELETED = 3,  /* the commit `number` ended the row `ended`, whose key and tag these are */
    GIST_MOVED = 4,    /* the commit `number` ended the row `ended` and made one with this number, key and tag */
    GIST_MARK = 5      /* everything up to the commit `number` was given */
};

/* An item, or a commit. Fields that don't apply are 0. */
typedef struct gist_item {
    uint32_t kind;
    uint64_t number;
    uint64_t ended;
    uint64_t tag;
    gist_key key;
} gist_item;

/* --- stores --- */

/* The limits of a store. For many rows, 32 and 12 are good for fan and least. */
typedef struct gist_limits {
    uint32_t fan;     /* how many entries a page may have: 4 to 64 */
    uint32_t least;   /* the least number of entries on each side of a split: 2 to half of fan */
    uint32_t pages;   /* how many pages there may be: 1 to 65,536 */
    uint32_t commits; /* how many commits there may be: 1 to 16,777,216 */
} gist_limits;

#define GIST_LIMITS {32, 12, 65536, 16777216} /* the greatest limits, for many rows */

/*
 * Makes an empty store of a class, for an empty handle.
 *
 * GIST_BAD_CONFIG if no class has the number or the handle isn't empty, GIST_BAD_LIMITS; GIST_OUT_OF_MEMORY.
 */
uint32_t gist_create(gist_store *store, uint32_t key_class, const gist_limits *limits);

/* Frees what a handle holds, if it holds something, and leaves it empty. */
void gist_destroy(gist_store *store);

/* The figures of a store: its progress, and its limits. */
typedef struct gist_figures {
    uint64_t commits;
    uint64_t commit_limit;
    uint64_t pages;
    uint64_t page_limit;
    uint64_t cursors; /* how many are open */
    uint64_t horizon; /* a sweep removes the rows that ended up to this commit */
} gist_figures;

/* Gives the figures of a store. */
uint32_t gist_stats(const gist_store *store, gist_figures *figures);

/* Where an open cursor stands. All is 0 where there is none. */
typedef struct gist_standing {
    uint64_t cursor;
    uint64_t opened;  /* how many commits there were at its opening, or the commit that it follows */
    uint64_t lag;     /* how many commits it hasn't passed yet */
    bool is_scanning; /* whether it still goes over the rows of its opening: what ended since isn't swept meanwhile */
} gist_standing;

/* Tells where an open cursor stands: at place 0 the one that was opened first, then the next. */
uint32_t gist_standing_of(const gist_store *store, uint64_t place, gist_standing *standing);

/*
 * Adds n rows one after the other, until one is refused, and gives how many were added. Their numbers are the next
 * ones. If fewer than n were added, a call with the remaining rows tells why.
 *
 * If the first row is refused: GIST_BAD_ENDS; GIST_COMMITS_FULL; GIST_PAGES_FULL; GIST_OUT_OF_MEMORY.
 */
uint32_t gist_insert(gist_store *store, const gist_entry *rows, size_t n, uint64_t *added);

/*
 * Moves a row to a key by one commit, and gives the number of the row that it makes.
 *
 * GIST_BAD_ENDS; else GIST_NO_SUCH_ROW, else GIST_ALREADY_DELETED, else GIST_COMMITS_FULL, else GIST_FINDERS_FULL;
 * GIST_PAGES_FULL; GIST_OUT_OF_MEMORY.
 */
uint32_t gist_move(gist_store *store, uint64_t row, gist_key key, uint64_t *moved);

/*
 * Deletes n rows one after the other, until one is refused, and gives how many were deleted. Each is a commit.
 *
 * If the first row is refused: GIST_NO_SUCH_ROW, else GIST_ALREADY_DELETED, else GIST_COMMITS_FULL, else
 * GIST_FINDERS_FULL; GIST_OUT_OF_MEMORY.
 */
uint32_t gist_delete(gist_store *store, const uint64_t *rows, size_t n, uint64_t *deleted);

/*
 * Removes the ended rows that no open cursor needs any more, which makes room for others, and gives how many there were.
 *
 * GIST_OUT_OF_MEMORY; some of them may have been removed by then.
 */
uint32_t gist_sweep(gist_store *store, uint64_t *removed);

/* --- queries --- */

/* The relations of a row's key to a key that is asked for. Each has the meaning of the same word in a query's text. */
enum {
    GIST_OVERLAPS = 1, /* they have a point, or an element, in common */
    GIST_WITHIN = 2,   /* the row's key is within the key that is asked for */
    GIST_HOLDS = 3,    /* the row's key holds the key that is asked for */
    GIST_SAME = 4      /* they are the same */
};

/*
 * Parses the text of a query, for an empty handle. The query may then be used any number of times.
 *
 * A query is a text of ASCII bytes, which needs no 0 at its end: `overlaps`, `within`, `holds` and `same` with a key,
 * and `and`, `or`, `not` and round brackets, at most 32 deep and 4,096 bytes long. Keys are written `(9 17)`, `(x1 y1
 * x2 y2)` and `{2 5 64}`: "overlaps (9 17) and not within (0 9)".
 *
 * GIST_BAD_CONFIG if no class has the number or the handle isn't empty; GIST_QUERY_TEXT, and `fault` gets the place of
 * the first wrong byte, counted from 0; GIST_OUT_OF_MEMORY.
 */
uint32_t gist_prepare(gist_query *query, uint32_t key_class, const char *text, size_t length, uint64_t *fault);

/*
 * Makes the query for the keys that have a relation to a key, for an empty handle.
 *
 * GIST_BAD_CONFIG if no class or no relation has the number or the handle isn't empty, else GIST_BAD_ENDS;
 * GIST_OUT_OF_MEMORY.
 */
uint32_t gist_ask(gist_query *query, uint32_t key_class, uint32_t relation, gist_key key);

/* Frees what a handle holds, if it holds something, and leaves it empty. */
void gist_forget(gist_query *query);

/* --- snapshots --- */

/* Takes a snapshot of a store, for an empty handle. GIST_BAD_CONFIG if it isn't empty; GIST_OUT_OF_MEMORY. */
uint32_t gist_take(const gist_store *store, gist_snapshot *snapshot);

/* Frees what a handle holds, if it holds something, and leaves it empty. */
void gist_drop(gist_snapshot *snapshot);

/* Gives how many commits there were. */
uint32_t gist_commits(const gist_snapshot *snapshot, uint64_t *commits);

/* Gives the row with a number, and whether it was live. GIST_NO_SUCH_ROW; GIST_OUT_OF_MEMORY. */
uint32_t gist_row_of(const gist_snapshot *snapshot, uint64_t number, gist_row *row, bool *lives);

/* Gives the commit with a number, as an item of the kind GIST_INSERTED, GIST_DELETED or GIST_MOVED, or GIST_NOTHING. */
uint32_t gist_commit_of(const gist_snapshot *snapshot, uint64_t number, gist_item *commit);

/*
 * Writes the live rows that match a query into a buffer, by rising number, as many as fit, and gives how many there are
 * in all. The rest of the buffer is left alone.
 *
 * GIST_OUT_OF_MEMORY.
 */
uint32_t gist_find(const gist_snapshot *snapshot, const gist_query *query, gist_row *rows, size_t room, uint64_t *found);

/* The same in any order: it takes less time, and needs no memory. */
uint32_t gist_find_any(const gist_snapshot *snapshot, const gist_query *query, gist_row *rows, size_t room, uint64_t *found);

/* Counts the live rows that match a query. It needs no memory. */
uint32_t gist_count(const gist_snapshot *snapshot, const gist_query *query, uint64_t *count);

/*
 * Finds the live rows that have a relation to each of n keys. Writes them into a buffer, key after key, and gives how
 * many keys were answered. The rows of key i, counted from 0, end before place ends[i] of the buffer, and begin where
 * those of the key before end. It stops before a key whose rows don't all fit, for which `ends` has no place, or which
 * is refused and isn't the first.
 *
 * If the first key is refused: GIST_BAD_CONFIG if no relation has the number, else GIST_BAD_ENDS; GIST_OUT_OF_MEMORY.
 */
uint32_t gist_find_each(const gist_snapshot *snapshot, uint32_t relation, const gist_key *keys, size_t n, gist_row *rows,
                        size_t room, uint64_t *ends, size_t places, uint64_t *answered);

/*
 * Writes the changes of a query after the commit `from` into a buffer, in the order of the commits, until it is full.
 * Gives how many were written, and up to which commit they are complete: a further call goes on from there.
 *
 * GIST_FROM_FUTURE if there were fewer commits than `from`; GIST_OUT_OF_MEMORY.
 */
uint32_t gist_changes(const gist_snapshot *snapshot, const gist_query *query, uint64_t from, gist_item *items,
                      size_t room, uint64_t *given, uint64_t *upto);

/*
 * Makes a new store of the rows that were live in a snapshot, for an empty handle: for when a store has hardly any
 * commits left. The rows keep their keys and tags, and are numbered from 1 again, in the same order; their inserts are
 * the store's only commits. Writes the numbers that they had into a buffer, as many as fit, and gives how many rows
 * there are.
 *
 * GIST_BAD_CONFIG if the handle isn't empty, GIST_BAD_LIMITS; GIST_COMMITS_FULL or GIST_PAGES_FULL if the limits are
 * too small for the rows; GIST_OUT_OF_MEMORY.
 */
uint32_t gist_renew(const gist_snapshot *snapshot, const gist_limits *limits, gist_store *store, uint64_t *numbers,
                    size_t room, uint64_t *living);

/* --- cursors --- */

/*
 * Opens a cursor on a query, and gives its number, which no other cursor of the store gets. The cursor gives the rows
 * that match now, in some order, and then the later changes. The query isn't kept: it may be freed with gist_forget.
 *
 * GIST_CURSORS_FULL; GIST_OUT_OF_MEMORY.
 */
uint32_t gist_open(gist_store *store, const gist_query *query, uint64_t *cursor);

/*
 * Opens a cursor that follows a commit: it gives only the changes after that commit. With a mark's number it goes on
 * where the mark was given; with 0 it gives all changes from the beginning.
 *
 * GIST_FROM_FUTURE if there are fewer commits than that; else as gist_open.
 */
uint32_t gist_follow(gist_store *store, const gist_query *query, uint64_t commit, uint64_t *cursor);

/*
 * Gives a cursor's next items, until the buffer is full, nothing is left or the next is refused, and how many they are.
 * If it gives fewer than there is room for, call it again: no items and GIST_OK means that nothing is left. A room of 0
 * asks for nothing, and is refused only if the handle holds no store.
 *
 * If the first is refused: GIST_NO_SUCH_CURSOR, GIST_CURSOR_CLOSED; GIST_OUT_OF_MEMORY, and the next call goes on.
 */
uint32_t gist_next(gist_store *store, uint64_t cursor, gist_item *items, size_t room, uint64_t *given);

/*
 * Asks a cursor for a mark: an item with the number of a commit, which shows that everything up to that commit was
 * given. It comes after everything that is due before it. GIST_NO_SUCH_CURSOR, GIST_CURSOR_CLOSED.
 */
uint32_t gist_mark(gist_store *store, uint64_t cursor);

/* Closes a cursor. It gives nothing more. GIST_NO_SUCH_CURSOR, GIST_CURSOR_CLOSED. */
uint32_t gist_close(gist_store *store, uint64_t cursor);

/* --- feeds --- */

/* An item that a feed gives to a subscription: GIST_INSERTED, GIST_DELETED or GIST_MOVED. */
typedef struct gist_told {
    uint64_t subscription;
    gist_item item;
} gist_told;

/*
 * Makes a feed of a class, for an empty handle. It has no subscriptions, and has gone over no commit yet.
 *
 * GIST_BAD_CONFIG if no class has the number or the handle isn't empty; GIST_OUT_OF_MEMORY.
 */
uint32_t gist_begin(gist_feed *feed, uint32_t key_class);

/* Frees what a handle holds, if it holds something, and leaves it empty. */
void gist_end(gist_feed *feed);

/*
 * Subscribes to the changes of a query after the commit `from`, and returns the subscription's number. If the feed has
 * already processed later commits, its next advance delivers what was missed.
 *
 * GIST_FEED_FULL; GIST_OUT_OF_MEMORY.
 */
uint32_t gist_subscribe(gist_feed *feed, const gist_query *query, uint64_t from, uint64_t *subscription);

/* Ends a subscription. Items for it that already wait are still given. GIST_NOT_SUBSCRIBED. */
uint32_t gist_unsubscribe(gist_feed *feed, uint64_t subscription);

/*
 * Processes at most `most` further commits of a snapshot, and writes the items of each subscription into a buffer.
 * Items that don't fit wait. A call that finds items waiting processes no further commit: it writes them first, and
 * after them what new subscriptions have missed. If fewer items are written than there is room for, none waits. Returns
 * how many items were written, and the last commit that was processed. All snapshots that a feed processes must be of
 * one store.
 *
 * GIST_FROM_FUTURE if the snapshot has fewer commits than the feed has processed, also while items wait;
 * GIST_OUT_OF_MEMORY.
 */
uint32_t gist_advance(gist_feed *feed, const gist_snapshot *snapshot, uint64_t most, gist_told *told, size_t room,
                      uint64_t *given, uint64_t *upto);

/* --- maps --- */

/* The limits of a map. */
typedef struct gist_map_config {
    gist_limits limits; /* those of each store that the map is kept in */
    uint32_t history;   /* how many of the last changes it keeps at least: at most a quarter of limits.commits */
    uint64_t identity;  /* tells maps apart: a number that no other map of the program has, if the map has feeds */
} gist_map_config;

#define GIST_MAP_CONFIG {{32, 12, 65536, 16777216}, 65536, 0} /* for many entries; set the identity if there are feeds */

/* An entry of a map. */
typedef struct gist_map_entry {
    uint64_t id;
    gist_key key;
} gist_map_entry;

/* What a revision means for a query. */
enum {
    GIST_MAP_NOTHING = 0, /* no item */
    GIST_MAP_ENTERED = 1, /* the id has this key now, which matches; it had none that matched */
    GIST_MAP_MOVED = 2,   /* the id has this key now, which matches, as did the key that it had */
    GIST_MAP_LEFT = 3     /* the id had a key that matched, and has none now; the key is 0 */
};

/* An item of a map. */
typedef struct gist_map_item {
    uint32_t kind;
    uint64_t revision;
    uint64_t id;
    gist_key key;
} gist_map_item;

/* An item that a feed of a map delivers to a subscription. */
typedef struct gist_map_told {
    uint64_t subscription;
    gist_map_item item;
} gist_map_told;

/* Where a map is. */
typedef struct gist_map_state {
    uint64_t revision; /* the last revision */
    uint64_t oldest;   /* the oldest revision: the changes after it are known */
    uint64_t len;      /* how many ids have a key */
    uint64_t identity; /* that of its configuration */
} gist_map_state;

/*
 * Makes a map of a class without entries, at revision 0, for an empty handle.
 *
 * GIST_BAD_CONFIG if no class has the number or the handle isn't empty, GIST_BAD_LIMITS; GIST_OUT_OF_MEMORY.
 */
uint32_t gist_map_create(gist_map *map, uint32_t key_class, const gist_map_config *config);

/*
 * Makes a map of a class at a revision, for an empty handle. It has n entries, in the order of their last put, and knows
 * no change before that revision. gist_map_snapshot_entries and gist_map_snapshot_state return what has to be saved.
 *
 * GIST_BAD_CONFIG if no class has the number or the handle isn't empty, GIST_BAD_LIMITS, else GIST_BAD_ENDS;
 * GIST_BAD_CONFIG if an id comes twice; GIST_COMMITS_FULL or GIST_PAGES_FULL if the limits are too small for the
 * entries; GIST_OUT_OF_MEMORY.
 */
uint32_t gist_map_restore(gist_map *map, uint32_t key_class, const gist_map_config *config, uint64_t revision,
                          const gist_map_entry *entries, size_t n);

/* Frees what a handle holds, if it holds something, and leaves it empty. */
void gist_map_free(gist_map *map);

/*
 * Puts a key under an id, which may have one, and returns the revision that this makes.
 *
 * GIST_BAD_ENDS; else GIST_COMMITS_FULL, GIST_PAGES_FULL, GIST_FINDERS_FULL; GIST_OUT_OF_MEMORY.
 */
uint32_t gist_map_put(gist_map *map, uint64_t id, gist_key key, uint64_t *revision);

/*
 * Removes the key of an id, and returns the revision that this makes, or 0 if the id has no key: then there is no
 * revision.
 *
 * GIST_COMMITS_FULL, GIST_FINDERS_FULL; GIST_OUT_OF_MEMORY.
 */
uint32_t gist_map_remove(gist_map *map, uint64_t id, uint64_t *revision);

/* Returns whether an id has a key, and the key, which is 0 if it has none. */
uint32_t gist_map_get(const gist_map *map, uint64_t id, gist_key *key, bool *has_key);

/* Returns where a map is. */
uint32_t gist_map_state_of(const gist_map *map, gist_map_state *state);

/* --- snapshots of maps --- */

/* Takes a snapshot of a map, for an empty handle. GIST_BAD_CONFIG if it isn't empty; GIST_OUT_OF_MEMORY. */
uint32_t gist_map_snapshot_create(const gist_map *map, gist_map_snapshot *snapshot);

/* Frees what a handle holds, if it holds something, and leaves it empty. */
void gist_map_snapshot_free(gist_map_snapshot *snapshot);

/* Returns where the map was. */
uint32_t gist_map_snapshot_state(const gist_map_snapshot *snapshot, gist_map_state *state);

/*
 * Writes the entries that match a query into a buffer, in the order of their last put, as many as fit, and returns how
 * many there are in all. The rest of the buffer is unchanged.
 *
 * GIST_OUT_OF_MEMORY.
 */
uint32_t gist_map_snapshot_find(const gist_map_snapshot *snapshot, const gist_query *query, gist_map_entry *entries,
                                size_t room, uint64_t *found);

/* The same in any order: it takes less time, and needs no memory. */
uint32_t gist_map_snapshot_find_any(const gist_map_snapshot *snapshot, const gist_query *query, gist_map_entry *entries,
                                    size_t room, uint64_t *found);

/* Counts the entries that match a query. It needs no memory. */
uint32_t gist_map_snapshot_count(const gist_map_snapshot *snapshot, const gist_query *query, uint64_t *count);

/*
 * Writes all entries into a buffer, in the order of their last put, as many as fit, and returns how many there are.
 *
 * GIST_OUT_OF_MEMORY.
 */
uint32_t gist_map_snapshot_entries(const gist_map_snapshot *snapshot, gist_map_entry *entries, size_t room,
                                   uint64_t *count);

/*
 * Writes the items of a query after the revision `from` into a buffer, in the order of the revisions, until it is full.
 * Returns how many were written, and up to which revision they are complete: a further call goes on from there.
 *
 * GIST_COMPACTED if `from` is before the oldest revision: find again; GIST_FROM_FUTURE if it is after the last;
 * GIST_OUT_OF_MEMORY.
 */
uint32_t gist_map_snapshot_changes(const gist_map_snapshot *snapshot, const gist_query *query, uint64_t from,
                                   gist_map_item *items, size_t room, uint64_t *given, uint64_t *upto);

/* --- feeds of maps --- */

/*
 * Makes a feed of the map of a class that has an identity, for an empty handle. It has no subscriptions, and has
 * processed no revision yet.
 *
 * GIST_BAD_CONFIG if no class has the number or the handle isn't empty; GIST_OUT_OF_MEMORY.
 */
uint32_t gist_map_feed_create(gist_map_feed *feed, uint32_t key_class, uint64_t identity);

/* Frees what a handle holds, if it holds something, and leaves it empty. */
void gist_map_feed_free(gist_map_feed *feed);

/*
 * Subscribes to the items of a query after the revision `from`, and returns the subscription's number. If the feed has
 * already processed later revisions, its next advance delivers what was missed.
 *
 * GIST_FEED_FULL; GIST_OUT_OF_MEMORY.
 */
uint32_t gist_map_feed_subscribe(gist_map_feed *feed, const gist_query *query, uint64_t from, uint64_t *subscription);

/* Ends a subscription. Items for it that already wait are still delivered. GIST_NOT_SUBSCRIBED. */
uint32_t gist_map_feed_unsubscribe(gist_map_feed *feed, uint64_t subscription);

/*
 * Writes the numbers of the subscriptions that need items from before a revision into a buffer, rising, as many as fit,
 * and returns how many they are. A snapshot whose oldest revision that is can't be processed until they are ended.
 *
 * GIST_OUT_OF_MEMORY.
 */
uint32_t gist_map_feed_compacted(const gist_map_feed *feed, uint64_t oldest, uint64_t *subscriptions, size_t room,
                                 uint64_t *count);

/*
 * Processes at most `most` further revisions of a snapshot, and writes the items of each subscription into a buffer.
 * Items that don't fit wait. A call that finds items waiting processes no further revision: it writes them first, and
 * after them what new subscriptions have missed. If fewer items are written than there is room for, none waits. Returns
 * how many items were written, and the last revision that was processed. A feed that is behind the snapshot's oldest
 * revision goes on from there, if no subscription needs more.
 *
 * GIST_OTHER_STORE if the snapshot is of a map with another identity, else GIST_FROM_FUTURE if its last revision is
 * before the feed's, else GIST_COMPACTED if a subscription needs items from before its oldest revision: end those that
 * gist_map_feed_compacted returns, and find again for them; GIST_OUT_OF_MEMORY. Each also while items wait.
 */
uint32_t gist_map_feed_advance(gist_map_feed *feed, const gist_map_snapshot *snapshot, uint64_t most,
                               gist_map_told *told, size_t room, uint64_t *given, uint64_t *upto);

/* The library relies on this layout: a key is two words, and no padding comes before it. */
#ifdef __cplusplus
static_assert(sizeof(gist_key) == 16 && sizeof(gist_entry) == 24 && sizeof(gist_item) == 48, "gist_key");
static_assert(sizeof(gist_map_config) == 32 && sizeof(gist_map_entry) == 24 && sizeof(gist_map_item) == 40, "gist_map");
#else
_Static_assert(sizeof(gist_key) == 16 && sizeof(gist_entry) == 24 && sizeof(gist_item) == 48, "gist_key");
_Static_assert(sizeof(gist_map_config) == 32 && sizeof(gist_map_entry) == 24 && sizeof(gist_map_item) == 40, "gist_map");
#endif

#ifdef __cplusplus
}
#endif

#endif
