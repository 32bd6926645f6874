/*
 * A room is booked by the hour. A booking that overlaps another is refused. A display shows one day: it follows the day
 * with a cursor, goes away after a mark, and comes back to the changes after the mark's commit alone.
 *
 *     cc bookings.c -IFOLDER FOLDER/libgist.a -o bookings
 */
#include "gist.h"

#include <inttypes.h>
#include <stdio.h>
#include <stdlib.h>
#include <string.h>

enum { MOST_SHOWN = 16, HOURS_A_DAY = 24 };

/* Ends the program if a call was refused. */
static void need(const char *what, uint32_t answer) {
    char name[16];

    if (answer == GIST_OK)
        return;
    gist_refusal_name(answer, name, sizeof name);
    fprintf(stderr, "%s: refused as %" PRIu32 " %s\n", what, answer, name);
    exit(1);
}

/* Finds the bookings in some hours: at most `room` rows, and how many there are. */
static uint64_t taken(gist_store *rooms, gist_key hours, gist_row *rows, size_t room) {
    gist_snapshot now = GIST_NONE;
    gist_query query = GIST_NONE;
    uint64_t found;

    need("take", gist_take(rooms, &now));
    need("ask", gist_ask(&query, GIST_INTERVALS, GIST_OVERLAPS, hours));
    need("find", gist_find(&now, &query, rows, room, &found));
    gist_forget(&query);
    gist_drop(&now);
    return found;
}

static void tell(const char *what, gist_key hours, uint64_t guest) {
    printf("%s: %" PRId64 " to %" PRId64 " for guest %" PRIu64 "\n", what, hours.interval.lo, hours.interval.hi + 1,
           guest);
}

/* Books the room from an hour up to another. Returns the booking's number, or 0 if the room is taken. */
static uint64_t book(gist_store *rooms, int64_t from, int64_t until, uint64_t guest) {
    const gist_entry booking = {gist_interval_until(from, until), guest};
    gist_figures figures;
    gist_row other;
    uint64_t added;

    if (taken(rooms, booking.key, &other, 1) > 0) {
        tell("refused", booking.key, guest);
        tell("  the room is booked", other.key, other.tag);
        return 0;
    }
    need("insert", gist_insert(rooms, &booking, 1, &added));
    tell("booked", booking.key, guest);
    need("stats", gist_stats(rooms, &figures));
    return figures.commits;
}

/* Moves a booking to other hours, if the room is free then. Returns its new number, or else the old one. */
static uint64_t rebook(gist_store *rooms, uint64_t booking, int64_t from, int64_t until) {
    const gist_key hours = gist_interval_until(from, until);
    gist_row others[2];
    uint64_t found = taken(rooms, hours, others, 2);

    if (found > 1 || (found == 1 && others[0].row != booking))
        return booking;
    need("move", gist_move(rooms, booking, hours, &booking));
    return booking;
}

/* What the display shows, and the commit up to which that is so. */
typedef struct display {
    gist_row rows[MOST_SHOWN];
    size_t shown;
    uint64_t upto;
} display;

static void show(display *of, uint64_t row, uint64_t tag, gist_key hours) {
    if (of->shown == MOST_SHOWN)
        exit(2);
    of->rows[of->shown++] = (gist_row){row, tag, hours};
}

static void hide(display *of, uint64_t row) {
    for (size_t i = 0; i < of->shown; i++)
        if (of->rows[i].row == row)
            of->rows[i] = of->rows[--of->shown];
}

/* Takes what the cursor gives, up to a mark. */
static void follow(display *of, gist_store *rooms, uint64_t cursor) {
    gist_item item;
    uint64_t given;

    need("mark", gist_mark(rooms, cursor));
    do {
        need("next", gist_next(rooms, cursor, &item, 1, &given));
        switch (item.kind) {
        case GIST_ROW:
            tell("display: there", item.key, item.tag);
            show(of, item.number, item.tag, item.key);
            break;
        case GIST_INSERTED:
            tell("display: comes", item.key, item.tag);
            show(of, item.number, item.tag, item.key);
            break;
        case GIST_DELETED:
            tell("display: goes", item.key, item.tag);
            hide(of, item.ended);
            break;
        case GIST_MOVED:
            tell("display: moves", item.key, item.tag);
            hide(of, item.ended);
            show(of, item.number, item.tag, item.key);
            break;
        default:
            of->upto = item.number;
            printf("display: all up to commit %" PRIu64 "\n", of->upto);
        }
    } while (item.kind != GIST_MARK);
}

static int by_number(const void *one, const void *other) {
    const gist_row *a = one, *b = other;

    return (a->row > b->row) - (a->row < b->row);
}

/* Whether the display shows what a find in its day gives. */
static bool is_right(display *of, gist_store *rooms, gist_key day) {
    gist_row rows[MOST_SHOWN];

    qsort(of->rows, of->shown, sizeof of->rows[0], by_number);
    return taken(rooms, day, rows, MOST_SHOWN) == of->shown &&
           memcmp(rows, of->rows, of->shown * sizeof rows[0]) == 0;
}

int main(void) {
    const gist_limits limits = {32, 12, 1024, 10000};
    const gist_key today = gist_interval_until(0, HOURS_A_DAY);
    gist_store rooms = GIST_NONE;
    gist_query of_today = GIST_NONE;
    display shown = {.shown = 0};
    uint64_t cursor, early, late, deleted;
    bool is_well;

    need("create", gist_create(&rooms, GIST_INTERVALS, &limits));
    need("ask", gist_ask(&of_today, GIST_INTERVALS, GIST_OVERLAPS, today));
    early = book(&rooms, 9, 11, 71);
    late = book(&rooms, 22, 26, 72);
    book(&rooms, 10, 12, 73);
    book(&rooms, 33, 35, 74);

    need("open", gist_open(&rooms, &of_today, &cursor));
    follow(&shown, &rooms, cursor);
    need("close", gist_close(&rooms, cursor));

    puts("the display is away");
    early = rebook(&rooms, early, 10, 12);
    book(&rooms, 9, 10, 75);
    need("delete", gist_delete(&rooms, &late, 1, &deleted));
    book(&rooms, 34, 36, 76);

    need("follow", gist_follow(&rooms, &of_today, shown.upto, &cursor));
    follow(&shown, &rooms, cursor);
    is_well = is_right(&shown, &rooms, today);
    puts(is_well ? "the display shows the day" : "the display is wrong");
    gist_forget(&of_today);
    gist_destroy(&rooms);
    return is_well ? 0 : 1;
}
