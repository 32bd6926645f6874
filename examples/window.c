/*
 * A window on a map: what is in it now, and then what comes into it, moves in it and leaves it.
 *
 *     cc window.c -IFOLDER FOLDER/libgist.a -o window
 */
#include "gist.h"

#include <inttypes.h>
#include <stdio.h>
#include <stdlib.h>

static void need(uint32_t answer) {
    if (answer != GIST_OK)
        exit((int)answer);
}

/* Prints what a cursor gives now. */
static void show(gist_store *map, uint64_t cursor) {
    gist_item items[8];
    uint64_t given;

    need(gist_next(map, cursor, items, 8, &given));
    for (uint64_t i = 0; i < given; i++)
        if (items[i].kind == GIST_DELETED)
            printf("%" PRIu64 " has left\n", items[i].tag);
        else
            printf("%" PRIu64 " is at %d %d\n", items[i].tag, items[i].key.box.x1, items[i].key.box.y1);
}

int main(void) {
    const gist_limits limits = GIST_LIMITS;
    gist_store map = GIST_NONE;
    gist_query window = GIST_NONE;
    uint64_t added, cursor, bus, truck;

    need(gist_create(&map, GIST_BOXES, &limits));
    const gist_entry vehicles[] = {{gist_box(0, 0, 2, 2), 101}, {gist_box(5, 5, 6, 6), 102}};
    need(gist_insert(&map, vehicles, 2, &added));

    need(gist_ask(&window, GIST_BOXES, GIST_OVERLAPS, gist_box(1, 1, 9, 9)));
    need(gist_open(&map, &window, &cursor));
    show(&map, cursor); /* 101 is at 0 0, 102 is at 5 5 */

    need(gist_move(&map, 1, gist_box(20, 20, 22, 22), &bus));
    need(gist_move(&map, 2, gist_box(7, 5, 8, 6), &truck));
    show(&map, cursor); /* 101 has left, 102 is at 7 5 */

    gist_forget(&window);
    gist_destroy(&map);
    return 0;
}
