/*
 * Measures a map of boxes in process, and a store of the same boxes.
 * Usage: maps OBJECTS MOVES TICKS
 *
 * It prints lines `name value`. Times are processor nanoseconds a call, or the longest single call by the clock in
 * microseconds; memory is bytes an object. The store is swept after each 50,000 moves; its figure leaves that out. MOVES
 * are the single moves that are timed, TICKS how often each object is moved before the finds. More than 500,000 objects
 * are kept in pages of 64 entries, others in pages of 32.
 */
#include <inttypes.h>
#include <malloc.h>
#include <stdio.h>
#include <stdlib.h>
#include <string.h>
#include <time.h>

#include "gist.h"

enum { SIDE = 1 << 20, FINDS = 20000, FOUND = 4096, BANDS = 16, SWEPT = 50000 };

static uint64_t state = 20240607;

/* splitmix64, of Steele, Lea and Flood */
static uint64_t below(uint64_t bound) {
    uint64_t z = (state += 0x9e3779b97f4a7c15u);
    z = (z ^ (z >> 30)) * 0xbf58476d1ce4e5b9u;
    z = (z ^ (z >> 27)) * 0x94d049bb133111ebu;
    return (z ^ (z >> 31)) % bound;
}

static void expect(uint32_t code, const char *call) {
    if (code != GIST_OK) {
        fprintf(stderr, "maps: %s is refused: %" PRIu32 "\n", call, code);
        exit(1);
    }
}

static double now_by(clockid_t clock) {
    struct timespec it;
    clock_gettime(clock, &it);
    return (double)it.tv_sec * 1e9 + (double)it.tv_nsec;
}

static double processor(void) { return now_by(CLOCK_PROCESS_CPUTIME_ID); }

/* The bytes that are allocated. */
static double memory(void) {
    const struct mallinfo2 info = mallinfo2();
    return (double)(info.uordblks + info.hblkhd);
}

typedef struct place {
    int32_t x, y;
} place;

static gist_key box_at(place at) { return gist_box(at.x, at.y, at.x + 4, at.y + 4); }

static place drawn(void) { return (place){(int32_t)below(SIDE), (int32_t)below(SIDE)}; }

/* A step of at most 8 in each direction. */
static place moved(place at) {
    return (place){at.x + (int32_t)below(17) - 8, at.y + (int32_t)below(17) - 8};
}

/* The greatest limits, with twice as many entries a page where there are too many objects for 65,536 pages. */
static gist_limits limits_for(uint64_t objects) {
    gist_limits limits = GIST_LIMITS;
    if (objects > 500000) {
        limits.fan *= 2;
        limits.least *= 2;
    }
    return limits;
}

/* The processor time of a find of about ten boxes. */
static double time_of_find(const gist_map *map, uint64_t objects) {
    gist_map_snapshot snapshot = GIST_NONE;
    static gist_map_entry found[FOUND];
    int32_t side = 1;
    uint64_t count = 0, total = 0;
    double taken = 0;
    while ((double)side * side * (double)objects < 10.0 * SIDE * SIDE) side++;
    expect(gist_map_snapshot_create(map, &snapshot), "gist_map_snapshot_create");
    for (int i = 0; i < FINDS; i++) {
        gist_query query = GIST_NONE;
        place at = drawn();
        expect(gist_ask(&query, GIST_BOXES, GIST_OVERLAPS, gist_box(at.x, at.y, at.x + side, at.y + side)), "gist_ask");
        double before = processor();
        expect(gist_map_snapshot_find_any(&snapshot, &query, found, FOUND, &count), "gist_map_snapshot_find_any");
        taken += processor() - before;
        total += count;
        gist_forget(&query);
    }
    gist_map_snapshot_free(&snapshot);
    fprintf(stderr, "maps: %.1f found a find\n", (double)total / FINDS);
    return taken / FINDS;
}

int main(int argc, char **argv) {
    if (argc != 4) return 2;
    const uint64_t objects = strtoull(argv[1], NULL, 10), moves = strtoull(argv[2], NULL, 10), ticks = strtoull(argv[3], NULL, 10);
    const gist_limits limits = limits_for(objects);
    gist_map_config config = GIST_MAP_CONFIG;
    gist_store store = GIST_NONE;
    gist_map map = GIST_NONE;
    place *places = calloc(objects, sizeof *places);
    uint64_t *rows = calloc(objects, sizeof *rows), revision = 0, added = 0;
    double before, taken, longest = 0, over = 0;
    uint64_t at_longest = 0, bands[BANDS] = {0};
    if (!places || !rows) return 1;
    config.limits = limits;
    for (uint64_t i = 0; i < objects; i++) places[i] = drawn();

    /* a store, whose caller keeps the numbers of rows */
    expect(gist_create(&store, GIST_BOXES, &limits), "gist_create");
    for (uint64_t i = 0; i < objects; i++) {
        const gist_entry row = {.key = box_at(places[i]), .tag = i};
        expect(gist_insert(&store, &row, 1, &added), "gist_insert");
        rows[i] = i + 1;
    }
    before = processor();
    for (uint64_t i = 0; i < objects; i++) {
        places[i] = moved(places[i]);
        expect(gist_move(&store, rows[i], box_at(places[i]), &rows[i]), "gist_move");
        if (i % SWEPT == 0) {
            const double sweep = processor();
            expect(gist_sweep(&store, &added), "gist_sweep");
            before += processor() - sweep;
        }
    }
    printf("store_move %.0f\n", (processor() - before) / (double)objects);
    gist_destroy(&store);

    double held = memory();
    expect(gist_map_create(&map, GIST_BOXES, &config), "gist_map_create");
    before = processor();
    for (uint64_t i = 0; i < objects; i++) expect(gist_map_put(&map, i, box_at(places[i]), &revision), "gist_map_put");
    printf("map_insert %.0f\n", (processor() - before) / (double)objects);
    printf("bytes_an_object %.0f\n", (memory() - held) / (double)objects);
    before = processor();
    for (uint64_t i = 0; i < objects; i++) {
        places[i] = moved(places[i]);
        expect(gist_map_put(&map, i, box_at(places[i]), &revision), "gist_map_put");
    }
    printf("map_move %.0f\n", (processor() - before) / (double)objects);
    printf("find_new %.0f\n", time_of_find(&map, objects));

    before = processor();
    uint64_t present = 0;
    for (uint64_t i = 0; i < objects; i++) {
        gist_key key;
        bool has_key = false;
        expect(gist_map_get(&map, below(objects), &key, &has_key), "gist_map_get");
        present += has_key;
    }
    taken = (processor() - before) / (double)objects;
    before = processor();
    for (uint64_t i = 0; i < objects; i++) present += below(objects) >> 63;
    printf("map_get %.0f\n", taken - (processor() - before) / (double)objects);
    if (present != objects) return 1;

    /* single moves by the clock, over many generations: the longest, and how many took how long */
    for (uint64_t i = 0; i < moves; i++) {
        const uint64_t id = below(objects);
        places[id] = moved(places[id]);
        const gist_key key = box_at(places[id]);
        const double start = now_by(CLOCK_MONOTONIC);
        expect(gist_map_put(&map, id, key, &revision), "gist_map_put");
        const double one = (now_by(CLOCK_MONOTONIC) - start) / 1e3;
        int band = 0;
        while (band < BANDS - 1 && one >= (double)(1 << band)) band++;
        bands[band]++;
        over += one > 100;
        if (one > longest) {
            longest = one;
            at_longest = revision;
        }
    }
    printf("longest_put_us %.0f\nlongest_at %" PRIu64 "\nputs_over_100_us %.0f\n", longest, at_longest, over);
    for (int band = 0; band < BANDS; band++)
        if (bands[band]) fprintf(stderr, "maps: below %d us: %" PRIu64 "\n", 1 << band, bands[band]);
    printf("bytes_after_moves %.0f\n", (memory() - held) / (double)objects);

    before = processor();
    for (uint64_t tick = 0; tick < ticks; tick++)
        for (uint64_t i = 0; i < objects; i++) {
            places[i] = moved(places[i]);
            expect(gist_map_put(&map, i, box_at(places[i]), &revision), "gist_map_put");
        }
    if (ticks) {
        printf("tick_move %.0f\n", (processor() - before) / (double)(ticks * objects));
        printf("find_after_ticks %.0f\n", time_of_find(&map, objects));
        printf("bytes_after_ticks %.0f\n", (memory() - held) / (double)objects);
        gist_map fresh = GIST_NONE;
        expect(gist_map_create(&fresh, GIST_BOXES, &config), "gist_map_create");
        for (uint64_t i = 0; i < objects; i++) expect(gist_map_put(&fresh, i, box_at(places[i]), &revision), "gist_map_put");
        printf("find_new_same_places %.0f\n", time_of_find(&fresh, objects));
        gist_map_free(&fresh);
    }
    gist_map_free(&map);
    free(places);
    free(rows);
    return 0;
}
