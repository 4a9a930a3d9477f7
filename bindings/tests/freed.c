/* What `free` gives back: all that the calls before it took. After it no block is left, however the map came to its
   entries, and a second `free` does nothing. Link with -Wl,--wrap=malloc,--wrap=realloc,--wrap=free. */
#include "../c/art.h"
#include <stdio.h>
#include <stdlib.h>
#include <string.h>

#define CHECK(fact) if (!(fact)) return printf("freed: line %d: not so: %s\n", __LINE__, #fact), 1
enum { COUNT = 300, LONG = 400 };

static long blocks = 0, most = 0;

void *__real_malloc(size_t size);
void *__real_realloc(void *block, size_t size);
void __real_free(void *block);

static void *counted(void *block) {
    if (block != NULL && ++blocks > most) most = blocks;
    return block;
}

void *__wrap_malloc(size_t size) { return counted(__real_malloc(size)); }

void *__wrap_realloc(void *block, size_t size) {
    void *moved = __real_realloc(block, size);
    return block == NULL ? counted(moved) : moved;
}

void __wrap_free(void *block) {
    blocks -= block != NULL;
    __real_free(block);
}

/* The key of a number: its two bytes, and then many of one kind. */
static void set_key(uint8_t *key, size_t number) {
    memset(key, 7, LONG);
    key[0] = (uint8_t)(number / 256);
    key[1] = (uint8_t)number;
}

/* Long and short keys, of which some are replaced, removed and popped. */
static int insert_bytes(art_bytes_map *map) {
    uint8_t key[LONG], out[LONG];
    size_t len;
    uint64_t value;
    CHECK(art_bytes_new(map) == ART_NONE);
    for (size_t number = 0; number < COUNT; number++) {
        set_key(key, number);
        CHECK(art_bytes_insert(map, key, number % 2 ? LONG : 2, number, &value) == ART_NONE);
        CHECK(art_bytes_insert(map, key, number % 2 ? LONG : 2, number, &value) == ART_SOME);
    }
    for (size_t number = 0; number < COUNT; number += 3) {
        set_key(key, number);
        CHECK(art_bytes_remove(map, key, number % 2 ? LONG : 2, &value) == ART_SOME);
    }
    CHECK(art_bytes_pop_first(map, out, LONG, &len, &value) == ART_SOME);
    CHECK(art_bytes_pop_last(map, out, LONG, &len, &value) == ART_SOME);
    CHECK(art_bytes_len(map) == COUNT * 2 / 3 - 2);
    return 0;
}

/* Entries that are loaded, of which all are removed where they are to be cleared. */
static int load_bytes(art_bytes_map *map, bool cleared) {
    static uint8_t keys[COUNT * LONG];
    size_t ends[COUNT];
    uint64_t values[COUNT] = {0};
    for (size_t number = 0; number < COUNT; number++) {
        set_key(keys + number * LONG, number);
        ends[number] = (number + 1) * LONG;
    }
    CHECK(art_bytes_new(map) == ART_NONE);
    CHECK(art_bytes_load(map, keys, sizeof keys, ends, COUNT, values, COUNT) == ART_NONE);
    CHECK(art_bytes_len(map) == COUNT);
    if (cleared) art_bytes_clear(map);
    return 0;
}

static int insert_numbers(art_u64_map *map) {
    uint64_t before, key, value;
    CHECK(art_u64_new(map) == ART_NONE);
    for (uint64_t number = 0; number < COUNT; number++) CHECK(art_u64_insert(map, number * number, number, &before) == ART_NONE);
    CHECK(art_u64_remove(map, 25, &value) == ART_SOME && value == 5);
    CHECK(art_u64_pop_first(map, &key, &value) == ART_SOME && key == 0);
    CHECK(art_u64_pop_last(map, &key, &value) == ART_SOME && value == COUNT - 1);
    CHECK(art_u64_len(map) == COUNT - 3);
    return 0;
}

static int insert_routes(art_routes_map *table) {
    uint64_t before;
    CHECK(art_routes_new(table) == ART_NONE);
    for (unsigned number = 0; number < 256; number++) {
        const uint8_t address[4] = {10, (uint8_t)number, 0, 0};
        CHECK(art_routes_insert(table, address, 4, 16, number, &before) == ART_NONE);
    }
    CHECK(art_routes_len(table) == 256);
    return 0;
}

/* Whether blocks are held, as many as entries with long keys at least, and none after this call and one more of it. */
#define FREES(free_map, map, least)                                                                                                        \
    CHECK(blocks >= (least));                                                                                                              \
    free_map(map);                                                                                                                         \
    CHECK(blocks == 0);                                                                                                                    \
    free_map(map);                                                                                                                         \
    CHECK(blocks == 0)

static int frees(void) {
    art_bytes_map bytes = {0};
    art_u64_map numbers = {0};
    art_routes_map routes = {0};
    if (insert_bytes(&bytes)) return 1;
    FREES(art_bytes_free, &bytes, COUNT / 3);
    if (load_bytes(&bytes, false)) return 1;
    FREES(art_bytes_free, &bytes, COUNT);
    if (load_bytes(&bytes, true)) return 1;
    FREES(art_bytes_free, &bytes, 1);
    CHECK(art_bytes_new(&bytes) == ART_NONE);
    FREES(art_bytes_free, &bytes, 1);
    if (insert_numbers(&numbers)) return 1;
    FREES(art_u64_free, &numbers, 2);
    if (insert_routes(&routes)) return 1;
    FREES(art_routes_free, &routes, 2);
    return 0;
}

int main(void) {
    /* What is written is buffered in a block that stays. */
    static char buffer[BUFSIZ];
    setvbuf(stdout, buffer, _IOFBF, sizeof buffer);
    if (frees()) return 1;
    printf("freed: of %ld blocks at most none was left after free\n", most);
    return 0;
}
