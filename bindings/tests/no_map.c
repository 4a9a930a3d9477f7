/* Handles that hold no map: each call says so, and writes nothing. And lengths of keys that no map takes. */
#include "../c/art.h"
#include <stdio.h>
#include <string.h>

#define CHECK(fact) if (!(fact)) return printf("no_map: line %d: not so: %s\n", __LINE__, #fact), 1

static int without_bytes(art_bytes_map *map) {
    const uint8_t key[3] = {1, 2, 3};
    uint8_t out[4] = {9, 9, 9, 9};
    size_t len = 5;
    uint64_t value = 7;
    CHECK(art_bytes_len(map) == 0);
    art_bytes_clear(map);
    CHECK(art_bytes_insert(map, key, 3, 1, &value) == ART_NO_MAP);
    CHECK(art_bytes_get(map, key, 3, &value) == ART_NO_MAP);
    CHECK(art_bytes_remove(map, key, 3, &value) == ART_NO_MAP);
    CHECK(art_bytes_next(map, key, 3, true, out, 4, &len, &value) == ART_NO_MAP);
    CHECK(art_bytes_previous(map, key, 3, true, out, 4, &len, &value) == ART_NO_MAP);
    CHECK(art_bytes_next_with_prefix(map, key, 1, key, 3, true, out, 4, &len, &value) == ART_NO_MAP);
    size_t ends[2] = {6, 6}, count = 8;
    CHECK(art_bytes_next_many(map, key, 1, key, 3, true, out, 4, ends, 2, &value, 1, &count, &len) == ART_NO_MAP);
    art_bytes_entry entries[2];
    CHECK(art_bytes_page(map, key, 1, key, 3, true, entries, 2) == 0);
    CHECK(art_bytes_previous_many(map, key, 1, key, 3, true, out, 4, ends, 2, &value, 1, &count, &len) == ART_NO_MAP);
    CHECK(art_bytes_get_many(map, key, 3, ends, 1, out, 1, &value, 1, &count) == ART_NO_MAP);
    CHECK(art_bytes_insert_many(map, key, 3, ends, 1, &value, 1, &count) == ART_NO_MAP);
    CHECK(art_bytes_load(map, key, 3, ends, 1, &value, 1) == ART_NO_MAP);
    CHECK(ends[0] == 6 && count == 8);
    CHECK(art_bytes_first(map, out, 4, &len, &value) == ART_NO_MAP);
    CHECK(art_bytes_last(map, out, 4, &len, &value) == ART_NO_MAP);
    CHECK(art_bytes_pop_first(map, out, 4, &len, &value) == ART_NO_MAP);
    CHECK(art_bytes_pop_last(map, out, 4, &len, &value) == ART_NO_MAP);
    CHECK(art_bytes_count_prefix(map, key, 1) == 0);
    CHECK(len == 5 && value == 7 && out[0] == 9 && out[3] == 9);
    art_bytes_free(map);
    return 0;
}

static int without_numbers(art_u64_map *map) {
    uint64_t key = 5, value = 7, keys[2] = {1, 1}, values[2] = {2, 2};
    CHECK(art_u64_len(map) == 0);
    art_u64_clear(map);
    CHECK(art_u64_insert(map, 1, 1, &value) == ART_NO_MAP);
    CHECK(art_u64_get(map, 1, &value) == ART_NO_MAP);
    CHECK(art_u64_remove(map, 1, &value) == ART_NO_MAP);
    CHECK(art_u64_next(map, 0, true, &key, &value) == ART_NO_MAP);
    CHECK(art_u64_previous(map, 9, true, &key, &value) == ART_NO_MAP);
    CHECK(art_u64_first(map, &key, &value) == ART_NO_MAP);
    CHECK(art_u64_last(map, &key, &value) == ART_NO_MAP);
    CHECK(art_u64_pop_first(map, &key, &value) == ART_NO_MAP);
    CHECK(art_u64_pop_last(map, &key, &value) == ART_NO_MAP);
    CHECK(art_u64_next_many(map, 0, true, keys, 2, values, 2) == 0);
    CHECK(art_u64_previous_many(map, 9, true, keys, 2, values, 2) == 0);
    const art_u64_entry *entries;
    CHECK(art_u64_page(map, 0, true, &entries) == 0);
    uint8_t found[2] = {3, 3};
    size_t done = 6;
    CHECK(art_u64_get_many(map, keys, 2, found, 2, values, 2) == 0);
    CHECK(art_u64_insert_many(map, keys, 2, values, 2, &done) == ART_NO_MAP);
    CHECK(art_u64_load(map, keys, 2, values, 2) == ART_NO_MAP);
    CHECK(key == 5 && value == 7 && keys[0] == 1 && values[1] == 2 && found[0] == 3 && done == 6);
    art_u64_free(map);
    return 0;
}

static int without_routes(art_routes_map *map) {
    const uint8_t address[4] = {10, 0, 0, 0};
    uint8_t out[16] = {9}, length = 4, lengths[2] = {3, 3};
    size_t width = 5, count = 8;
    uint64_t value = 7, values[2] = {2, 2};
    CHECK(art_routes_len(map) == 0);
    art_routes_clear(map);
    CHECK(art_routes_reserve(map, 10) == ART_NO_MAP);
    CHECK(art_routes_compact(map) == ART_NO_MAP);
    /* Also where there is no network either. */
    CHECK(art_routes_insert(map, address, 4, 8, 1, &value) == ART_NO_MAP && art_routes_insert(map, address, 4, 33, 1, &value) == ART_NO_MAP);
    CHECK(art_routes_get(map, address, 4, 8, &value) == ART_NO_MAP && art_routes_get(map, address, 3, 8, &value) == ART_NO_MAP);
    CHECK(art_routes_remove(map, address, 4, 8, &value) == ART_NO_MAP);
    CHECK(art_routes_longest_match(map, address, 4, &length, &value) == ART_NO_MAP);
    CHECK(art_routes_longest_match_many(map, address, 4, 4, lengths, 2, values, 2, &count) == ART_NO_MAP);
    CHECK(art_routes_next(map, address, 4, 8, true, out, 16, &width, &length, &value) == ART_NO_MAP);
    CHECK(art_routes_covering(map, address, 4, 8, lengths, 2, values, 2, &count) == ART_NO_MAP);
    CHECK(art_routes_parent(map, address, 4, 8, &length, &value) == ART_NO_MAP && art_routes_parent(map, address, 4, 33, &length, &value) == ART_NO_MAP);
    CHECK(art_routes_remove_covered(map, address, 4, 8, &count) == ART_NO_MAP && art_routes_aggregate(map) == ART_NO_MAP);
    CHECK(art_routes_get_or_insert(map, address, 4, 8, 1, &value) == ART_NO_MAP && art_routes_get_or_insert(map, address, 4, 33, 1, &value) == ART_NO_MAP);
    CHECK(art_routes_previous(map, address, 4, 8, true, out, 16, &width, &length, &value) == ART_NO_MAP);
    CHECK(art_routes_available_many(map, address, 4, 8, 16, NULL, 0, out, 16, &count) == ART_NO_MAP);
    CHECK(art_routes_next_difference(map, map, address, 4, 8, true, out, 16, &width, &length, lengths, values, values + 1) == ART_NO_MAP);
    CHECK(out[0] == 9 && length == 4 && lengths[0] == 3 && width == 5 && count == 8 && value == 7 && values[0] == 2);
    art_routes_free(map);
    return 0;
}

/* Networks that are none, at a table that has a route. */
static int bad_networks(art_routes_map *map) {
    const uint8_t address[16] = {10, 1};
    uint8_t length = 4, lengths[2] = {3, 3}, out[16] = {9};
    size_t width = 5, count = 8;
    uint64_t value = 7, values[2] = {2, 2};
    CHECK(art_routes_insert(map, address, 4, 16, 50, &value) == ART_NONE && value == 7);
    for (size_t bytes = 0; bytes <= 16; bytes++) {
        bool is_address = bytes == 4 || bytes == 16;
        CHECK((art_routes_longest_match(map, address, bytes, &length, &value) == ART_BAD_NETWORK) == !is_address);
        CHECK((art_routes_longest_match_many(map, address, 16, bytes, lengths, 0, values, 0, &count) == ART_BAD_NETWORK) == !is_address);
        CHECK((art_routes_get(map, address, bytes, 16, &value) == ART_BAD_NETWORK) == !is_address);
        CHECK((art_routes_next(map, address, bytes, 16, false, out, 16, &width, &length, &value) == ART_BAD_NETWORK) == !is_address);
        CHECK((art_routes_covering(map, address, bytes, 16, lengths, 0, values, 0, &count) == ART_BAD_NETWORK) == !is_address);
        CHECK((art_routes_parent(map, address, bytes, 16, &length, &value) == ART_BAD_NETWORK) == !is_address);
        CHECK((art_routes_previous(map, address, bytes, 16, false, out, 16, &width, &length, &value) == ART_BAD_NETWORK) == !is_address);
        CHECK((art_routes_available_many(map, address, bytes, 16, 16, NULL, 0, out, 0, &count) == ART_BAD_NETWORK) == !is_address);
        CHECK((art_routes_available_many(map, address, 4, 16, 16, address, bytes, out, 0, &count) == ART_BAD_NETWORK) == (bytes != 0 && bytes != 4));
        CHECK((art_routes_next_difference(map, map, address, bytes, 16, false, out, 16, &width, &length, lengths, values, values + 1) == ART_BAD_NETWORK)
              == !is_address);
    }
    /* One table is there, the other is not. */
    art_routes_map none = {0};
    CHECK(art_routes_next_difference(map, &none, address, 4, 33, false, out, 16, &width, &length, lengths, values, values + 1) == ART_NO_MAP);
    CHECK(art_routes_next_difference(&none, map, address, 4, 16, false, out, 16, &width, &length, lengths, values, values + 1) == ART_NO_MAP);
    /* A network that is not inside the other, and one that has bits behind its length. */
    const uint8_t beside[4] = {10, 2}, bits_behind[4] = {10, 1, 1};
    CHECK(art_routes_available_many(map, address, 4, 16, 16, beside, 4, out, 0, &count) == ART_BAD_NETWORK);
    CHECK(art_routes_available_many(map, address, 4, 16, 16, bits_behind, 4, out, 0, &count) == ART_BAD_NETWORK);
    CHECK(art_routes_available_many(map, address, 4, 16, 24, bits_behind, 4, out, 0, &count) == ART_NONE && count == 0);
    CHECK(art_routes_available_many(map, address, 4, 33, 8, NULL, 0, out, 0, &count) == ART_BAD_NETWORK);
    value = 7;
    /* A length that is too great, and a bit behind one. */
    CHECK(art_routes_insert(map, address, 4, 33, 1, &value) == ART_BAD_NETWORK && art_routes_insert(map, address, 4, 15, 1, &value) == ART_BAD_NETWORK);
    CHECK(art_routes_get_or_insert(map, address, 4, 33, 1, &value) == ART_BAD_NETWORK && art_routes_get_or_insert(map, address, 4, 15, 1, &value) == ART_BAD_NETWORK);
    CHECK(art_routes_remove(map, address, 4, 255, &value) == ART_BAD_NETWORK && art_routes_remove(map, address, 4, 0, &value) == ART_BAD_NETWORK);
    CHECK(art_routes_insert(map, address, 16, 129, 1, &value) == ART_BAD_NETWORK && art_routes_insert(map, address, 16, 128, 1, &value) == ART_NONE);
    CHECK(art_routes_len(map) == 2 && value == 7 && art_routes_remove(map, address, 16, 128, &value) == ART_SOME && value == 1);
    CHECK(lengths[0] == 3 && values[1] == 2);
    return 0;
}

/* Of a zeroed handle, and of one whose map was freed; and a second `new` keeps the first map. */
int main(void) {
    art_bytes_map names = {0};
    art_u64_map numbers = {0};
    art_routes_map routes = {0};
    uint64_t value = 0;
    for (int i = 0; i < 2; i++) {
        if (without_bytes(&names) || without_numbers(&numbers) || without_routes(&routes)) return 1;
        CHECK(art_routes_new(&routes) == ART_NONE && art_routes_new(&routes) == ART_HAS_MAP);
        if (bad_networks(&routes)) return 1;
        CHECK(art_routes_len(&routes) == 1);
        art_routes_free(&routes);
        CHECK(art_bytes_new(&names) == ART_NONE && art_u64_new(&numbers) == ART_NONE);
        CHECK(art_bytes_insert(&names, (const uint8_t *)"tin", 3, 50, &value) == ART_NONE);
        CHECK(art_u64_insert(&numbers, 50, 3, &value) == ART_NONE);
        CHECK(art_bytes_new(&names) == ART_HAS_MAP && art_u64_new(&numbers) == ART_HAS_MAP);
        CHECK(art_bytes_get(&names, (const uint8_t *)"tin", 3, &value) == ART_SOME && value == 50);
        CHECK(art_u64_get(&numbers, 50, &value) == ART_SOME && value == 3);
        /* Refused by the length alone: no byte of such a key is looked at. */
        CHECK(art_bytes_insert(&names, (const uint8_t *)"tin", ((size_t)1 << 32) - 2, 1, &value) == ART_KEY_TOO_LONG);
        CHECK(art_bytes_insert(&names, (const uint8_t *)"tin", SIZE_MAX, 1, &value) == ART_KEY_TOO_LONG);
        CHECK(art_bytes_len(&names) == 1 && value == 3);
        /* The entries that there are come first, then the order of the keys, then their lengths. */
        size_t ends[2] = {SIZE_MAX, 0};
        uint64_t two[2] = {2, 1};
        CHECK(art_bytes_load(&names, (const uint8_t *)"tin", SIZE_MAX, ends, 2, two, 2) == ART_NOT_EMPTY);
        CHECK(art_u64_load(&numbers, two, 2, two, 2) == ART_NOT_EMPTY);
        art_bytes_clear(&names);
        art_u64_clear(&numbers);
        CHECK(art_bytes_load(&names, (const uint8_t *)"tin", SIZE_MAX, ends, 2, two, 2) == ART_NOT_ASCENDING);
        CHECK(art_bytes_load(&names, (const uint8_t *)"tin", SIZE_MAX, ends, 1, two, 1) == ART_KEY_TOO_LONG);
        CHECK(art_u64_load(&numbers, two, 2, two, 2) == ART_NOT_ASCENDING);
        CHECK(art_bytes_len(&names) == 0 && art_u64_len(&numbers) == 0);
        CHECK(art_u64_load(&numbers, two, 2, two, 1) == ART_NONE && art_u64_len(&numbers) == 1);
        art_bytes_free(&names);
        art_u64_free(&numbers);
    }
    if (without_bytes(&names) || without_numbers(&numbers) || without_routes(&routes)) return 1;
    puts("no_map: each call of a handle without a map says so");
    return 0;
}
