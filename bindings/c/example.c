/* Metals by their names and by their numbers: in a clone `cc example.c ../prebuilt/x86_64-linux/libart.a` builds it here. */
#include "art.h"
#include <stdio.h>
#include <string.h>

static const struct { const char *name; uint64_t number; } metals[] = {
    {"iron", 26}, {"tin", 50}, {"gold", 79}, {"silver", 47}, {"titanium", 22}, {"tin\0ore", 1050},
};

static size_t len_of(size_t i) { return i == 5 ? 7 : strlen(metals[i].name); }

static int by_name(void) {
    art_bytes_map map = {0};
    uint64_t value = 0;
    if (art_bytes_new(&map) != ART_NONE) return 1;
    for (size_t i = 0; i < 6; i++)
        if (art_bytes_insert(&map, (const uint8_t *)metals[i].name, len_of(i), metals[i].number, &value) != ART_NONE)
            return 2;
    if (art_bytes_get(&map, (const uint8_t *)"tin", 3, &value) == ART_SOME)
        printf("tin has the number %llu\n", (unsigned long long)value);
    printf("%zu names begin with ti\n", art_bytes_count_prefix(&map, (const uint8_t *)"ti", 2));
    /* The last key is the cursor, so its entry may be removed before the next one is looked for. */
    uint8_t key[16], next[16];
    size_t len = 0;
    uint32_t found = art_bytes_first(&map, key, sizeof key, &len, &value);
    while (found == ART_SOME) {
        printf("%.*s\n", (int)len, (const char *)key);
        if (art_bytes_remove(&map, key, len, &value) != ART_SOME) return 3;
        found = art_bytes_next(&map, key, len, false, next, sizeof next, &len, &value);
        memcpy(key, next, sizeof key);
    }
    printf("%zu are left\n", art_bytes_len(&map));
    art_bytes_free(&map);
    return 0;
}

static int by_number(void) {
    art_u64_map map = {0};
    uint64_t before = 0, key = 30, value = 0;
    if (art_u64_new(&map) != ART_NONE) return 4;
    for (size_t i = 0; i < 6; i++)
        if (art_u64_insert(&map, metals[i].number, i, &before) == ART_NO_MEMORY) return 5;
    for (uint32_t found = art_u64_next(&map, key, true, &key, &value); found == ART_SOME;) {
        printf("%llu %s\n", (unsigned long long)key, metals[value].name);
        uint64_t last = key;
        found = art_u64_next(&map, last, false, &key, &value);
    }
    art_u64_free(&map);
    return 0;
}

int main(void) {
    int failed = by_name();
    return failed ? failed : by_number();
}
