/* Four threads look at one map of each kind at the same time, and change them in turn under a lock. Every answer is known.
   The argument is how many times each thread does so. To be run by itself, and under a checker of races (helgrind). */
#define _POSIX_C_SOURCE 200809L
#include "../c/art.h"
#include <pthread.h>
#include <stdio.h>
#include <stdlib.h>
#include <string.h>

enum { THREADS = 4, ENTRIES = 1000, LONG = 600 };

#define CHECK(what) \
    do { \
        if (!(what)) { \
            fprintf(stderr, "threads.c:%d: %s\n", __LINE__, #what); \
            exit(1); \
        } \
    } while (0)

static art_bytes_map words;
static art_u64_map numbers;
static art_routes_map routes;
static pthread_rwlock_t lock = PTHREAD_RWLOCK_INITIALIZER;
static unsigned long rounds = 100;

/* The key of an entry: every tenth is too long for the buffer that a look has without memory. */
static size_t key_of(unsigned n, uint8_t key[LONG]) {
    size_t len = (size_t)sprintf((char *)key, "word %04u", n);
    if (n % 10 == 0) {
        memset(key + len, 'x', LONG - len);
        len = LONG;
    }
    return len;
}

/* Only of entries that no thread changes. */
static void looks(const art_bytes_map *bytes, const art_u64_map *u64, unsigned n) {
    uint8_t key[LONG], found[LONG];
    size_t len = key_of(n, key), found_len = 0;
    uint64_t value = 0, number = 0, keys[8], values[8];
    CHECK(art_bytes_get(bytes, key, len, &value) == ART_SOME && value == n);
    CHECK(art_bytes_next(bytes, key, len, true, found, LONG, &found_len, &value) == ART_SOME);
    CHECK(found_len == len && memcmp(found, key, len) == 0 && value == n);
    CHECK(art_bytes_previous(bytes, key, len, true, found, LONG, &found_len, &value) == ART_SOME && value == n);
    CHECK(art_bytes_next_with_prefix(bytes, key, 9, key, 5, true, found, LONG, &found_len, &value) == ART_SOME && value == n);
    size_t ends[4], count = 0;
    CHECK(art_bytes_next_many(bytes, key, 5, key, len, true, found, LONG, ends, 4, values, 4, &count, &found_len) == ART_SOME);
    CHECK(count >= 1 && ends[0] == len && memcmp(found, key, len) == 0 && values[0] == n);
    art_bytes_entry entries[2];
    CHECK(art_bytes_page(bytes, key, 5, key, len, true, entries, 2) >= 1 && entries[0].value == n);
    CHECK(entries[0].key_len == len && memcmp(entries[0].key, key, len) == 0);
    CHECK(art_bytes_count_prefix(bytes, key, 9) == 1);
    CHECK(art_bytes_first(bytes, found, LONG, &found_len, &value) == ART_SOME && value == 0 && found_len == LONG);
    CHECK(art_bytes_len(bytes) >= ENTRIES);
    CHECK(art_u64_get(u64, n, &value) == ART_SOME && value == n);
    CHECK(art_u64_next(u64, n, true, &number, &value) == ART_SOME && number == n);
    CHECK(art_u64_previous(u64, n, true, &number, &value) == ART_SOME && number == n);
    CHECK(art_u64_first(u64, &number, &value) == ART_SOME && number == 0);
    CHECK(art_u64_next_many(u64, n, true, keys, 8, values, 8) >= 1 && keys[0] == n && values[0] == n);
    const art_u64_entry *run;
    CHECK(art_u64_page(u64, n, true, &run) >= 1 && run->key == n && run->value == n);
    CHECK(art_u64_previous_many(u64, n, true, keys, 8, values, 8) >= 1 && keys[0] == n && values[0] == n);
    CHECK(art_u64_len(u64) >= ENTRIES);
}

static void looks_at_routes(const art_routes_map *table, unsigned n) {
    const uint8_t address[4] = {10, (uint8_t)(n >> 8), (uint8_t)n, 7}, network[4] = {10, (uint8_t)(n >> 8), (uint8_t)n, 0};
    uint8_t length = 0, lengths[2], found[16];
    uint64_t value = 0, values[2];
    size_t width = 0, count = 0;
    CHECK(art_routes_longest_match(table, address, 4, &length, &value) == ART_SOME && length == 24 && value == n);
    CHECK(art_routes_longest_match_many(table, address, 4, 4, lengths, 2, values, 2, &count) == ART_NONE);
    CHECK(count == 1 && lengths[0] == 24 && values[0] == n);
    CHECK(art_routes_get(table, network, 4, 24, &value) == ART_SOME && value == n);
    CHECK(art_routes_next(table, network, 4, 24, true, found, 16, &width, &length, &value) == ART_SOME);
    CHECK(width == 4 && length == 24 && value == n && memcmp(found, network, 4) == 0);
    CHECK(art_routes_covering(table, address, 4, 32, lengths, 2, values, 2, &count) == ART_NONE);
    CHECK(count == 2 && lengths[0] == 24 && lengths[1] == 8 && values[1] == ENTRIES);
    CHECK(art_routes_previous(table, address, 4, 32, true, found, 16, &width, &length, &value) == ART_SOME);
    CHECK(width == 4 && length == 24 && value == n && memcmp(found, network, 4) == 0);
    CHECK(art_routes_available_many(table, network, 4, 24, 32, NULL, 0, found, 16, &count) == ART_NONE && count == 0);
    CHECK(art_routes_next_difference(table, table, network, 4, 24, true, found, 16, &width, &length, lengths, values, values + 1) == ART_NONE);
    CHECK(art_routes_len(table) >= ENTRIES + 1);
}

/* Of an entry that is this thread's alone. */
static void changes(unsigned thread) {
    uint64_t value = 0;
    uint8_t key[] = {'~', (uint8_t)thread};
    CHECK(art_bytes_insert(&words, key, sizeof key, thread, &value) == ART_NONE);
    CHECK(art_u64_insert(&numbers, ENTRIES + thread, thread, &value) == ART_NONE);
    CHECK(art_bytes_remove(&words, key, sizeof key, &value) == ART_SOME && value == thread);
    CHECK(art_u64_remove(&numbers, ENTRIES + thread, &value) == ART_SOME && value == thread);
    const uint8_t network[4] = {192, 168, (uint8_t)thread, 0};
    CHECK(art_routes_insert(&routes, network, 4, 24, thread, &value) == ART_NONE);
    CHECK(art_routes_remove(&routes, network, 4, 24, &value) == ART_SOME && value == thread);
}

static void *run(void *given) {
    unsigned thread = *(unsigned *)given;
    for (unsigned long round = 0; round < rounds; round++) {
        CHECK(pthread_rwlock_rdlock(&lock) == 0);
        looks(&words, &numbers, (unsigned)((round * 7 + thread * 250) % ENTRIES));
        looks_at_routes(&routes, (unsigned)((round * 7 + thread * 250) % ENTRIES));
        CHECK(pthread_rwlock_unlock(&lock) == 0);
        if (round % 4 == thread) {
            CHECK(pthread_rwlock_wrlock(&lock) == 0);
            changes(thread);
            CHECK(pthread_rwlock_unlock(&lock) == 0);
        }
    }
    return NULL;
}

int main(int count, char **words_of) {
    if (count > 1) rounds = strtoul(words_of[1], NULL, 10);
    uint64_t value;
    CHECK(art_bytes_new(&words) == ART_NONE && art_u64_new(&numbers) == ART_NONE && art_routes_new(&routes) == ART_NONE);
    const uint8_t ten[4] = {10, 0, 0, 0};
    CHECK(art_routes_insert(&routes, ten, 4, 8, ENTRIES, &value) == ART_NONE);
    for (unsigned n = 0; n < ENTRIES; n++) {
        uint8_t key[LONG];
        size_t len = key_of(n, key);
        CHECK(art_bytes_insert(&words, key, len, n, &value) == ART_NONE);
        CHECK(art_u64_insert(&numbers, n, n, &value) == ART_NONE);
        const uint8_t network[4] = {10, (uint8_t)(n >> 8), (uint8_t)n, 0};
        CHECK(art_routes_insert(&routes, network, 4, 24, n, &value) == ART_NONE);
    }
    pthread_t threads[THREADS];
    unsigned names[THREADS];
    for (unsigned n = 0; n < THREADS; n++) {
        names[n] = n;
        CHECK(pthread_create(&threads[n], NULL, run, &names[n]) == 0);
    }
    for (unsigned n = 0; n < THREADS; n++) CHECK(pthread_join(threads[n], NULL) == 0);
    CHECK(art_bytes_len(&words) == ENTRIES && art_u64_len(&numbers) == ENTRIES && art_routes_len(&routes) == ENTRIES + 1);
    art_bytes_free(&words);
    art_u64_free(&numbers);
    art_routes_free(&routes);
    printf("%d threads, %lu times each\n", THREADS, rounds);
    return 0;
}
