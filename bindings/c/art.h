/* Ordered maps from bytes, and from 64-bit numbers, to 64-bit values. Keys are in ascending order of their
   bytes (a key before the longer ones that begin with it), or of their numbers. Any bytes are a key. And route tables, to
   64-bit values: what is said of maps holds of them too.

   What the caller owes, and no call tests:
   - A handle is zeroed before its first call, and is never copied. Zeroed, or given to `free`, it holds no map:
     calls then return ART_NO_MAP, or 0, and change nothing.
   - While a call that takes a map without `const` runs, no other call uses that map, in any thread. Any number of
     threads may make calls that take it with `const` at the same time: these write nothing behind it. One thread may
     make a map, and others use and free it.
   - `key` points to `len` bytes, `key_out` to `capacity` writable ones, an array to as many items; where there are
     none it may be null. The other pointers are not null. What a call writes overlaps none of its other arguments;
     only `key_out` may be the buffer that `from` is in.
   - No call is made from a signal handler, or from the forked child of a process with threads.
   - `malloc`, `realloc` and `free` are from one allocator, and align a block to each power of two up to 16
     that divides its size.

   Calls that return uint32_t return one of ART_*. `before`, `value` and the key are written only at ART_SOME,
   `key_len` at ART_SOME and ART_SMALL_BUFFER. Of maps only new, load, and insert and insert_many of a key that is not
   there take memory, and return ART_NO_MEMORY where it is refused: look-ups take none, and removals and pops are never
   refused. Only art_bytes_insert, art_bytes_insert_many and art_bytes_load return ART_KEY_TOO_LONG, before they take
   memory for that key. */
#ifndef ART_H
#define ART_H
#include <stdbool.h>
#include <stddef.h>
#include <stdint.h>
#ifdef __cplusplus
extern "C" {
#endif

#define ART_VERSION_MAJOR 0u
#define ART_VERSION_MINOR 2u
#define ART_VERSION_PATCH 0u
#define ART_VERSION (ART_VERSION_MAJOR * 10000u + ART_VERSION_MINOR * 100u + ART_VERSION_PATCH)

#define ART_NONE 0u         /* done; there was no such entry */
#define ART_SOME 1u         /* done; there was one, and it is written out */
#define ART_NO_MEMORY 2u    /* nothing has changed, but where the call says so */
#define ART_KEY_TOO_LONG 3u /* nothing has changed; the key has more than 3817748704 bytes */
#define ART_SMALL_BUFFER 4u /* nothing has changed; there is an entry; its key has *key_len bytes, and none was written */
#define ART_NO_MAP 5u       /* nothing has changed; the handle holds no map */
#define ART_HAS_MAP 6u      /* nothing has changed; the handle given to `new` holds a map */
#define ART_NOT_EMPTY 7u    /* nothing has changed; the map given to `load` has entries */
#define ART_NOT_ASCENDING 8u /* nothing has changed; some key given to `load` is not below the next one */
#define ART_BAD_NETWORK 9u  /* nothing has changed; these bytes and this length are no network */
#define ART_NO_ROUTE UINT8_MAX /* in place of a length: no route contains the address */
#define ART_INSERT 0u       /* a change: the first table has no route to the network, the second has one */
#define ART_REMOVE 1u       /* the first has one, the second has none */
#define ART_REPLACE 2u      /* both have one, with other values */

typedef struct { void *opaque; } art_bytes_map;
typedef struct { void *opaque; } art_u64_map;
typedef struct { void *opaque; } art_routes_map;

/* Entries as they are lent: by numbers as they lie in the map, by bytes with the address of their key. */
typedef struct { uint64_t key, value; } art_u64_entry;
typedef struct { const uint8_t *key; size_t key_len; uint64_t value; } art_bytes_entry;

/* ART_VERSION of the header that the library was built with. */
uint32_t art_version(void);

/* ART_NONE, ART_NO_MEMORY or ART_HAS_MAP. */
uint32_t art_bytes_new(art_bytes_map *map);
void art_bytes_free(art_bytes_map *map);
size_t art_bytes_len(const art_bytes_map *map);
void art_bytes_clear(art_bytes_map *map);
uint32_t art_bytes_insert(art_bytes_map *map, const uint8_t *key, size_t len, uint64_t value, uint64_t *before);
uint32_t art_bytes_get(const art_bytes_map *map, const uint8_t *key, size_t len, uint64_t *value);
uint32_t art_bytes_remove(art_bytes_map *map, const uint8_t *key, size_t len, uint64_t *value);
/* The first entry at (inclusive) or after a key; the last one at or before it. */
uint32_t art_bytes_next(const art_bytes_map *map, const uint8_t *from, size_t len, bool inclusive,
                        uint8_t *key_out, size_t capacity, size_t *key_len, uint64_t *value);
uint32_t art_bytes_previous(const art_bytes_map *map, const uint8_t *from, size_t len, bool inclusive,
                            uint8_t *key_out, size_t capacity, size_t *key_len, uint64_t *value);
/* The first entry at or after a key, of those whose keys begin with a prefix. */
uint32_t art_bytes_next_with_prefix(const art_bytes_map *map, const uint8_t *prefix, size_t prefix_len,
                                    const uint8_t *from, size_t len, bool inclusive,
                                    uint8_t *key_out, size_t capacity, size_t *key_len, uint64_t *value);
/* The next entries at or after a key, of those whose keys begin with a prefix (of no bytes: of all): as many as `keys` has
   bytes for, and the shorter of both arrays holds. The key of the entry `i` ends before keys[ends[i]], and begins where
   that of the one before it ends, the first at keys[0]. Writes `count`: 0, but at ART_SOME. At ART_SMALL_BUFFER not one
   entry fits, and the key of the next has *key_len bytes. */
uint32_t art_bytes_next_many(const art_bytes_map *map, const uint8_t *prefix, size_t prefix_len,
                             const uint8_t *from, size_t len, bool inclusive,
                             uint8_t *keys, size_t capacity, size_t *ends, size_t ends_len,
                             uint64_t *values, size_t values_len, size_t *count, size_t *key_len);
/* The same of the entries at or before a key, from the last one down. */
uint32_t art_bytes_previous_many(const art_bytes_map *map, const uint8_t *prefix, size_t prefix_len,
                                 const uint8_t *from, size_t len, bool inclusive,
                                 uint8_t *keys, size_t capacity, size_t *ends, size_t ends_len,
                                 uint64_t *values, size_t values_len, size_t *count, size_t *key_len);
/* The next entries at or after a key, of those whose keys begin with a prefix (of no bytes: of all), as many as `entries` holds:
   how many were written. Keys are lent: they lie in the map, and may be read until the next call that takes it without
   `const`. */
size_t art_bytes_page(const art_bytes_map *map, const uint8_t *prefix, size_t prefix_len, const uint8_t *from, size_t len,
                      bool inclusive, art_bytes_entry *entries, size_t entries_len);
/* Looks up many keys, which lie as next_many writes them: the key `i` ends before keys[ends[i]], and begins where the one
   before it ends. As many as the shortest of `ends`, `found` and `values` holds, how many `count` says. found[i] is 1, and
   values[i] the value, where there is an entry; else found[i] is 0, and values[i] as it was. ART_NONE, but for ART_NO_MAP. */
uint32_t art_bytes_get_many(const art_bytes_map *map, const uint8_t *keys, size_t keys_len, const size_t *ends,
                            size_t ends_len, uint8_t *found, size_t found_len, uint64_t *values, size_t values_len,
                            size_t *count);
/* Inserts many entries one after another, whose keys lie so, as many as the shorter of both arrays holds, in any order:
   ART_NONE, or ART_KEY_TOO_LONG or ART_NO_MEMORY at the first that is refused. The first *done are in. */
uint32_t art_bytes_insert_many(art_bytes_map *map, const uint8_t *keys, size_t keys_len, const size_t *ends,
                               size_t ends_len, const uint64_t *values, size_t values_len, size_t *done);
/* Puts many entries, whose keys lie so and ascend, into a map without entries, as many as the shorter of both arrays
   holds: all of them, or none. ART_NONE, or the first of ART_NOT_EMPTY, ART_NOT_ASCENDING, ART_KEY_TOO_LONG and
   ART_NO_MEMORY. */
uint32_t art_bytes_load(art_bytes_map *map, const uint8_t *keys, size_t keys_len, const size_t *ends, size_t ends_len,
                        const uint64_t *values, size_t values_len);
uint32_t art_bytes_first(const art_bytes_map *map, uint8_t *key_out, size_t capacity, size_t *key_len, uint64_t *value);
uint32_t art_bytes_last(const art_bytes_map *map, uint8_t *key_out, size_t capacity, size_t *key_len, uint64_t *value);
/* The same, and the entry is removed where its key fits (ART_SOME). */
uint32_t art_bytes_pop_first(art_bytes_map *map, uint8_t *key_out, size_t capacity, size_t *key_len, uint64_t *value);
uint32_t art_bytes_pop_last(art_bytes_map *map, uint8_t *key_out, size_t capacity, size_t *key_len, uint64_t *value);
/* How many keys begin with a prefix. */
size_t art_bytes_count_prefix(const art_bytes_map *map, const uint8_t *prefix, size_t len);

uint32_t art_u64_new(art_u64_map *map);
void art_u64_free(art_u64_map *map);
size_t art_u64_len(const art_u64_map *map);
void art_u64_clear(art_u64_map *map);
uint32_t art_u64_insert(art_u64_map *map, uint64_t key, uint64_t value, uint64_t *before);
uint32_t art_u64_get(const art_u64_map *map, uint64_t key, uint64_t *value);
uint32_t art_u64_remove(art_u64_map *map, uint64_t key, uint64_t *value);
uint32_t art_u64_next(const art_u64_map *map, uint64_t from, bool inclusive, uint64_t *key, uint64_t *value);
uint32_t art_u64_previous(const art_u64_map *map, uint64_t from, bool inclusive, uint64_t *key, uint64_t *value);
uint32_t art_u64_first(const art_u64_map *map, uint64_t *key, uint64_t *value);
uint32_t art_u64_last(const art_u64_map *map, uint64_t *key, uint64_t *value);
/* The same, and the entry is removed. */
uint32_t art_u64_pop_first(art_u64_map *map, uint64_t *key, uint64_t *value);
uint32_t art_u64_pop_last(art_u64_map *map, uint64_t *key, uint64_t *value);
/* The next entries at or after a key, as many as the shorter of both arrays holds: how many were written. */
size_t art_u64_next_many(const art_u64_map *map, uint64_t from, bool inclusive,
                         uint64_t *keys, size_t keys_len, uint64_t *values, size_t values_len);
/* The same of the entries at or before a key, from the last one down. */
size_t art_u64_previous_many(const art_u64_map *map, uint64_t from, bool inclusive,
                             uint64_t *keys, size_t keys_len, uint64_t *values, size_t values_len);
/* The entries at or after a key as they lie in the map, to the end of their page: writes out where they begin, and returns
   how many they are, 0 only where none follows. They are lent: they may be read until the next call that takes the map without
   `const`. The last key of them, not included, leads to the next ones. */
size_t art_u64_page(const art_u64_map *map, uint64_t from, bool inclusive, const art_u64_entry **entries);
/* Looks up many keys, as many as the shortest of the arrays holds: how many. found[i] is 1, and values[i] the value, where
   keys[i] has an entry; else found[i] is 0, and values[i] as it was. */
size_t art_u64_get_many(const art_u64_map *map, const uint64_t *keys, size_t keys_len,
                        uint8_t *found, size_t found_len, uint64_t *values, size_t values_len);
/* Inserts many entries one after another, as many as the shorter of both arrays holds, in any order: ART_NONE, or
   ART_NO_MEMORY at the first that is refused. The first *done are in. */
uint32_t art_u64_insert_many(art_u64_map *map, const uint64_t *keys, size_t keys_len,
                             const uint64_t *values, size_t values_len, size_t *done);
/* Puts many entries, whose keys ascend, into a map without entries, as many as the shorter of both arrays holds, as
   art_bytes_load does. Never ART_KEY_TOO_LONG. */
uint32_t art_u64_load(art_u64_map *map, const uint64_t *keys, size_t keys_len, const uint64_t *values, size_t values_len);

/* Routes: a value for each network. An address has `width` bytes, the highest first: 4 of IPv4, or 16 of IPv6; a network is
   an address and how many of its first bits are given, with no bit set behind these. Else the status is ART_BAD_NETWORK. IPv4
   and IPv6 never match each other. Networks of IPv4 come before those of IPv6; then they go by their addresses, and of two
   with one address the shorter comes first. Only new, reserve, compact, insert where no route is to the network,
   get_or_insert where none is, remove where one is, remove_covered where one is to it or to a part of it, and aggregate may return ART_NO_MEMORY. */
uint32_t art_routes_new(art_routes_map *map);
void art_routes_free(art_routes_map *map);
size_t art_routes_len(const art_routes_map *map);
void art_routes_clear(art_routes_map *map);
/* Takes memory for so many inserts of new routes, or removals: these then take none. */
uint32_t art_routes_reserve(art_routes_map *map, size_t additional);
/* Puts the routes in order of their networks into memory that just holds them. While it runs it takes memory for the
   table twice, and for the routes once more; where that is refused, nothing has changed. */
uint32_t art_routes_compact(art_routes_map *map);
uint32_t art_routes_insert(art_routes_map *map, const uint8_t *address, size_t width, uint8_t length, uint64_t value,
                           uint64_t *before);
/* The value of the route to this very network, as it was there (ART_SOME), or this one, which is then set (ART_NONE). */
uint32_t art_routes_get_or_insert(art_routes_map *map, const uint8_t *address, size_t width, uint8_t length,
                                  uint64_t value, uint64_t *found);
/* The value of the route to this very network. */
uint32_t art_routes_get(const art_routes_map *map, const uint8_t *address, size_t width, uint8_t length, uint64_t *value);
uint32_t art_routes_remove(art_routes_map *map, const uint8_t *address, size_t width, uint8_t length, uint64_t *value);
/* Removes the routes to a network and to parts of it: how many there were `count` says. ART_NONE, but for ART_BAD_NETWORK,
   ART_NO_MAP and ART_NO_MEMORY. At ART_NO_MEMORY the first of them may be gone, and the call may be made again. */
uint32_t art_routes_remove_covered(art_routes_map *map, const uint8_t *address, size_t width, uint8_t length,
                                   size_t *count);
/* Leaves fewer routes by which each address has the value that it had, and none where none contained it: none that has the
   value of the longest one around it, and none to the right half of a network that has the value of that to the left one.
   ART_NONE, ART_NO_MAP or ART_NO_MEMORY: some of this may then be done, and each address has the value that it had. */
uint32_t art_routes_aggregate(art_routes_map *map);
/* The longest route whose network contains an address: its network is the first `length` bits of that address. */
uint32_t art_routes_longest_match(const art_routes_map *map, const uint8_t *address, size_t width, uint8_t *length,
                                  uint64_t *value);
/* The same of many addresses of `width` bytes each, which lie one behind another in so many bytes: as many as the shortest of
   the arrays holds, how many `count` says. Where no route contains an address, lengths[i] is ART_NO_ROUTE, and values[i] as it
   was. ART_NONE, but for ART_BAD_NETWORK (of a width) and ART_NO_MAP. */
uint32_t art_routes_longest_match_many(const art_routes_map *map, const uint8_t *addresses, size_t bytes, size_t width,
                                       uint8_t *lengths, size_t lengths_len, uint64_t *values, size_t values_len,
                                       size_t *count);
/* The longest route to a network around this one, which is not this one itself: its network is the first `parent_length`
   bits of the address. */
uint32_t art_routes_parent(const art_routes_map *map, const uint8_t *address, size_t width, uint8_t length,
                           uint8_t *parent_length, uint64_t *value);
/* The first route at (inclusive) or after a network; the first of all from 0.0.0.0/0. Writes its address where that fits, else
   `width` alone, and the status is ART_SMALL_BUFFER: 16 bytes are enough, and `from` may be where the address is written. */
uint32_t art_routes_next(const art_routes_map *map, const uint8_t *from, size_t from_width, uint8_t from_length,
                         bool inclusive, uint8_t *address, size_t capacity, size_t *width, uint8_t *length,
                         uint64_t *value);
/* The last route at (inclusive) or before a network; the last of all from the last address of IPv6, of length 128. */
uint32_t art_routes_previous(const art_routes_map *map, const uint8_t *to, size_t to_width, uint8_t to_length,
                             bool inclusive, uint8_t *address, size_t capacity, size_t *width, uint8_t *length,
                             uint64_t *value);
/* The routes to a network and to those around it, the longest first: as many as the shorter of both arrays holds, how many
   `count` says, of at most 129. ART_NONE, but for ART_BAD_NETWORK and ART_NO_MAP. */
uint32_t art_routes_covering(const art_routes_map *map, const uint8_t *address, size_t width, uint8_t length,
                             uint8_t *lengths, size_t lengths_len, uint64_t *values, size_t values_len, size_t *count);
/* The free networks of `part_length` bits inside a network, in order: none of them is a network that has a route, or part of
   one, or has one inside. Writes their addresses, of `width` bytes each, one behind another: as many as fit, how many `count`
   says. The walk begins with the first where `after_width` is 0, and else behind the network of `part_length` bits with the
   address `after`, which is inside the network: so the last address written leads to the next ones. ART_NONE, but for
   ART_BAD_NETWORK (of either) and ART_NO_MAP. */
uint32_t art_routes_available_many(const art_routes_map *map, const uint8_t *address, size_t width, uint8_t length,
                                   uint8_t part_length, const uint8_t *after, size_t after_width, uint8_t *addresses,
                                   size_t capacity, size_t *count);
/* The first network at (inclusive) or after one for which two tables differ: `change` says by which change the first becomes
   as the second, `before` the value of the first, but at ART_INSERT, and `after` that of the second, but at ART_REMOVE. The
   address as in art_routes_next. ART_NONE where they have the same routes from there on. A call costs a few steps for each
   route that is passed. */
uint32_t art_routes_next_difference(const art_routes_map *map, const art_routes_map *new_map, const uint8_t *from,
                                    size_t from_width, uint8_t from_length, bool inclusive, uint8_t *address,
                                    size_t capacity, size_t *width, uint8_t *length, uint8_t *change,
                                    uint64_t *before, uint64_t *after);

/* What the library has under the names of calls that only look wants a handle that no other call uses while it runs. So in
   programs each of these names is that of a function which gives it a copy of the handle: threads have one each. */
static inline size_t art_bytes_own_len(const art_bytes_map *map) {
    art_bytes_map own = *map;
    return art_bytes_len(&own);
}
#define art_bytes_len art_bytes_own_len
static inline uint32_t art_bytes_own_get(const art_bytes_map *map, const uint8_t *key, size_t len, uint64_t *value) {
    art_bytes_map own = *map;
    return art_bytes_get(&own, key, len, value);
}
#define art_bytes_get art_bytes_own_get
static inline uint32_t art_bytes_own_next(const art_bytes_map *map, const uint8_t *from, size_t len, bool inclusive,
                                          uint8_t *key_out, size_t capacity, size_t *key_len, uint64_t *value) {
    art_bytes_map own = *map;
    return art_bytes_next(&own, from, len, inclusive, key_out, capacity, key_len, value);
}
#define art_bytes_next art_bytes_own_next
static inline uint32_t art_bytes_own_previous(const art_bytes_map *map, const uint8_t *from, size_t len,
                                              bool inclusive, uint8_t *key_out, size_t capacity, size_t *key_len,
                                              uint64_t *value) {
    art_bytes_map own = *map;
    return art_bytes_previous(&own, from, len, inclusive, key_out, capacity, key_len, value);
}
#define art_bytes_previous art_bytes_own_previous
static inline uint32_t art_bytes_own_next_with_prefix(const art_bytes_map *map, const uint8_t *prefix,
                                                      size_t prefix_len, const uint8_t *from, size_t len,
                                                      bool inclusive, uint8_t *key_out, size_t capacity,
                                                      size_t *key_len, uint64_t *value) {
    art_bytes_map own = *map;
    return art_bytes_next_with_prefix(&own, prefix, prefix_len, from, len, inclusive, key_out, capacity, key_len,
                                      value);
}
#define art_bytes_next_with_prefix art_bytes_own_next_with_prefix
static inline uint32_t art_bytes_own_next_many(const art_bytes_map *map, const uint8_t *prefix, size_t prefix_len,
                                               const uint8_t *from, size_t len, bool inclusive, uint8_t *keys,
                                               size_t capacity, size_t *ends, size_t ends_len, uint64_t *values,
                                               size_t values_len, size_t *count, size_t *key_len) {
    art_bytes_map own = *map;
    return art_bytes_next_many(&own, prefix, prefix_len, from, len, inclusive, keys, capacity, ends, ends_len, values,
                               values_len, count, key_len);
}
#define art_bytes_next_many art_bytes_own_next_many
static inline uint32_t art_bytes_own_previous_many(const art_bytes_map *map, const uint8_t *prefix, size_t prefix_len,
                                                   const uint8_t *from, size_t len, bool inclusive, uint8_t *keys,
                                                   size_t capacity, size_t *ends, size_t ends_len, uint64_t *values,
                                                   size_t values_len, size_t *count, size_t *key_len) {
    art_bytes_map own = *map;
    return art_bytes_previous_many(&own, prefix, prefix_len, from, len, inclusive, keys, capacity, ends, ends_len,
                                   values, values_len, count, key_len);
}
#define art_bytes_previous_many art_bytes_own_previous_many
static inline size_t art_bytes_own_page(const art_bytes_map *map, const uint8_t *prefix, size_t prefix_len,
                                        const uint8_t *from, size_t len, bool inclusive, art_bytes_entry *entries,
                                        size_t entries_len) {
    art_bytes_map own = *map;
    return art_bytes_page(&own, prefix, prefix_len, from, len, inclusive, entries, entries_len);
}
#define art_bytes_page art_bytes_own_page
static inline uint32_t art_bytes_own_get_many(const art_bytes_map *map, const uint8_t *keys, size_t keys_len,
                                              const size_t *ends, size_t ends_len, uint8_t *found, size_t found_len,
                                              uint64_t *values, size_t values_len, size_t *count) {
    art_bytes_map own = *map;
    return art_bytes_get_many(&own, keys, keys_len, ends, ends_len, found, found_len, values, values_len, count);
}
#define art_bytes_get_many art_bytes_own_get_many
static inline uint32_t art_bytes_own_first(const art_bytes_map *map, uint8_t *key_out, size_t capacity,
                                           size_t *key_len, uint64_t *value) {
    art_bytes_map own = *map;
    return art_bytes_first(&own, key_out, capacity, key_len, value);
}
#define art_bytes_first art_bytes_own_first
static inline uint32_t art_bytes_own_last(const art_bytes_map *map, uint8_t *key_out, size_t capacity,
                                          size_t *key_len, uint64_t *value) {
    art_bytes_map own = *map;
    return art_bytes_last(&own, key_out, capacity, key_len, value);
}
#define art_bytes_last art_bytes_own_last
static inline size_t art_bytes_own_count_prefix(const art_bytes_map *map, const uint8_t *prefix, size_t len) {
    art_bytes_map own = *map;
    return art_bytes_count_prefix(&own, prefix, len);
}
#define art_bytes_count_prefix art_bytes_own_count_prefix
static inline size_t art_u64_own_len(const art_u64_map *map) {
    art_u64_map own = *map;
    return art_u64_len(&own);
}
#define art_u64_len art_u64_own_len
static inline uint32_t art_u64_own_get(const art_u64_map *map, uint64_t key, uint64_t *value) {
    art_u64_map own = *map;
    return art_u64_get(&own, key, value);
}
#define art_u64_get art_u64_own_get
static inline uint32_t art_u64_own_next(const art_u64_map *map, uint64_t from, bool inclusive, uint64_t *key,
                                        uint64_t *value) {
    art_u64_map own = *map;
    return art_u64_next(&own, from, inclusive, key, value);
}
#define art_u64_next art_u64_own_next
static inline uint32_t art_u64_own_previous(const art_u64_map *map, uint64_t from, bool inclusive, uint64_t *key,
                                            uint64_t *value) {
    art_u64_map own = *map;
    return art_u64_previous(&own, from, inclusive, key, value);
}
#define art_u64_previous art_u64_own_previous
static inline uint32_t art_u64_own_first(const art_u64_map *map, uint64_t *key, uint64_t *value) {
    art_u64_map own = *map;
    return art_u64_first(&own, key, value);
}
#define art_u64_first art_u64_own_first
static inline uint32_t art_u64_own_last(const art_u64_map *map, uint64_t *key, uint64_t *value) {
    art_u64_map own = *map;
    return art_u64_last(&own, key, value);
}
#define art_u64_last art_u64_own_last
static inline size_t art_u64_own_next_many(const art_u64_map *map, uint64_t from, bool inclusive, uint64_t *keys,
                                           size_t keys_len, uint64_t *values, size_t values_len) {
    art_u64_map own = *map;
    return art_u64_next_many(&own, from, inclusive, keys, keys_len, values, values_len);
}
#define art_u64_next_many art_u64_own_next_many
static inline size_t art_u64_own_previous_many(const art_u64_map *map, uint64_t from, bool inclusive, uint64_t *keys,
                                               size_t keys_len, uint64_t *values, size_t values_len) {
    art_u64_map own = *map;
    return art_u64_previous_many(&own, from, inclusive, keys, keys_len, values, values_len);
}
#define art_u64_previous_many art_u64_own_previous_many
static inline size_t art_u64_own_page(const art_u64_map *map, uint64_t from, bool inclusive,
                                      const art_u64_entry **entries) {
    art_u64_map own = *map;
    return art_u64_page(&own, from, inclusive, entries);
}
#define art_u64_page art_u64_own_page
static inline size_t art_u64_own_get_many(const art_u64_map *map, const uint64_t *keys, size_t keys_len,
                                          uint8_t *found, size_t found_len, uint64_t *values, size_t values_len) {
    art_u64_map own = *map;
    return art_u64_get_many(&own, keys, keys_len, found, found_len, values, values_len);
}
#define art_u64_get_many art_u64_own_get_many
static inline size_t art_routes_own_len(const art_routes_map *map) {
    art_routes_map own = *map;
    return art_routes_len(&own);
}
#define art_routes_len art_routes_own_len
static inline uint32_t art_routes_own_get(const art_routes_map *map, const uint8_t *address, size_t width,
                                          uint8_t length, uint64_t *value) {
    art_routes_map own = *map;
    return art_routes_get(&own, address, width, length, value);
}
#define art_routes_get art_routes_own_get
static inline uint32_t art_routes_own_longest_match(const art_routes_map *map, const uint8_t *address, size_t width,
                                                    uint8_t *length, uint64_t *value) {
    art_routes_map own = *map;
    return art_routes_longest_match(&own, address, width, length, value);
}
#define art_routes_longest_match art_routes_own_longest_match
static inline uint32_t art_routes_own_longest_match_many(const art_routes_map *map, const uint8_t *addresses,
                                                         size_t bytes, size_t width, uint8_t *lengths,
                                                         size_t lengths_len, uint64_t *values, size_t values_len,
                                                         size_t *count) {
    art_routes_map own = *map;
    return art_routes_longest_match_many(&own, addresses, bytes, width, lengths, lengths_len, values, values_len,
                                         count);
}
#define art_routes_longest_match_many art_routes_own_longest_match_many
static inline uint32_t art_routes_own_parent(const art_routes_map *map, const uint8_t *address, size_t width,
                                             uint8_t length, uint8_t *parent_length, uint64_t *value) {
    art_routes_map own = *map;
    return art_routes_parent(&own, address, width, length, parent_length, value);
}
#define art_routes_parent art_routes_own_parent
static inline uint32_t art_routes_own_next(const art_routes_map *map, const uint8_t *from, size_t from_width,
                                           uint8_t from_length, bool inclusive, uint8_t *address, size_t capacity,
                                           size_t *width, uint8_t *length, uint64_t *value) {
    art_routes_map own = *map;
    return art_routes_next(&own, from, from_width, from_length, inclusive, address, capacity, width, length, value);
}
#define art_routes_next art_routes_own_next
static inline uint32_t art_routes_own_covering(const art_routes_map *map, const uint8_t *address, size_t width,
                                               uint8_t length, uint8_t *lengths, size_t lengths_len, uint64_t *values,
                                               size_t values_len, size_t *count) {
    art_routes_map own = *map;
    return art_routes_covering(&own, address, width, length, lengths, lengths_len, values, values_len, count);
}
#define art_routes_covering art_routes_own_covering
static inline uint32_t art_routes_own_previous(const art_routes_map *map, const uint8_t *to, size_t to_width,
                                               uint8_t to_length, bool inclusive, uint8_t *address, size_t capacity,
                                               size_t *width, uint8_t *length, uint64_t *value) {
    art_routes_map own = *map;
    return art_routes_previous(&own, to, to_width, to_length, inclusive, address, capacity, width, length, value);
}
#define art_routes_previous art_routes_own_previous
static inline uint32_t art_routes_own_available_many(const art_routes_map *map, const uint8_t *address, size_t width,
                                                     uint8_t length, uint8_t part_length, const uint8_t *after,
                                                     size_t after_width, uint8_t *addresses, size_t capacity,
                                                     size_t *count) {
    art_routes_map own = *map;
    return art_routes_available_many(&own, address, width, length, part_length, after, after_width, addresses,
                                     capacity, count);
}
#define art_routes_available_many art_routes_own_available_many
static inline uint32_t art_routes_own_next_difference(const art_routes_map *map, const art_routes_map *new_map,
                                                      const uint8_t *from, size_t from_width, uint8_t from_length,
                                                      bool inclusive, uint8_t *address, size_t capacity,
                                                      size_t *width, uint8_t *length, uint8_t *change,
                                                      uint64_t *before, uint64_t *after) {
    art_routes_map own = *map, new_own = *new_map;
    return art_routes_next_difference(&own, &new_own, from, from_width, from_length, inclusive, address, capacity,
                                      width, length, change, before, after);
}
#define art_routes_next_difference art_routes_own_next_difference

#ifdef __cplusplus
}
#endif
#endif
