// Each allocation of a script of calls is refused in turn: the call says so, and the entries are those of before.
// Then it is made again. Look-ups and removals of maps succeed with all memory refused, and so do those of tables after `reserve`.
// Link with -Wl,--wrap=malloc,--wrap=realloc,--wrap=free: std::map does not use these.
#include "beside_map.h"
#include <malloc.h>
#include <tuple>

static bool counting = false;
static long until_refusal = 0;
static size_t largest = SIZE_MAX; // a block of more bytes is refused too
static bool refused = false;
static long blocks = 0;
static size_t held = 0; // the bytes of all blocks

static bool refuses(size_t size) {
    if (!counting || (--until_refusal != 0 && size <= largest)) return false;
    refused = true;
    return true;
}

extern "C" {
void *__real_malloc(size_t size);
void *__real_realloc(void *block, size_t size);
void __real_free(void *block);

void *__wrap_malloc(size_t size) {
    if (refuses(size)) return nullptr;
    blocks++;
    void *block = __real_malloc(size);
    held += malloc_usable_size(block);
    return block;
}

void *__wrap_realloc(void *block, size_t size) {
    if (refuses(size)) return nullptr;
    if (block == nullptr) blocks++;
    held -= malloc_usable_size(block);
    void *moved = __real_realloc(block, size);
    held += malloc_usable_size(moved);
    return moved;
}

void __wrap_free(void *block) {
    if (block != nullptr) blocks--;
    held -= malloc_usable_size(block);
    __real_free(block);
}
}

struct Maps {
    art_bytes_map bytes = {};
    art_u64_map numbers = {};
    art_routes_map routes = {};
    uint8_t key[400];
    size_t len = 0;
    uint64_t number = 0;
    uint64_t value = 0;

    struct Entries {
        std::vector<std::pair<std::string, uint64_t>> first;
        std::vector<std::pair<uint64_t, uint64_t>> second;
        std::vector<std::tuple<std::string, uint8_t, uint64_t>> routes;

        bool operator==(const Entries &other) const { return first == other.first && second == other.second && routes == other.routes; }
    };

    // All entries of the maps, and all routes. No allocation is refused meanwhile.
    Entries entries() {
        Entries all;
        uint8_t from[400];
        size_t from_len = 0;
        uint64_t at = 0, found = 0;
        bool more = art_bytes_first(&bytes, from, sizeof from, &from_len, &found) == ART_SOME;
        while (more) {
            all.first.emplace_back(std::string(from, from + from_len), found);
            uint8_t next[400];
            more = art_bytes_next(&bytes, from, from_len, false, next, sizeof next, &from_len, &found) == ART_SOME;
            std::memcpy(from, next, sizeof next);
        }
        for (more = art_u64_first(&numbers, &at, &found) == ART_SOME; more; more = art_u64_next(&numbers, at, false, &at, &found) == ART_SOME)
            all.second.emplace_back(at, found);
        uint8_t address[16] = {}, length = 0;
        size_t width = 4;
        for (bool first = true; art_routes_next(&routes, address, width, length, first, address, 16, &width, &length, &found) == ART_SOME; first = false)
            all.routes.emplace_back(std::string(address, address + width), length, found);
        return all;
    }
};

// A call that looks takes no memory. One that only takes entries out may ask for some, and succeeds where it is refused. So
// does an insert by bytes where it asks for memory that makes searches faster.
enum Effect { ADDS, TAKES_OUT, LOOKS };

// A call, which returns a status, and may be made again where it is refused.
struct Call {
    uint32_t (*make)(Maps &maps, uint64_t with);
    uint64_t with;
    Effect effect;
};

static const uint8_t *name(uint64_t with, uint8_t *room, size_t *len) {
    // Of several lengths, with zeros, some of which begin others.
    *len = with % 7 == 6 ? 300 : with % 7;
    for (size_t i = 0; i < *len; i++) room[i] = static_cast<uint8_t>(i == 0 ? with : i == 1 ? with / 256 : 0);
    return room;
}

#define CALL(body) [](Maps &maps, uint64_t with) -> uint32_t { (void)with; (void)maps; uint8_t room[400]; size_t len; \
    const uint8_t *key = name(with, room, &len); (void)key; body }

// A network of IPv4 or IPv6: some lie in others.
static const uint8_t *network(uint64_t with, uint8_t *room, size_t *width, uint8_t *length) {
    *width = with % 3 == 0 ? 16 : 4;
    *length = static_cast<uint8_t>(with % (8 * *width + 1));
    std::memset(room, 0, 16);
    for (size_t at = 0; at < *length; at++) room[at / 8] |= static_cast<uint8_t>((with * 0x9E3779B9 >> at % 24 & 1) << (7 - at % 8));
    return room;
}

#define ROUTE_CALL(body) [](Maps &maps, uint64_t with) -> uint32_t { uint8_t room[16], length; size_t width; \
    const uint8_t *address = network(with, room, &width, &length); body }

static std::vector<Call> script() {
    std::vector<Call> calls;
    auto add = [&calls](uint32_t (*make)(Maps &, uint64_t), uint64_t with) { calls.push_back({make, with, ADDS}); };
    auto take_out = [&calls](uint32_t (*make)(Maps &, uint64_t), uint64_t with) { calls.push_back({make, with, TAKES_OUT}); };
    auto look = [&calls](uint32_t (*make)(Maps &, uint64_t), uint64_t with) { calls.push_back({make, with, LOOKS}); };
    add(CALL(return art_bytes_new(&maps.bytes);), 0);
    add(CALL(return art_u64_new(&maps.numbers);), 0);
    for (uint64_t i = 0; i < 90; i++) {
        add(CALL(return art_bytes_insert(&maps.bytes, key, len, with, &maps.value);), i * 37);
        add(CALL(return art_u64_insert(&maps.numbers, with, with, &maps.value);), i < 60 ? i : i << 40);
    }
    add(CALL(return art_routes_new(&maps.routes);), 0);
    for (uint64_t i = 0; i < 90; i++) add(ROUTE_CALL(return art_routes_insert(&maps.routes, address, width, length, with, &maps.value);), i);
    add(CALL(return art_routes_reserve(&maps.routes, with);), 100);
    add(CALL(return art_routes_compact(&maps.routes);), 0);
    for (uint64_t i = 0; i < 90; i += 5) {
        look(CALL(return art_bytes_get(&maps.bytes, key, len, &maps.value);), i * 37);
        look(CALL(return art_bytes_next(&maps.bytes, key, len, true, maps.key, sizeof maps.key, &maps.len, &maps.value);), i);
        look(CALL(return art_bytes_previous(&maps.bytes, key, len, false, maps.key, sizeof maps.key, &maps.len, &maps.value);), i);
        look(CALL(return art_bytes_next_with_prefix(&maps.bytes, key, len / 2, key, len, true, maps.key, sizeof maps.key, &maps.len, &maps.value);), i);
        look(CALL(size_t ends[4]; size_t count; uint64_t values[4];
                  return art_bytes_next_many(&maps.bytes, key, len / 2, key, len, true, maps.key, sizeof maps.key, ends, 4, values, 4, &count, &maps.len);), i);
        look(CALL(size_t ends[4]; size_t count; uint64_t values[4];
                  return art_bytes_previous_many(&maps.bytes, key, len / 2, key, len, true, maps.key, sizeof maps.key, ends, 4, values, 4, &count, &maps.len);), i);
        // Of no bytes, and of all.
        look(CALL(size_t ends[2]; uint8_t found[2]; uint64_t values[2]; size_t count; ends[0] = 0; ends[1] = len;
                  uint32_t status = art_bytes_get_many(&maps.bytes, key, len, ends, 2, found, 2, values, 2, &count);
                  CHECK(count == 2); return status;), i);
        look(CALL(return art_bytes_count_prefix(&maps.bytes, key, len) <= 90 ? ART_NONE : ART_NO_MEMORY;), i);
        look(CALL(return art_u64_get(&maps.numbers, with, &maps.value);), i);
    }
    for (uint64_t i = 0; i < 90; i += 5) {
        look(ROUTE_CALL(return art_routes_get(&maps.routes, address, width, length, &maps.value);), i);
        look(ROUTE_CALL(return art_routes_longest_match(&maps.routes, address, width, &length, &maps.value);), i);
        look(ROUTE_CALL(size_t count; return art_routes_longest_match_many(&maps.routes, address, width, width, &length, 1, &maps.value, 1, &count);), i);
        look(ROUTE_CALL(uint8_t lengths[200]; uint64_t values[200]; size_t count;
                        return art_routes_covering(&maps.routes, address, width, length, lengths, 200, values, 200, &count);), i);
        look(ROUTE_CALL(return art_routes_parent(&maps.routes, address, width, length, &length, &maps.value);), i);
        look(ROUTE_CALL(return art_routes_next(&maps.routes, address, width, length, true, maps.key, 16, &maps.len, &length, &maps.value);), i);
        look(ROUTE_CALL(return art_routes_previous(&maps.routes, address, width, length, true, maps.key, 16, &maps.len, &length, &maps.value);), i);
        look(ROUTE_CALL(size_t count; return art_routes_available_many(&maps.routes, address, width, length, length + 2, nullptr, 0, maps.key, 64, &count);), i);
        look(ROUTE_CALL(uint8_t change; uint64_t after; return art_routes_next_difference(&maps.routes, &maps.routes, address, width, length, true, maps.key, 16,
                        &maps.len, &length, &change, &maps.value, &after);), i);
    }
    for (uint64_t i = 85; i < 110; i++) add(ROUTE_CALL(return art_routes_get_or_insert(&maps.routes, address, width, length, with, &maps.value);), i);
    for (uint64_t i = 0; i < 90; i += 2) add(ROUTE_CALL(return art_routes_remove(&maps.routes, address, width, length, &maps.value);), i);
    for (uint64_t i = 0; i < 45; i++) {
        take_out(CALL(return art_bytes_remove(&maps.bytes, key, len, &maps.value);), i * 74);
        take_out(CALL(return art_u64_remove(&maps.numbers, with, &maps.value);), i < 30 ? 2 * i : i << 40);
    }
    for (uint64_t i = 0; i < 70; i++) {
        take_out(i % 2 ? CALL(return art_bytes_pop_first(&maps.bytes, maps.key, sizeof maps.key, &maps.len, &maps.value);)
                       : CALL(return art_bytes_pop_last(&maps.bytes, maps.key, sizeof maps.key, &maps.len, &maps.value);), 0);
        take_out(i % 2 ? CALL(return art_u64_pop_first(&maps.numbers, &maps.number, &maps.value);)
                       : CALL(return art_u64_pop_last(&maps.numbers, &maps.number, &maps.value);), 0);
    }
    return calls;
}

// How many calls of the script were refused.
static long denials = 0;

// Runs the script with this allocation refused. Whether there was one.
static bool run(const std::vector<Call> &calls, long allocation) {
    Maps maps;
    until_refusal = allocation;
    refused = false;
    for (const Call &call : calls) {
        bool before = refused;
        Maps::Entries entries;
        Maps untouched = maps;
        if (!before) entries = maps.entries();
        counting = true;
        uint32_t status = call.make(maps, call.with);
        counting = false;
        if (refused == before) {
            CHECK(status == ART_NONE || status == ART_SOME);
            continue;
        }
        if (call.effect == TAKES_OUT) {
            Maps::Entries left = maps.entries();
            CHECK(status == ART_NONE || status == ART_SOME);
            CHECK(left.first.size() + left.second.size() + status == entries.first.size() + entries.second.size());
            continue;
        }
        CHECK(call.effect == ADDS);
        if (status != ART_NO_MEMORY) {
            Maps::Entries more = maps.entries();
            CHECK(status == ART_NONE && more.first.size() == entries.first.size() + 1 && more.second == entries.second && more.routes == entries.routes);
            continue;
        }
        denials++;
        CHECK(maps.entries() == entries);
        CHECK(maps.len == untouched.len && maps.number == untouched.number && maps.value == untouched.value);
        CHECK(std::memcmp(maps.key, untouched.key, sizeof maps.key) == 0);
        status = call.make(maps, call.with);
        CHECK(status == ART_NONE || status == ART_SOME);
    }
    art_bytes_free(&maps.bytes);
    art_u64_free(&maps.numbers);
    art_routes_free(&maps.routes);
    CHECK(blocks == 0);
    return refused;
}

// How many calls for many entries were refused.
static long stopped = 0;

// Many entries at once, with this allocation refused: those before it are in, and no others. Whether there was one.
template <typename Key, typename Insert, typename Entries>
static bool stops(long allocation, const std::vector<Key> &keys, Insert insert, Entries entries) {
    std::vector<uint64_t> values;
    for (uint64_t i = 0; i < keys.size(); i++) values.push_back(i);
    until_refusal = allocation;
    refused = false;
    size_t done = 0;
    counting = true;
    uint32_t status = insert(values, &done);
    counting = false;
    CHECK(status == ART_NONE || (status == ART_NO_MEMORY && refused));
    CHECK((done < keys.size()) == (status == ART_NO_MEMORY));
    if (status == ART_NO_MEMORY) stopped++;
    std::map<Key, uint64_t> model;
    for (size_t i = 0; i < done; i++) model[keys[i]] = values[i];
    CHECK((entries() == std::vector<std::pair<Key, uint64_t>>(model.begin(), model.end())));
    return refused;
}

static bool numbers_stop(long allocation) {
    Maps maps;
    std::vector<uint64_t> keys;
    for (uint64_t i = 0; i < 300; i++) keys.push_back(i * 0x9E3779B97F4A7C15u >> 40);
    CHECK(art_u64_new(&maps.numbers) == ART_NONE);
    auto insert = [&](const std::vector<uint64_t> &values, size_t *done) {
        return art_u64_insert_many(&maps.numbers, keys.data(), keys.size(), values.data(), values.size(), done);
    };
    bool any = stops(allocation, keys, insert, [&] { return maps.entries().second; });
    art_u64_free(&maps.numbers);
    CHECK(blocks == 0);
    return any;
}

// The same by bytes: a key of more than 22 takes memory of its own, and these all have more.
static bool names_stop(long allocation) {
    Maps maps;
    std::vector<std::string> names;
    std::string keys;
    std::vector<size_t> ends;
    for (uint64_t i = 0; i < 300; i++) {
        uint8_t room[400];
        size_t len;
        const uint8_t *key = name(i * 37 % 9001, room, &len);
        names.emplace_back(key, key + len);
        names.back() += std::string(23, 'z');
        ends.push_back((keys += names.back()).size());
    }
    CHECK(art_bytes_new(&maps.bytes) == ART_NONE);
    auto insert = [&](const std::vector<uint64_t> &values, size_t *done) {
        return art_bytes_insert_many(&maps.bytes, reinterpret_cast<const uint8_t *>(keys.data()), keys.size(), ends.data(), ends.size(),
                                     values.data(), values.size(), done);
    };
    bool any = stops(allocation, names, insert, [&] { return maps.entries().first; });
    art_bytes_free(&maps.bytes);
    CHECK(blocks == 0);
    return any;
}

// A load with this allocation refused: no entry is in, and it may be made again. Whether there was one.
static bool loads(long allocation) {
    Maps maps;
    std::string keys;
    std::vector<size_t> ends;
    std::vector<uint64_t> numbers;
    std::vector<std::pair<std::string, uint64_t>> names;
    for (uint64_t i = 0; i < 300; i++) {
        std::string key = {static_cast<char>(i >> 4), static_cast<char>(i << 4), '\0'};
        names.emplace_back(i % 7 ? key : key + std::string(40, 'a'), i * i);
        ends.push_back((keys += names.back().first).size());
        numbers.push_back(i * i);
    }
    CHECK(art_bytes_new(&maps.bytes) == ART_NONE && art_u64_new(&maps.numbers) == ART_NONE);
    auto load_names = [&] {
        return art_bytes_load(&maps.bytes, reinterpret_cast<const uint8_t *>(keys.data()), keys.size(), ends.data(), ends.size(), numbers.data(),
                              numbers.size());
    };
    auto load_numbers = [&] { return art_u64_load(&maps.numbers, numbers.data(), numbers.size(), numbers.data(), numbers.size()); };
    until_refusal = allocation;
    refused = false;
    counting = true;
    uint32_t of_names = load_names();
    bool before = refused;
    uint32_t of_numbers = load_numbers();
    counting = false;
    CHECK((of_names == ART_NONE || (of_names == ART_NO_MEMORY && before)) && of_numbers == (refused == before ? ART_NONE : ART_NO_MEMORY));
    Maps::Entries entries = maps.entries();
    CHECK(entries.first.size() == (of_names == ART_NONE ? 300 : 0) && entries.second.size() == (refused == before ? 300 : 0));
    if (of_names == ART_NO_MEMORY) CHECK(load_names() == ART_NONE);
    if (refused != before) CHECK(load_numbers() == ART_NONE);
    entries = maps.entries();
    CHECK(entries.first == names && entries.second.size() == 300 && entries.second.back() == std::make_pair(numbers.back(), numbers.back()));
    art_bytes_free(&maps.bytes);
    art_u64_free(&maps.numbers);
    CHECK(blocks == 0);
    return refused;
}

// With all memory refused, a map answers look-ups, takes new values for its keys, and gives all entries out.
static void needs_none() {
    const uint64_t count = 3000;
    Maps maps;
    CHECK(art_bytes_new(&maps.bytes) == ART_NONE && art_u64_new(&maps.numbers) == ART_NONE);
    uint8_t room[400], *out = maps.key;
    size_t len = 0;
    auto of_number = [](uint64_t i) { return i * 0x9E3779B97F4A7C15u; };
    for (uint64_t i = 0; i < count; i++) {
        const uint8_t *key = name(i, room, &len);
        CHECK(art_bytes_insert(&maps.bytes, key, len, i, &maps.value) <= ART_SOME);
        CHECK(art_u64_insert(&maps.numbers, of_number(i), i, &maps.value) == ART_NONE);
    }
    size_t names = art_bytes_len(&maps.bytes);
    until_refusal = 0;
    largest = 0;
    refused = false;
    counting = true;
    for (uint64_t i = 0; i < count; i++) {
        const uint8_t *key = name(i, room, &len);
        CHECK(art_bytes_get(&maps.bytes, key, len, &maps.value) == ART_SOME);
        CHECK(art_bytes_insert(&maps.bytes, key, len, i + 1, &maps.value) == ART_SOME);
        CHECK(art_bytes_next(&maps.bytes, key, len, true, out, sizeof maps.key, &maps.len, &maps.value) == ART_SOME && maps.len == len && maps.value == i + 1);
        CHECK(art_bytes_previous(&maps.bytes, key, len, true, out, sizeof maps.key, &maps.len, &maps.value) == ART_SOME && maps.len == len);
        CHECK(art_bytes_next_with_prefix(&maps.bytes, key, len, key, len, true, out, sizeof maps.key, &maps.len, &maps.value) == ART_SOME);
        CHECK(art_bytes_count_prefix(&maps.bytes, key, len) >= 1);
        CHECK(art_u64_get(&maps.numbers, of_number(i), &maps.value) == ART_SOME && maps.value == i);
        CHECK(art_u64_insert(&maps.numbers, of_number(i), i + 1, &maps.value) == ART_SOME && maps.value == i);
    }
    CHECK(!refused);
    for (uint64_t i = 0; i < count; i += 2) {
        const uint8_t *key = name(i, room, &len);
        if (art_bytes_remove(&maps.bytes, key, len, &maps.value) == ART_SOME) names--;
        CHECK(art_bytes_get(&maps.bytes, key, len, &maps.value) == ART_NONE);
        CHECK(art_u64_remove(&maps.numbers, of_number(i), &maps.value) == ART_SOME && maps.value == i + 1);
    }
    for (size_t left = names; left > 0; left--)
        CHECK((left % 2 ? art_bytes_pop_first(&maps.bytes, out, sizeof maps.key, &maps.len, &maps.value)
                        : art_bytes_pop_last(&maps.bytes, out, sizeof maps.key, &maps.len, &maps.value)) == ART_SOME);
    for (uint64_t left = count / 2; left > 0; left--)
        CHECK((left % 2 ? art_u64_pop_first(&maps.numbers, &maps.number, &maps.value) : art_u64_pop_last(&maps.numbers, &maps.number, &maps.value)) == ART_SOME);
    CHECK(art_bytes_len(&maps.bytes) == 0 && art_u64_len(&maps.numbers) == 0);
    counting = false;
    largest = SIZE_MAX;
    art_bytes_free(&maps.bytes);
    art_u64_free(&maps.numbers);
    CHECK(blocks == 0 && held == 0);
}

// A network of 32 bits or more, in either family.
#define BLOCK_CALL(body) [](Maps &maps, uint64_t i) -> uint32_t { uint8_t address[16] = {}; size_t width = i % 2 ? 4 : 16; \
    uint8_t length = static_cast<uint8_t>(i % 2 ? 32 : 32 + i % 97); \
    for (size_t at = 0; at < 4; at++) address[at] = static_cast<uint8_t>(i * 0x9E3779B1u >> 8 * at); \
    body }

// After `reserve` so many inserts of new routes take no memory, and so do removals from a compact table, which needs smaller
// nodes. Then `compact` gives most memory back.
static void reserves() {
    const uint64_t count = 3000;
    Maps maps;
    auto changes = [&](uint32_t (*change)(Maps &, uint64_t), uint64_t from, uint32_t due) {
        CHECK(art_routes_reserve(&maps.routes, count - from) == ART_NONE);
        until_refusal = 0;
        largest = 0;
        refused = false;
        counting = true;
        for (uint64_t i = from; i < count; i++) CHECK(change(maps, i) == due);
        counting = false;
        largest = SIZE_MAX;
        CHECK(!refused);
    };
    CHECK(art_routes_new(&maps.routes) == ART_NONE);
    changes(BLOCK_CALL(return art_routes_insert(&maps.routes, address, width, length, i, &maps.value);), 0, ART_NONE);
    CHECK(art_routes_compact(&maps.routes) == ART_NONE);
    changes(BLOCK_CALL(return art_routes_remove(&maps.routes, address, width, length, &maps.value);), count / 10, ART_SOME);
    size_t before = held;
    CHECK(art_routes_compact(&maps.routes) == ART_NONE && held < before / 4);
    art_routes_free(&maps.routes);
    CHECK(blocks == 0 && held == 0);
}

int main() {
    needs_none();
    reserves();
    long numbers = 1, names = 1;
    while (numbers_stop(numbers)) numbers++;
    // Each refusal of a map by numbers is told.
    CHECK(numbers > 1 && stopped == numbers - 1);
    while (names_stop(names)) names++;
    CHECK(names > 200 && stopped > numbers + 200);
    long load = 1;
    while (loads(load)) load++;
    std::vector<Call> calls = script();
    long allocation = 1;
    while (run(calls, allocation)) allocation++;
    std::printf("refused_memory: of %zu calls each of %ld allocations was refused, %ld calls said so, and changed nothing; look-ups and removals need none\n",
                calls.size(), allocation - 1, denials);
}
