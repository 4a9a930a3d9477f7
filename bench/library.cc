// Times the library beside other ordered maps, in one process:
//
//     library dense|random|words ENTRIES FIRST
//
// It makes each map in turn, beginning with that of the number FIRST, and times its calls. Of fewer than 20,000 ENTRIES it
// makes as many maps of a kind as have 20,000 entries or a few less in all, and calls what changes no map once before it is timed.
// It writes a line for each map and call: the nanoseconds of processor time, for one entry (of a range: for one range), and the
// bytes that malloc has given out for an entry. It fails where two maps differ in what their calls return.
#include "../bindings/c/art.h"
#include <Judy.h>
#include <absl/container/btree_map.h>
#include <algorithm>
#include <cstdio>
#include <cstdlib>
#include <cstring>
#include <ctime>
#include <malloc.h>
#include <map>
#include <memory>
#include <random>
#include <string>
#include <string_view>
#include <vector>

struct Word {
    const uint8_t *at;
    size_t len;
    std::string_view view() const { return {reinterpret_cast<const char *>(at), len}; }
};

constexpr size_t RANGE = 100;   // entries of a range
constexpr size_t MANY = 20'000; // of maps with fewer entries there are several

static void require(bool due, const char *what) {
    if (due) return;
    std::fprintf(stderr, "bench: %s\n", what);
    std::exit(1);
}

// What the calls return: how many keys were new; the sum of the values found, each and one; the values in their order.
static void mix(uint64_t &sum, uint64_t value) { sum = (sum << 1 | sum >> 63) ^ value; }

template <class Key> struct Calls {
    const char *name;
    void *(*make)();
    void (*free)(void *);
    uint64_t (*insert)(void *, const Key *, size_t);
    uint64_t (*get)(void *, const Key *, size_t);
    uint64_t (*remove)(void *, const Key *, size_t);
    uint64_t (*iterate)(void *);
    uint64_t (*range)(void *, const Key *, size_t, size_t most);
};

// ---- std::map and absl::btree_map

static uint64_t owned(uint64_t key) { return key; }
static std::string owned(const Word &key) { return std::string(key.view()); }
static uint64_t sought(uint64_t key) { return key; }
static std::string_view sought(const Word &key) { return key.view(); }

template <class Map, class Key> Calls<Key> calls_of(const char *name) {
    Calls<Key> calls{};
    calls.name = name;
    calls.make = []() -> void * { return new Map; };
    calls.free = [](void *map) { delete static_cast<Map *>(map); };
    calls.insert = [](void *map, const Key *keys, size_t count) {
        uint64_t fresh = 0;
        for (size_t i = 0; i < count; i++) {
            auto [at, is_new] = static_cast<Map *>(map)->try_emplace(owned(keys[i]), i);
            at->second = i;
            fresh += is_new;
        }
        return fresh;
    };
    calls.get = [](void *map, const Key *keys, size_t count) {
        uint64_t sum = 0;
        for (size_t i = 0; i < count; i++) {
            auto at = static_cast<Map *>(map)->find(sought(keys[i]));
            if (at != static_cast<Map *>(map)->end()) sum += at->second + 1;
        }
        return sum;
    };
    calls.remove = [](void *map, const Key *keys, size_t count) {
        uint64_t sum = 0;
        for (size_t i = 0; i < count; i++) {
            auto at = static_cast<Map *>(map)->find(sought(keys[i]));
            if (at == static_cast<Map *>(map)->end()) continue;
            sum += at->second + 1;
            static_cast<Map *>(map)->erase(at);
        }
        return sum;
    };
    calls.iterate = [](void *map) {
        uint64_t sum = 0;
        for (const auto &entry : *static_cast<Map *>(map)) mix(sum, entry.second);
        return sum;
    };
    calls.range = [](void *map, const Key *keys, size_t count, size_t most) {
        uint64_t sum = 0;
        for (size_t i = 0; i < count; i++) {
            auto at = static_cast<Map *>(map)->lower_bound(sought(keys[i]));
            for (size_t left = most; left > 0 && at != static_cast<Map *>(map)->end(); left--, ++at) mix(sum, at->second);
        }
        return sum;
    };
    return calls;
}

// ---- this library

// The values of the next entries, from a key on, in order: those of a page by each call, as they lie.
static void walk(const art_u64_map *map, uint64_t from, size_t most, uint64_t &sum) {
    const art_u64_entry *entries;
    for (size_t found = 0, count; found < most; found += count) {
        count = art_u64_page(map, from, found == 0, &entries);
        if (!count) break;
        size_t wanted = std::min(count, most - found);
        for (size_t i = 0; i < wanted; i++) mix(sum, entries[i].value);
        from = entries[count - 1].key;
    }
}

static Calls<uint64_t> art_numbers() {
    Calls<uint64_t> calls{};
    calls.name = "`libart`";
    calls.make = []() -> void * {
        auto map = new art_u64_map{};
        require(art_u64_new(map) == ART_NONE, "no memory");
        return map;
    };
    calls.free = [](void *map) {
        art_u64_free(static_cast<art_u64_map *>(map));
        delete static_cast<art_u64_map *>(map);
    };
    calls.insert = [](void *map, const uint64_t *keys, size_t count) {
        uint64_t fresh = 0, before = 0;
        for (size_t i = 0; i < count; i++) {
            uint32_t status = art_u64_insert(static_cast<art_u64_map *>(map), keys[i], i, &before);
            require(status <= ART_SOME, "no memory");
            fresh += status == ART_NONE;
        }
        return fresh;
    };
    calls.get = [](void *map, const uint64_t *keys, size_t count) {
        uint64_t sum = 0, value = 0;
        for (size_t i = 0; i < count; i++)
            if (art_u64_get(static_cast<art_u64_map *>(map), keys[i], &value) == ART_SOME) sum += value + 1;
        return sum;
    };
    calls.remove = [](void *map, const uint64_t *keys, size_t count) {
        uint64_t sum = 0, value = 0;
        for (size_t i = 0; i < count; i++)
            if (art_u64_remove(static_cast<art_u64_map *>(map), keys[i], &value) == ART_SOME) sum += value + 1;
        return sum;
    };
    calls.iterate = [](void *map) {
        uint64_t sum = 0;
        walk(static_cast<art_u64_map *>(map), 0, SIZE_MAX, sum);
        return sum;
    };
    calls.range = [](void *map, const uint64_t *from, size_t count, size_t most) {
        uint64_t sum = 0;
        for (size_t i = 0; i < count; i++) walk(static_cast<art_u64_map *>(map), from[i], most, sum);
        return sum;
    };
    return calls;
}

// The values of the next entries, from a key on, in order. Those of a call are lent up to the next change, so that the next one
// may begin behind the last key of them.
static void walk(const art_bytes_map *map, const uint8_t *from, size_t len, size_t most, uint64_t &sum) {
    art_bytes_entry entries[128];
    for (size_t found = 0, count; found < most; found += count) {
        count = art_bytes_page(map, nullptr, 0, from, len, found == 0, entries, std::min<size_t>(most - found, 128));
        if (!count) break;
        for (size_t i = 0; i < count; i++) mix(sum, entries[i].value);
        from = entries[count - 1].key;
        len = entries[count - 1].key_len;
    }
}

static Calls<Word> art_words() {
    Calls<Word> calls{};
    calls.name = "`libart`";
    calls.make = []() -> void * {
        auto map = new art_bytes_map{};
        require(art_bytes_new(map) == ART_NONE, "no memory");
        return map;
    };
    calls.free = [](void *map) {
        art_bytes_free(static_cast<art_bytes_map *>(map));
        delete static_cast<art_bytes_map *>(map);
    };
    calls.insert = [](void *map, const Word *keys, size_t count) {
        uint64_t fresh = 0, before = 0;
        for (size_t i = 0; i < count; i++) {
            uint32_t status = art_bytes_insert(static_cast<art_bytes_map *>(map), keys[i].at, keys[i].len, i, &before);
            require(status <= ART_SOME, "no memory");
            fresh += status == ART_NONE;
        }
        return fresh;
    };
    calls.get = [](void *map, const Word *keys, size_t count) {
        uint64_t sum = 0, value = 0;
        for (size_t i = 0; i < count; i++)
            if (art_bytes_get(static_cast<art_bytes_map *>(map), keys[i].at, keys[i].len, &value) == ART_SOME) sum += value + 1;
        return sum;
    };
    calls.remove = [](void *map, const Word *keys, size_t count) {
        uint64_t sum = 0, value = 0;
        for (size_t i = 0; i < count; i++)
            if (art_bytes_remove(static_cast<art_bytes_map *>(map), keys[i].at, keys[i].len, &value) == ART_SOME) sum += value + 1;
        return sum;
    };
    calls.iterate = [](void *map) {
        uint64_t sum = 0;
        walk(static_cast<art_bytes_map *>(map), nullptr, 0, SIZE_MAX, sum);
        return sum;
    };
    calls.range = [](void *map, const Word *from, size_t count, size_t most) {
        uint64_t sum = 0;
        for (size_t i = 0; i < count; i++) walk(static_cast<art_bytes_map *>(map), from[i].at, from[i].len, most, sum);
        return sum;
    };
    return calls;
}

// ---- Rust's BTreeMap, of btree.rs

#define BTREE(key, name) \
    extern "C" { \
    void *btree_##name##_make(); \
    void btree_##name##_free(void *); \
    uint64_t btree_##name##_insert(void *, const key *, size_t); \
    uint64_t btree_##name##_get(void *, const key *, size_t); \
    uint64_t btree_##name##_remove(void *, const key *, size_t); \
    uint64_t btree_##name##_iterate(void *); \
    uint64_t btree_##name##_range(void *, const key *, size_t, size_t); \
    } \
    static Calls<key> btree_##name() { \
        return {"`BTreeMap` of Rust", btree_##name##_make, btree_##name##_free, btree_##name##_insert, btree_##name##_get, \
                btree_##name##_remove, btree_##name##_iterate, btree_##name##_range}; \
    }
BTREE(uint64_t, u64)
BTREE(Word, word)

// ---- Judy

struct Judy {
    void *array = nullptr;
};

static Calls<uint64_t> judy_numbers() {
    Calls<uint64_t> calls{};
    calls.name = "Judy";
    calls.make = []() -> void * { return new Judy; };
    calls.free = [](void *map) {
        JudyLFreeArray(&static_cast<Judy *>(map)->array, PJE0);
        delete static_cast<Judy *>(map);
    };
    calls.insert = [](void *map, const uint64_t *keys, size_t count) {
        uint64_t fresh = 0;
        for (size_t i = 0; i < count; i++) {
            auto value = static_cast<Word_t *>(static_cast<void *>(JudyLIns(&static_cast<Judy *>(map)->array, keys[i], PJE0)));
            fresh += *value == 0;
            *value = i + 1;
        }
        return fresh;
    };
    calls.get = [](void *map, const uint64_t *keys, size_t count) {
        uint64_t sum = 0;
        for (size_t i = 0; i < count; i++) {
            auto value = reinterpret_cast<Word_t *>(JudyLGet(static_cast<Judy *>(map)->array, keys[i], PJE0));
            if (value) sum += *value;
        }
        return sum;
    };
    calls.remove = [](void *map, const uint64_t *keys, size_t count) {
        uint64_t sum = 0;
        for (size_t i = 0; i < count; i++) {
            auto value = reinterpret_cast<Word_t *>(JudyLGet(static_cast<Judy *>(map)->array, keys[i], PJE0));
            if (!value) continue;
            sum += *value;
            JudyLDel(&static_cast<Judy *>(map)->array, keys[i], PJE0);
        }
        return sum;
    };
    calls.iterate = [](void *map) {
        uint64_t sum = 0;
        Word_t key = 0;
        auto array = static_cast<Judy *>(map)->array;
        for (auto at = JudyLFirst(array, &key, PJE0); at; at = JudyLNext(array, &key, PJE0)) mix(sum, *reinterpret_cast<Word_t *>(at) - 1);
        return sum;
    };
    calls.range = [](void *map, const uint64_t *from, size_t count, size_t most) {
        uint64_t sum = 0;
        auto array = static_cast<Judy *>(map)->array;
        for (size_t i = 0; i < count; i++) {
            Word_t key = from[i];
            size_t left = most;
            for (auto at = JudyLFirst(array, &key, PJE0); at && left > 0; at = JudyLNext(array, &key, PJE0), left--)
                mix(sum, *reinterpret_cast<Word_t *>(at) - 1);
        }
        return sum;
    };
    return calls;
}

// Words end in a zero, which is no part of them.
static Calls<Word> judy_words() {
    Calls<Word> calls{};
    calls.name = "Judy";
    calls.make = []() -> void * { return new Judy; };
    calls.free = [](void *map) {
        JudySLFreeArray(&static_cast<Judy *>(map)->array, PJE0);
        delete static_cast<Judy *>(map);
    };
    calls.insert = [](void *map, const Word *keys, size_t count) {
        uint64_t fresh = 0;
        for (size_t i = 0; i < count; i++) {
            auto value = reinterpret_cast<Word_t *>(JudySLIns(&static_cast<Judy *>(map)->array, keys[i].at, PJE0));
            fresh += *value == 0;
            *value = i + 1;
        }
        return fresh;
    };
    calls.get = [](void *map, const Word *keys, size_t count) {
        uint64_t sum = 0;
        for (size_t i = 0; i < count; i++) {
            auto value = reinterpret_cast<Word_t *>(JudySLGet(static_cast<Judy *>(map)->array, keys[i].at, PJE0));
            if (value) sum += *value;
        }
        return sum;
    };
    calls.remove = [](void *map, const Word *keys, size_t count) {
        uint64_t sum = 0;
        for (size_t i = 0; i < count; i++) {
            auto value = reinterpret_cast<Word_t *>(JudySLGet(static_cast<Judy *>(map)->array, keys[i].at, PJE0));
            if (!value) continue;
            sum += *value;
            JudySLDel(&static_cast<Judy *>(map)->array, keys[i].at, PJE0);
        }
        return sum;
    };
    calls.iterate = [](void *map) {
        uint64_t sum = 0;
        uint8_t key[64] = {};
        auto array = static_cast<Judy *>(map)->array;
        for (auto at = JudySLFirst(array, key, PJE0); at; at = JudySLNext(array, key, PJE0)) mix(sum, *reinterpret_cast<Word_t *>(at) - 1);
        return sum;
    };
    calls.range = [](void *map, const Word *from, size_t count, size_t most) {
        uint64_t sum = 0;
        auto array = static_cast<Judy *>(map)->array;
        for (size_t i = 0; i < count; i++) {
            uint8_t key[64];
            std::memcpy(key, from[i].at, from[i].len + 1);
            size_t left = most;
            for (auto at = JudySLFirst(array, key, PJE0); at && left > 0; at = JudySLNext(array, key, PJE0), left--)
                mix(sum, *reinterpret_cast<Word_t *>(at) - 1);
        }
        return sum;
    };
    return calls;
}

// ---- keys

static std::mt19937_64 rng(20261128);

static std::vector<uint64_t> dense_numbers(size_t count) {
    std::vector<uint64_t> keys(count);
    for (size_t i = 0; i < count; i++) keys[i] = i;
    return keys;
}

static std::vector<uint64_t> random_numbers(size_t count) {
    std::vector<uint64_t> keys(count + count / 10);
    for (auto &key : keys) key = rng();
    return keys;
}

// Words of 5 to 12 letters.
static std::vector<Word> random_words(size_t count) {
    static std::vector<uint8_t> letters;
    std::vector<size_t> starts;
    count += count / 2;
    letters.reserve(count * 13);
    for (size_t i = 0; i < count; i++) {
        starts.push_back(letters.size());
        uint64_t bits = rng(), len = 5 + bits % 8;
        for (bits /= 8; len > 0; len--, bits /= 26) letters.push_back('a' + bits % 26);
        letters.push_back(0);
    }
    starts.push_back(letters.size());
    std::vector<Word> keys;
    for (size_t i = 0; i < count; i++) keys.push_back({letters.data() + starts[i], starts[i + 1] - starts[i] - 1});
    return keys;
}

static bool is_less(uint64_t one, uint64_t other) { return one < other; }
static bool is_less(const Word &one, const Word &other) { return one.view() < other.view(); }

// Some of the keys in random order, no two equal.
template <class Key> static std::vector<Key> distinct(std::vector<Key> keys, size_t count) {
    std::sort(keys.begin(), keys.end(), [](auto &one, auto &other) { return is_less(one, other); });
    keys.erase(std::unique(keys.begin(), keys.end(), [](auto &one, auto &other) { return !is_less(one, other); }), keys.end());
    require(keys.size() >= count, "too few keys are distinct");
    std::shuffle(keys.begin(), keys.end(), rng);
    keys.resize(count);
    return keys;
}

// ---- times

static double now() {
    timespec time;
    clock_gettime(CLOCK_THREAD_CPUTIME_ID, &time);
    return time.tv_sec * 1e9 + time.tv_nsec;
}

static double held() {
    auto info = mallinfo2();
    return double(info.uordblks) + double(info.hblkhd);
}

enum { INSERT, GET, MISS, REMOVE, ITERATE, RANGES, BYTES, COUNT };
static const char *names[] = {"insert", "get", "miss", "remove", "iterate", "range", "bytes"};

struct Taken {
    double cost[COUNT];
    uint64_t returned[COUNT];
};

template <class Key> struct Bench {
    size_t each, maps; // entries of a map, and how many maps of a kind there are
    std::vector<Key> keys, sought, absent, starts;

    // Each map's part of these keys in another order.
    void shuffle_parts(std::vector<Key> &parts, std::mt19937_64 order) const {
        for (size_t map = 0; map < maps; map++) std::shuffle(&parts[map * each], &parts[map * each] + each, order);
    }

    Taken run(const Calls<Key> &calls) {
        Taken taken{};
        std::vector<void *> made(maps);
        // The sum of what a call returns on each map, with its part of the keys.
        auto sum_of = [&](const std::vector<Key> &parts, auto call) {
            uint64_t sum = 0;
            size_t part = parts.size() / maps;
            for (size_t map = 0; map < maps; map++) sum += call(made[map], &parts[map * part], part);
            return sum;
        };
        auto timed = [&](int what, const std::vector<Key> &parts, size_t count, auto call) {
            if (maps > 1 && what != INSERT && what != REMOVE) sum_of(parts, call);
            double begun = now();
            taken.returned[what] = sum_of(parts, call);
            taken.cost[what] = (now() - begun) / double(count);
        };
        size_t count = keys.size();
        double before = held();
        for (void *&map : made) map = calls.make();
        timed(INSERT, keys, count, calls.insert);
        taken.cost[BYTES] = (held() - before) / double(count);
        timed(GET, sought, count, calls.get);
        timed(MISS, absent, count, calls.get);
        timed(ITERATE, keys, count, [&](void *map, const Key *, size_t) { return calls.iterate(map); });
        timed(RANGES, starts, starts.size(), [&](void *map, const Key *from, size_t some) { return calls.range(map, from, some, RANGE); });
        shuffle_parts(sought, std::mt19937_64(7));
        timed(REMOVE, sought, count, calls.remove);
        require(taken.returned[INSERT] == count && taken.returned[MISS] == 0, calls.name);
        require(taken.returned[REMOVE] == maps * (each * (each + 1) / 2), calls.name);
        for (void *map : made) calls.free(map);
        malloc_trim(0);
        return taken;
    }

    void run_all(const std::vector<Calls<Key>> &maps, size_t first) {
        Taken before{};
        for (size_t turn = 0; turn < maps.size(); turn++) {
            const Calls<Key> &calls = maps[(first + turn) % maps.size()];
            Taken taken = run(calls);
            for (int what = 0; what < COUNT; what++) {
                require(turn == 0 || taken.returned[what] == before.returned[what], "two maps differ");
                std::printf("%s\t%s\t%.1f\n", calls.name, names[what], taken.cost[what]);
            }
            before = taken;
        }
    }
};

// Twice as many keys as entries: those of the entries, in random order, and absent ones.
template <class Key> static Bench<Key> bench_of(std::vector<Key> all, size_t each) {
    size_t count = all.size() / 2, ranges = std::max<size_t>(each / RANGE, 1);
    Bench<Key> bench{each, count / each, {}, {}, {}, {}};
    bench.keys.assign(all.begin(), all.begin() + count);
    bench.absent.assign(all.begin() + count, all.end());
    bench.sought = bench.keys;
    bench.shuffle_parts(bench.sought, rng);
    for (size_t map = 0; map < bench.maps; map++)
        bench.starts.insert(bench.starts.end(), &bench.sought[map * each], &bench.sought[map * each] + ranges);
    return bench;
}

int main(int arguments, char **words) {
    require(arguments == 4, "give the keys, how many, and the first map");
    std::string shape = words[1];
    size_t each = std::strtoull(words[2], nullptr, 10);
    size_t first = std::strtoull(words[3], nullptr, 10);
    require(each > 0, "no entries");
    size_t count = each * std::max<size_t>(MANY / each, 1);
    if (shape == "words") {
        auto bench = bench_of(distinct(random_words(2 * count), 2 * count), each);
        bench.run_all({art_words(), btree_word(), calls_of<std::map<std::string, uint64_t, std::less<>>, Word>("`std::map`"),
                       calls_of<absl::btree_map<std::string, uint64_t, std::less<>>, Word>("`absl::btree_map`"), judy_words()},
                      first);
        return 0;
    }
    require(shape == "dense" || shape == "random", "the keys are dense, random or words");
    std::vector<uint64_t> all;
    if (shape == "random") {
        all = distinct(random_numbers(2 * count), 2 * count);
    } else {
        // Those of a map are dense. The absent ones lie above all entries.
        all = dense_numbers(2 * count);
        for (size_t at = 0; at < all.size(); at += each) std::shuffle(&all[at], &all[at] + each, rng);
    }
    bench_of(std::move(all), each)
        .run_all({art_numbers(), btree_u64(), calls_of<std::map<uint64_t, uint64_t>, uint64_t>("`std::map`"),
                  calls_of<absl::btree_map<uint64_t, uint64_t>, uint64_t>("`absl::btree_map`"), judy_numbers()},
                 first);
}
