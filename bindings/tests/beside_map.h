// Calls of both maps beside std::map: what each returns and writes, and that it writes nothing else.
// Which call comes next, and with what, a Source says: a generator of random numbers, or a fuzzer.
#ifndef BESIDE_MAP_H
#define BESIDE_MAP_H
#include "../c/art.h"
#include <algorithm>
#include <cstdio>
#include <cstdlib>
#include <cstring>
#include <iterator>
#include <map>
#include <string>
#include <vector>

[[noreturn]] inline void differs(const char *file, int line, const char *what) {
    std::printf("%s: line %d: not so: %s\n", file, line, what);
    std::fflush(stdout);
    std::abort();
}

#define CHECK(fact) ((fact) ? (void)0 : differs(__FILE__, __LINE__, #fact))

// What stands in the places that a call writes only where it finds an entry.
const uint64_t NO_VALUE = 0x5EED5EED5EEDull;
const size_t NO_LEN = 123456789;
const uint8_t NO_BYTE = 0xEE;

template <class Source> class BytesBeside {
    using Model = std::map<std::string, uint64_t>;
    using Entry = Model::const_iterator;

    Source &source;
    art_bytes_map map = {};
    Model model;
    std::vector<uint8_t> out;
    size_t len = NO_LEN;
    uint64_t value = NO_VALUE;

    static const uint8_t *bytes(const std::string &key) {
        return key.empty() ? nullptr : reinterpret_cast<const uint8_t *>(key.data());
    }

    uint8_t *room() { return out.empty() ? nullptr : out.data(); }

    // Where the value of a key is written.
    void found_value(Entry at, uint32_t status) {
        if (at == model.end()) {
            CHECK(status == ART_NONE && value == NO_VALUE);
        } else {
            CHECK(status == ART_SOME && value == at->second);
        }
    }

    // Where a key and its value are written, the key if it fits.
    void found_entry(Entry at, uint32_t status) {
        size_t written = 0;
        if (at == model.end()) {
            CHECK(status == ART_NONE && len == NO_LEN && value == NO_VALUE);
        } else if (at->first.size() > out.size()) {
            CHECK(status == ART_SMALL_BUFFER && len == at->first.size() && value == NO_VALUE);
        } else {
            written = at->first.size();
            CHECK(status == ART_SOME && len == written && value == at->second);
            CHECK(std::equal(out.begin(), out.begin() + written, bytes(at->first)));
        }
        CHECK(std::all_of(out.begin() + written, out.end(), [](uint8_t byte) { return byte == NO_BYTE; }));
    }

    Entry after(const std::string &key, bool inclusive) const {
        return inclusive ? model.lower_bound(key) : model.upper_bound(key);
    }

    Entry before(const std::string &key, bool inclusive) const {
        Entry end = inclusive ? model.upper_bound(key) : model.lower_bound(key);
        return end == model.begin() ? model.end() : std::prev(end);
    }

    static bool begins(const std::string &key, const std::string &prefix) { return key.compare(0, prefix.size(), prefix) == 0; }

    Entry end_entry(bool first) const { return model.empty() ? model.end() : first ? model.begin() : std::prev(model.end()); }

    // The first entry at or after a key that begins with the prefix.
    Entry after_with(const std::string &prefix, const std::string &key, bool inclusive) const {
        Entry at = model.lower_bound(std::max(prefix, key));
        if (at != model.end() && at->first == key && !inclusive) ++at;
        return at != model.end() && begins(at->first, prefix) ? at : model.end();
    }

    // The last entry at or before a key that begins with the prefix.
    Entry before_with(const std::string &prefix, const std::string &key, bool inclusive) const {
        Entry last = model.end();
        for (Entry at = model.lower_bound(prefix); at != model.end() && begins(at->first, prefix); ++at)
            if (at->first < key || (inclusive && at->first == key)) last = at;
        return last;
    }

    // The next entries, up or down, as many as fit into buffers of which none has much room.
    void many(const std::string &prefix, const std::string &key, bool inclusive, bool up) {
        size_t count = NO_LEN, written = 0, end = 0;
        std::vector<size_t> ends(1 + source.below(6), NO_LEN);
        std::vector<uint64_t> values(1 + source.below(6), NO_VALUE);
        size_t ends_len = ends.size() - source.below(2), values_len = values.size() - source.below(2);
        auto call = [&](auto next) {
            return next(&map, bytes(prefix), prefix.size(), bytes(key), key.size(), inclusive, room(), out.size(), ends.data(), ends_len,
                        values.data(), values_len, &count, &len);
        };
        uint32_t status = up ? call(art_bytes_next_many) : call(art_bytes_previous_many);
        Entry at = up ? after_with(prefix, key, inclusive) : before_with(prefix, key, inclusive);
        auto left = [&] { return at != model.end() && begins(at->first, prefix); };
        while (left() && written < std::min(ends_len, values_len) && at->first.size() <= out.size() - end) {
            CHECK(std::equal(out.begin() + end, out.begin() + end + at->first.size(), bytes(at->first)));
            end += at->first.size();
            CHECK(ends[written] == end && values[written] == at->second);
            written++;
            if (up) ++at;
            else at = at == model.begin() ? model.end() : std::prev(at);
        }
        CHECK(count == written && status == (written ? ART_SOME : left() ? ART_SMALL_BUFFER : ART_NONE));
        CHECK(len == (status == ART_SMALL_BUFFER ? at->first.size() : NO_LEN));
        CHECK(std::all_of(out.begin() + end, out.end(), [](uint8_t byte) { return byte == NO_BYTE; }));
        CHECK(std::all_of(ends.begin() + written, ends.end(), [](size_t it) { return it == NO_LEN; }));
        CHECK(std::all_of(values.begin() + written, values.end(), [](uint64_t it) { return it == NO_VALUE; }));
    }

    // The next entries, of which the keys are lent, as many as the places are.
    void page(const std::string &prefix, const std::string &key, bool inclusive) {
        const uint8_t none = 0;
        const art_bytes_entry unwritten = {&none, NO_LEN, NO_VALUE};
        std::vector<art_bytes_entry> places(source.below(9), unwritten);
        size_t count = art_bytes_page(&map, bytes(prefix), prefix.size(), bytes(key), key.size(), inclusive, places.data(), places.size());
        size_t written = 0;
        for (Entry at = after_with(prefix, key, inclusive); at != model.end() && begins(at->first, prefix) && written < places.size(); ++at) {
            const art_bytes_entry &it = places[written++];
            CHECK(it.key_len == at->first.size() && it.value == at->second && std::equal(it.key, it.key + it.key_len, bytes(at->first)));
        }
        CHECK(count == written);
        for (; written < places.size(); written++)
            CHECK(places[written].key == &none && places[written].key_len == NO_LEN && places[written].value == NO_VALUE);
    }

    // All entries, lent a few at a time.
    void walk_by_pages() {
        art_bytes_entry places[5];
        std::string from;
        bool inclusive = true;
        Entry at = model.begin();
        while (size_t count = art_bytes_page(&map, nullptr, 0, bytes(from), from.size(), inclusive, places, 5)) {
            for (size_t i = 0; i < count; i++, ++at)
                CHECK(at != model.end() && places[i].key_len == at->first.size() && places[i].value == at->second &&
                      std::equal(places[i].key, places[i].key + places[i].key_len, bytes(at->first)));
            from = std::prev(at)->first;
            inclusive = false;
        }
        CHECK(at == model.end());
    }

    // Some keys, one behind another; a few ends are anywhere.
    std::vector<std::string> some_keys(std::string &all, std::vector<size_t> &ends, uint64_t most = 9) {
        for (uint64_t more = source.below(most); more > 0; more--) {
            all += source.key();
            ends.push_back(source.below(30) == 0 ? source.below(99) : all.size());
        }
        std::vector<std::string> keys;
        size_t start = 0;
        for (size_t end : ends) {
            size_t from = std::min(start, all.size());
            keys.push_back(all.substr(from, std::max(std::min(end, all.size()), from) - from));
            start = end;
        }
        return keys;
    }

    void get_many() {
        std::string all;
        std::vector<size_t> ends;
        std::vector<std::string> keys = some_keys(all, ends);
        std::vector<uint64_t> values(source.below(9), NO_VALUE);
        std::vector<uint8_t> are_found(source.below(9), NO_BYTE);
        size_t count = NO_LEN;
        CHECK(art_bytes_get_many(&map, bytes(all), all.size(), ends.data(), ends.size(), are_found.data(), are_found.size(), values.data(),
                                 values.size(), &count) == ART_NONE);
        CHECK(count == std::min({keys.size(), are_found.size(), values.size()}));
        for (size_t i = 0; i < are_found.size(); i++) CHECK(are_found[i] == (i < count ? model.count(keys[i]) : NO_BYTE));
        for (size_t i = 0; i < values.size(); i++) CHECK(values[i] == (i < count && model.count(keys[i]) ? model.at(keys[i]) : NO_VALUE));
    }

    void insert_many() {
        std::string all;
        std::vector<size_t> ends;
        std::vector<std::string> keys = some_keys(all, ends);
        std::vector<uint64_t> values(source.below(9));
        for (uint64_t &it : values) it = source.number();
        size_t done = NO_LEN, wanted = std::min(keys.size(), values.size());
        CHECK(art_bytes_insert_many(&map, bytes(all), all.size(), ends.data(), ends.size(), values.data(), values.size(), &done) == ART_NONE);
        CHECK(done == wanted);
        for (size_t i = 0; i < wanted; i++) model[keys[i]] = values[i];
    }

    // Some keys as they come, or in order, into a map without entries, and in vain into one with some.
    void load() {
        std::string all;
        std::vector<size_t> ends;
        std::vector<std::string> keys = some_keys(all, ends, 40);
        if (source.below(4) > 0) {
            std::sort(keys.begin(), keys.end());
            if (source.below(8) > 0) keys.erase(std::unique(keys.begin(), keys.end()), keys.end());
            all.clear();
            ends.clear();
            for (const std::string &key : keys) ends.push_back((all += key).size());
        }
        std::vector<uint64_t> values(source.below(40));
        for (uint64_t &it : values) it = source.number();
        size_t wanted = std::min(keys.size(), values.size());
        auto call = [&] {
            return art_bytes_load(&map, bytes(all), all.size(), ends.data(), ends.size(), values.data(), values.size());
        };
        art_bytes_map before = {};
        Model entries;
        bool clears = model.empty() || source.below(500) == 0;
        if (!model.empty()) CHECK(call() == ART_NOT_EMPTY);
        if (clears) {
            art_bytes_clear(&map);
        } else {
            std::swap(map, before);
            CHECK(art_bytes_new(&map) == ART_NONE);
        }
        std::swap(model, entries);
        bool ascends = true;
        for (size_t i = 1; i < wanted; i++) ascends = ascends && keys[i - 1] < keys[i];
        CHECK(call() == (ascends ? ART_NONE : ART_NOT_ASCENDING));
        for (size_t i = 0; i < wanted && ascends; i++) model[keys[i]] = values[i];
        CHECK(art_bytes_len(&map) == model.size());
        if (clears) return;
        walk();
        art_bytes_free(&map);
        std::swap(map, before);
        std::swap(model, entries);
    }

  public:
    explicit BytesBeside(Source &choices) : source(choices) {
        CHECK(art_bytes_new(&map) == ART_NONE);
        CHECK(art_bytes_new(&map) == ART_HAS_MAP);
    }

    ~BytesBeside() {
        walk();
        art_bytes_free(&map);
        CHECK(art_bytes_len(&map) == 0 && art_bytes_pop_first(&map, nullptr, 0, &len, &value) == ART_NO_MAP);
    }

    // All entries, each from the key before it.
    void walk() {
        std::string key;
        bool inclusive = true;
        for (const auto &entry : model) {
            out.assign(entry.first.size(), NO_BYTE);
            CHECK(art_bytes_next(&map, bytes(key), key.size(), inclusive, room(), out.size(), &len, &value) == ART_SOME);
            CHECK(len == entry.first.size() && value == entry.second && std::equal(out.begin(), out.end(), bytes(entry.first)));
            key = entry.first;
            inclusive = false;
        }
        CHECK(art_bytes_next(&map, bytes(key), key.size(), inclusive, nullptr, 0, &len, &value) == ART_NONE);
        walk_back();
        walk_by_pages();
    }

    // Back again, where the key that is looked from lies in the buffer that the next one is written to.
    void walk_back() {
        size_t most = 1, at_len = 0;
        for (const auto &entry : model) most = std::max(most, entry.first.size());
        std::vector<uint8_t> at(most);
        bool more = art_bytes_last(&map, at.data(), at.size(), &at_len, &value) == ART_SOME;
        for (auto it = model.rbegin(); it != model.rend(); ++it) {
            CHECK(more && at_len == it->first.size() && value == it->second && std::equal(at.begin(), at.begin() + at_len, bytes(it->first)));
            more = art_bytes_previous(&map, at.data(), at_len, false, at.data(), at.size(), &at_len, &value) == ART_SOME;
        }
        CHECK(!more);
    }

    void call() {
        std::string key = source.key();
        bool choice = source.below(2) == 1;
        uint64_t put = source.number();
        out.assign(source.below(64), NO_BYTE);
        len = NO_LEN;
        value = NO_VALUE;
        Entry at = model.find(key);
        switch (source.below(20)) {
        case 16:
            get_many();
            break;
        case 17:
            insert_many();
            break;
        case 18:
            load();
            break;
        case 19:
            page(source.below(2) == 0 ? "" : key.substr(0, source.below(3)), source.below(2) == 0 ? key : source.key(), choice);
            break;
        case 0: case 1: case 2: case 3: case 4:
            found_value(at, art_bytes_insert(&map, bytes(key), key.size(), put, &value));
            model[key] = put;
            break;
        case 5:
            found_value(at, art_bytes_get(&map, bytes(key), key.size(), &value));
            break;
        case 6: case 7:
            found_value(at, art_bytes_remove(&map, bytes(key), key.size(), &value));
            model.erase(key);
            break;
        case 8:
            found_entry(after(key, choice), art_bytes_next(&map, bytes(key), key.size(), choice, room(), out.size(), &len, &value));
            break;
        case 9:
            found_entry(before(key, choice), art_bytes_previous(&map, bytes(key), key.size(), choice, room(), out.size(), &len, &value));
            break;
        case 10: {
            std::string prefix = source.key();
            prefix.resize(std::min<size_t>(prefix.size(), source.below(4)));
            found_entry(after_with(prefix, key, choice),
                        art_bytes_next_with_prefix(&map, bytes(prefix), prefix.size(), bytes(key), key.size(), choice, room(),
                                                   out.size(), &len, &value));
            break;
        }
        case 11:
            found_entry(end_entry(choice), choice ? art_bytes_first(&map, room(), out.size(), &len, &value)
                                                  : art_bytes_last(&map, room(), out.size(), &len, &value));
            break;
        case 12: {
            Entry end = end_entry(choice);
            uint32_t status = choice ? art_bytes_pop_first(&map, room(), out.size(), &len, &value)
                                     : art_bytes_pop_last(&map, room(), out.size(), &len, &value);
            found_entry(end, status);
            if (status == ART_SOME) model.erase(end);
            break;
        }
        case 13: {
            std::string prefix = key.substr(0, source.below(4));
            size_t count = 0;
            for (Entry it = model.lower_bound(prefix); it != model.end() && begins(it->first, prefix); ++it) count++;
            CHECK(art_bytes_count_prefix(&map, bytes(prefix), prefix.size()) == count);
            break;
        }
        case 14:
            many(key.substr(0, source.below(3)), source.below(2) == 0 ? key : source.key(), choice, source.below(2) == 0);
            if (source.below(64) == 0) walk();
            break;
        default:
            if (source.below(4096) == 0) {
                art_bytes_clear(&map);
                model.clear();
            }
        }
        CHECK(art_bytes_len(&map) == model.size());
    }
};

template <class Source> class NumbersBeside {
    using Model = std::map<uint64_t, uint64_t>;
    using Entry = Model::const_iterator;

    Source &source;
    art_u64_map map = {};
    Model model;
    uint64_t found = NO_VALUE;
    uint64_t value = NO_VALUE;

    void found_value(Entry at, uint32_t status) {
        if (at == model.end()) {
            CHECK(status == ART_NONE && value == NO_VALUE);
        } else {
            CHECK(status == ART_SOME && value == at->second);
        }
    }

    void found_entry(Entry at, uint32_t status) {
        if (at == model.end()) {
            CHECK(status == ART_NONE && found == NO_VALUE && value == NO_VALUE);
        } else {
            CHECK(status == ART_SOME && found == at->first && value == at->second);
        }
    }

    Entry after(uint64_t key, bool inclusive) const { return inclusive ? model.lower_bound(key) : model.upper_bound(key); }

    Entry before(uint64_t key, bool inclusive) const {
        Entry end = inclusive ? model.upper_bound(key) : model.lower_bound(key);
        return end == model.begin() ? model.end() : std::prev(end);
    }

    Entry end_entry(bool first) const { return model.empty() ? model.end() : first ? model.begin() : std::prev(model.end()); }

    // A batch, of which the shorter array says how long it may be; up, or down.
    void many(uint64_t key, bool inclusive, bool up) {
        std::vector<uint64_t> keys(source.below(20), NO_VALUE), values(source.below(20), NO_VALUE);
        uint64_t *to_keys = keys.empty() ? nullptr : keys.data(), *to_values = values.empty() ? nullptr : values.data();
        size_t count = up ? art_u64_next_many(&map, key, inclusive, to_keys, keys.size(), to_values, values.size())
                          : art_u64_previous_many(&map, key, inclusive, to_keys, keys.size(), to_values, values.size());
        size_t most = std::min(keys.size(), values.size()), written = 0;
        Entry it = up ? after(key, inclusive) : before(key, inclusive);
        while (it != model.end() && written < most) {
            CHECK(keys[written] == it->first && values[written] == it->second);
            written++;
            if (up) ++it;
            else it = it == model.begin() ? model.end() : std::prev(it);
        }
        CHECK(count == written);
        auto untouched = [](uint64_t number) { return number == NO_VALUE; };
        CHECK(std::all_of(keys.begin() + written, keys.end(), untouched));
        CHECK(std::all_of(values.begin() + written, values.end(), untouched));
    }

    // The next entries, as they lie in the map.
    void page(uint64_t key, bool inclusive) {
        const art_u64_entry *entries = nullptr;
        size_t count = art_u64_page(&map, key, inclusive, &entries);
        Entry at = after(key, inclusive);
        CHECK((count == 0) == (at == model.end()));
        for (size_t i = 0; i < count; i++, ++at) CHECK(at != model.end() && entries[i].key == at->first && entries[i].value == at->second);
    }

    // All entries, one page after another.
    void walk_by_pages() {
        const art_u64_entry *entries = nullptr;
        Entry at = model.begin();
        bool inclusive = true;
        uint64_t from = 0;
        while (size_t count = art_u64_page(&map, from, inclusive, &entries)) {
            for (size_t i = 0; i < count; i++, ++at) CHECK(at != model.end() && entries[i].key == at->first && entries[i].value == at->second);
            from = entries[count - 1].key;
            inclusive = false;
        }
        CHECK(at == model.end());
    }

    // Some keys, of which about half are there.
    std::vector<uint64_t> some_keys() {
        std::vector<uint64_t> keys(source.below(9));
        for (uint64_t &key : keys) {
            key = source.number();
            if (source.below(2) == 0 && model.lower_bound(key) != model.end()) key = model.lower_bound(key)->first;
        }
        return keys;
    }

    void get_many() {
        std::vector<uint64_t> keys = some_keys(), values(source.below(9), NO_VALUE);
        std::vector<uint8_t> are_found(source.below(9), NO_BYTE);
        size_t count = art_u64_get_many(&map, keys.data(), keys.size(), are_found.data(), are_found.size(), values.data(), values.size());
        CHECK(count == std::min({keys.size(), are_found.size(), values.size()}));
        for (size_t i = 0; i < are_found.size(); i++) CHECK(are_found[i] == (i < count ? model.count(keys[i]) : NO_BYTE));
        for (size_t i = 0; i < values.size(); i++) CHECK(values[i] == (i < count && model.count(keys[i]) ? model.at(keys[i]) : NO_VALUE));
    }

    void insert_many() {
        std::vector<uint64_t> keys = some_keys(), values(source.below(9));
        for (uint64_t &it : values) it = source.number();
        size_t done = NO_LEN, wanted = std::min(keys.size(), values.size());
        CHECK(art_u64_insert_many(&map, keys.data(), keys.size(), values.data(), values.size(), &done) == ART_NONE && done == wanted);
        for (size_t i = 0; i < wanted; i++) model[keys[i]] = values[i];
    }

    // Some keys as they come, or in order, into a map without entries, and in vain into one with some.
    void load() {
        std::vector<uint64_t> keys(source.below(80)), values(source.below(80));
        for (uint64_t &it : keys) it = source.number();
        for (uint64_t &it : values) it = source.number();
        if (source.below(4) > 0) {
            std::sort(keys.begin(), keys.end());
            if (source.below(8) > 0) keys.erase(std::unique(keys.begin(), keys.end()), keys.end());
        }
        size_t wanted = std::min(keys.size(), values.size());
        auto call = [&] { return art_u64_load(&map, keys.data(), keys.size(), values.data(), values.size()); };
        art_u64_map before = {};
        Model entries;
        bool clears = model.empty() || source.below(500) == 0;
        if (!model.empty()) CHECK(call() == ART_NOT_EMPTY);
        if (clears) {
            art_u64_clear(&map);
        } else {
            std::swap(map, before);
            CHECK(art_u64_new(&map) == ART_NONE);
        }
        std::swap(model, entries);
        bool ascends = true;
        for (size_t i = 1; i < wanted; i++) ascends = ascends && keys[i - 1] < keys[i];
        CHECK(call() == (ascends ? ART_NONE : ART_NOT_ASCENDING));
        for (size_t i = 0; i < wanted && ascends; i++) model[keys[i]] = values[i];
        CHECK(art_u64_len(&map) == model.size());
        if (clears) return;
        walk();
        art_u64_free(&map);
        std::swap(map, before);
        std::swap(model, entries);
    }

  public:
    explicit NumbersBeside(Source &choices) : source(choices) {
        CHECK(art_u64_new(&map) == ART_NONE);
        CHECK(art_u64_new(&map) == ART_HAS_MAP);
    }

    ~NumbersBeside() {
        walk();
        art_u64_free(&map);
        CHECK(art_u64_len(&map) == 0 && art_u64_pop_first(&map, &found, &value) == ART_NO_MAP);
    }

    // All entries, by batches.
    void walk() {
        uint64_t keys[7], values[7], from = 0;
        bool inclusive = true;
        Entry it = model.begin();
        while (size_t count = art_u64_next_many(&map, from, inclusive, keys, 7, values, 7)) {
            for (size_t i = 0; i < count; i++, ++it) CHECK(it != model.end() && keys[i] == it->first && values[i] == it->second);
            from = keys[count - 1];
            inclusive = false;
        }
        CHECK(it == model.end());
        walk_by_pages();
    }

    void call() {
        uint64_t key = source.number(), put = source.number();
        bool choice = source.below(2) == 1;
        found = value = NO_VALUE;
        // Half of the keys are there.
        if (source.below(2) == 0 && model.lower_bound(key) != model.end()) key = model.lower_bound(key)->first;
        Entry at = model.find(key);
        switch (source.below(20)) {
        case 16:
            get_many();
            break;
        case 17:
            insert_many();
            break;
        case 18:
            load();
            break;
        case 19:
            page(key, choice);
            break;
        case 0: case 1: case 2: case 3: case 4: case 5:
            found_value(at, art_u64_insert(&map, key, put, &value));
            model[key] = put;
            break;
        case 6:
            found_value(at, art_u64_get(&map, key, &value));
            break;
        case 7: case 8:
            found_value(at, art_u64_remove(&map, key, &value));
            model.erase(key);
            break;
        case 9:
            found_entry(after(key, choice), art_u64_next(&map, key, choice, &found, &value));
            break;
        case 10:
            found_entry(before(key, choice), art_u64_previous(&map, key, choice, &found, &value));
            break;
        case 11:
            found_entry(end_entry(choice), choice ? art_u64_first(&map, &found, &value) : art_u64_last(&map, &found, &value));
            break;
        case 12: {
            Entry end = end_entry(choice);
            found_entry(end, choice ? art_u64_pop_first(&map, &found, &value) : art_u64_pop_last(&map, &found, &value));
            if (end != model.end()) model.erase(end);
            break;
        }
        case 13:
            many(key, choice, true);
            break;
        case 14:
            if (source.below(64) == 0) walk();
            many(key, choice, false);
            break;
        default:
            if (source.below(4096) == 0) {
                art_u64_clear(&map);
                model.clear();
            }
        }
        CHECK(art_u64_len(&map) == model.size());
    }
};

#endif
