// Calls of a route table beside a scan of all routes: what each returns and writes, and that it writes nothing else.
#ifndef BESIDE_ROUTES_H
#define BESIDE_ROUTES_H
#include "beside_map.h"
#include <array>
#include <tuple>

const uint8_t NO_LENGTH = 0xDD;

// Some bytes and a length, which may be no network.
struct Network {
    std::vector<uint8_t> address;
    uint8_t length;

    bool bit(size_t at) const { return address[at / 8] >> (7 - at % 8) & 1; }

    bool is_address() const { return address.size() == 4 || address.size() == 16; }

    bool is_network() const {
        if (!is_address() || length > 8 * address.size()) return false;
        for (size_t at = length; at < 8 * address.size(); at++)
            if (bit(at)) return false;
        return true;
    }

    bool covers(const Network &other) const {
        if (address.size() != other.address.size() || length > other.length) return false;
        for (size_t at = 0; at < length; at++)
            if (bit(at) != other.bit(at)) return false;
        return true;
    }

    bool operator<(const Network &other) const {
        return std::make_tuple(address.size(), address, length) < std::make_tuple(other.address.size(), other.address, other.length);
    }
};

template <class Source> class RoutesBeside {
    using Model = std::map<Network, uint64_t>;
    using Route = Model::const_iterator;

    Source &source;
    art_routes_map map = {};
    Model model;
    uint8_t length = NO_LENGTH;
    uint64_t value = NO_VALUE;

    // An address of few bytes that often are the same.
    std::vector<uint8_t> some_address(size_t width) {
        static const uint8_t bytes[] = {0, 1, 10, 128, 192, 255};
        std::vector<uint8_t> address(width, bytes[source.below(2) * 5]);
        for (uint64_t left = source.below(6); left > 0; left--)
            if (width > 0) address[source.below(width)] = bytes[source.below(6)];
        return address;
    }

    size_t some_width() {
        static const size_t bad[] = {0, 1, 3, 5, 15, 17};
        return source.below(30) == 0 ? bad[source.below(6)] : source.below(2) ? 4 : 16;
    }

    // A network, as a rule: without the bits behind its length; often one that is there.
    Network some_network() {
        if (!model.empty() && source.below(4) == 0) {
            Route at = model.begin();
            std::advance(at, source.below(std::min<size_t>(model.size(), 200)));
            return at->first;
        }
        size_t width = some_width();
        Network network{some_address(width), (uint8_t)source.below(source.below(20) == 0 ? 256 : 8 * width + 1)};
        if (source.below(30) == 0) return network;
        for (size_t at = network.length; at < 8 * width; at++) network.address[at / 8] &= ~(0x80 >> at % 8);
        return network;
    }

    // Where the value of a network is written.
    void found_value(const Network &network, uint32_t status) {
        Route at = model.find(network);
        if (!network.is_network()) {
            CHECK(status == ART_BAD_NETWORK && value == NO_VALUE);
        } else if (at == model.end()) {
            CHECK(status == ART_NONE && value == NO_VALUE);
        } else {
            CHECK(status == ART_SOME && value == at->second);
        }
    }

    // The routes that cover a network, the longest first.
    std::vector<Route> around(const Network &network) const {
        std::vector<Route> found;
        for (Route at = model.begin(); at != model.end(); ++at)
            if (at->first.covers(network)) found.push_back(at);
        std::sort(found.begin(), found.end(), [](Route one, Route other) { return one->first.length > other->first.length; });
        return found;
    }

    void longest_match() {
        size_t width = some_width();
        Network address{some_address(width), (uint8_t)(8 * width)};
        uint32_t status = art_routes_longest_match(&map, address.address.data(), width, &length, &value);
        std::vector<Route> routes = address.is_address() ? around(address) : std::vector<Route>();
        if (routes.empty()) {
            CHECK(status == (address.is_address() ? ART_NONE : ART_BAD_NETWORK) && length == NO_LENGTH && value == NO_VALUE);
        } else {
            CHECK(status == ART_SOME && length == routes[0]->first.length && value == routes[0]->second);
        }
    }

    void longest_match_many() {
        size_t width = some_width(), count = NO_LEN;
        std::vector<uint8_t> addresses;
        std::vector<Network> each;
        for (uint64_t left = source.below(8); left > 0; left--) {
            each.push_back({some_address(width), (uint8_t)(8 * width)});
            addresses.insert(addresses.end(), each.back().address.begin(), each.back().address.end());
        }
        size_t over = source.below(4);
        addresses.insert(addresses.end(), over, 7);
        std::vector<uint8_t> lengths(source.below(9), NO_LENGTH);
        std::vector<uint64_t> values(source.below(9), NO_VALUE);
        uint32_t status = art_routes_longest_match_many(&map, addresses.data(), addresses.size(), width, lengths.data(), lengths.size(),
                                                        values.data(), values.size(), &count);
        size_t wanted = 0;
        if (width == 4 || width == 16) {
            wanted = std::min({addresses.size() / width, lengths.size(), values.size()});
            CHECK(status == ART_NONE && count == wanted);
        } else {
            CHECK(status == ART_BAD_NETWORK && count == NO_LEN);
        }
        for (size_t i = 0; i < wanted; i++) {
            std::vector<Route> routes = i < each.size() ? around(each[i]) : std::vector<Route>();
            CHECK(lengths[i] == (routes.empty() ? ART_NO_ROUTE : routes[0]->first.length));
            CHECK(values[i] == (routes.empty() ? NO_VALUE : routes[0]->second));
        }
        CHECK(std::all_of(lengths.begin() + std::min(wanted, lengths.size()), lengths.end(), [](uint8_t it) { return it == NO_LENGTH; }));
        CHECK(std::all_of(values.begin() + std::min(wanted, values.size()), values.end(), [](uint64_t it) { return it == NO_VALUE; }));
    }

    // The first route from a network on, or the last one up to it.
    void next(bool backwards) {
        Network from = some_network();
        bool inclusive = source.below(2) == 1;
        std::vector<uint8_t> out(source.below(3) == 0 ? source.below(20) : 16, NO_BYTE);
        size_t width = NO_LEN, written = 0;
        uint32_t status = (backwards ? art_routes_previous : art_routes_next)(&map, from.address.data(), from.address.size(), from.length,
                                                                              inclusive, out.data(), out.size(), &width, &length, &value);
        Route at = from.is_network() ? inclusive != backwards ? model.lower_bound(from) : model.upper_bound(from) : model.end();
        if (backwards) at = !from.is_network() || at == model.begin() ? model.end() : std::prev(at);
        if (at == model.end()) {
            CHECK(status == (from.is_network() ? ART_NONE : ART_BAD_NETWORK) && width == NO_LEN);
        } else if (at->first.address.size() > out.size()) {
            CHECK(status == ART_SMALL_BUFFER && width == at->first.address.size());
        } else {
            written = at->first.address.size();
            CHECK(status == ART_SOME && width == written);
            CHECK(std::equal(at->first.address.begin(), at->first.address.end(), out.begin()));
            CHECK(length == at->first.length && value == at->second);
        }
        if (written == 0) CHECK(length == NO_LENGTH && value == NO_VALUE);
        CHECK(std::all_of(out.begin() + written, out.end(), [](uint8_t byte) { return byte == NO_BYTE; }));
    }

    void get_or_insert() {
        Network network = some_network();
        uint64_t put = source.number();
        found_value(network, art_routes_get_or_insert(&map, network.address.data(), network.address.size(), network.length, put, &value));
        if (network.is_network()) model.insert({network, put});
    }

    bool overlaps_none(const Network &part) const {
        return std::none_of(model.begin(), model.end(), [&](const auto &route) { return route.first.covers(part) || part.covers(route.first); });
    }

    // The network of the same length behind this one, where this is not the last one.
    static bool advance(Network &network) {
        for (size_t at = network.length; at > 0; at--) {
            network.address[(at - 1) / 8] ^= 0x80 >> (at - 1) % 8;
            if (network.bit(at - 1)) return true;
        }
        return false;
    }

    // Of a network that has few parts of a length, of which each is looked at.
    void available_many() {
        Network network = some_network(), after = network;
        uint8_t part_length = (uint8_t)(network.length + source.below(10) - 1);
        bool begins = source.below(3) == 0, is_bad = !network.is_network();
        size_t width = network.address.size(), count = NO_LEN, after_width = begins ? 0 : width;
        after.length = part_length;
        if (source.below(8) == 0) after.address = some_address(width);
        for (size_t at = network.length; at < std::min<size_t>(part_length, 8 * width); at++)
            if (source.below(2)) after.address[at / 8] ^= 0x80 >> at % 8;
        if (!begins) is_bad = is_bad || !after.is_network() || !network.covers(after);
        std::vector<uint8_t> out(source.below(200), NO_BYTE);
        uint32_t status = art_routes_available_many(&map, network.address.data(), width, network.length, part_length, after.address.data(),
                                                    after_width, out.data(), out.size(), &count);
        CHECK(status == (is_bad ? ART_BAD_NETWORK : ART_NONE));
        std::vector<uint8_t> wanted;
        size_t found = 0;
        if (!is_bad && network.length <= part_length && part_length <= 8 * width) {
            Network part = network;
            part.length = part_length;
            for (bool more = true; more && network.covers(part); more = advance(part)) {
                if (!overlaps_none(part) || (!begins && !(after < part)) || (found + 1) * width > out.size()) continue;
                wanted.insert(wanted.end(), part.address.begin(), part.address.end());
                found++;
            }
        }
        CHECK(count == (is_bad ? NO_LEN : found));
        CHECK(std::equal(wanted.begin(), wanted.end(), out.begin()));
        CHECK(std::all_of(out.begin() + wanted.size(), out.end(), [](uint8_t byte) { return byte == NO_BYTE; }));
    }

    // Another table, which differs in a few routes: the first difference from a network on.
    void next_difference() {
        art_routes_map other = {};
        Model changed = model;
        for (uint64_t left = source.below(6); left > 0; left--) {
            Network network = some_network();
            if (!network.is_network()) continue;
            if (source.below(2)) changed.erase(network);
            else changed[network] = source.number();
        }
        uint64_t ignored = 0, before = NO_VALUE, after = NO_VALUE;
        CHECK(art_routes_new(&other) == ART_NONE);
        for (const auto &route : changed)
            CHECK(art_routes_insert(&other, route.first.address.data(), route.first.address.size(), route.first.length, route.second, &ignored) == ART_NONE);
        Network from = some_network();
        bool inclusive = source.below(2) == 1;
        for (bool is_last = false; !is_last; inclusive = false) {
            std::vector<uint8_t> out(source.below(6) == 0 ? source.below(20) : 16, NO_BYTE);
            uint8_t change = NO_LENGTH;
            size_t width = NO_LEN;
            length = NO_LENGTH;
            before = after = NO_VALUE;
            uint32_t status = art_routes_next_difference(&map, &other, from.address.data(), from.address.size(), from.length, inclusive, out.data(),
                                                         out.size(), &width, &length, &change, &before, &after);
            // Both are gone along side by side.
            auto one = inclusive ? model.lower_bound(from) : model.upper_bound(from), two = inclusive ? changed.lower_bound(from) : changed.upper_bound(from);
            while (from.is_network() && one != model.end() && two != changed.end() && !(one->first < two->first) && !(two->first < one->first) && one->second == two->second)
                ++one, ++two;
            is_last = true;
            if (!from.is_network() || (one == model.end() && two == changed.end())) {
                CHECK(status == (from.is_network() ? ART_NONE : ART_BAD_NETWORK) && width == NO_LEN);
            } else {
                bool is_old = two == changed.end() || (one != model.end() && !(two->first < one->first));
                bool is_new = one == model.end() || (two != changed.end() && !(one->first < two->first));
                const Network &found = is_old ? one->first : two->first;
                CHECK(width == found.address.size() && status == (width <= out.size() ? ART_SOME : ART_SMALL_BUFFER));
                if (status == ART_SOME) {
                    CHECK(length == found.length && std::equal(found.address.begin(), found.address.end(), out.begin()));
                    CHECK(change == (is_old ? is_new ? ART_REPLACE : ART_REMOVE : ART_INSERT));
                    CHECK(before == (is_old ? one->second : NO_VALUE) && after == (is_new ? two->second : NO_VALUE));
                    CHECK(std::all_of(out.begin() + width, out.end(), [](uint8_t byte) { return byte == NO_BYTE; }));
                    from = found;
                    is_last = false;
                    continue;
                }
            }
            CHECK(length == NO_LENGTH && change == NO_LENGTH && before == NO_VALUE && after == NO_VALUE);
            CHECK(std::all_of(out.begin(), out.end(), [](uint8_t byte) { return byte == NO_BYTE; }));
        }
        art_routes_free(&other);
    }

    void covering() {
        Network network = some_network();
        std::vector<uint8_t> lengths(source.below(10), NO_LENGTH);
        std::vector<uint64_t> values(source.below(10), NO_VALUE);
        size_t count = NO_LEN, wanted = 0;
        uint32_t status = art_routes_covering(&map, network.address.data(), network.address.size(), network.length, lengths.data(),
                                              lengths.size(), values.data(), values.size(), &count);
        if (network.is_network()) {
            std::vector<Route> routes = around(network);
            wanted = std::min({routes.size(), lengths.size(), values.size()});
            CHECK(status == ART_NONE && count == wanted);
            for (size_t i = 0; i < wanted; i++) CHECK(lengths[i] == routes[i]->first.length && values[i] == routes[i]->second);
        } else {
            CHECK(status == ART_BAD_NETWORK && count == NO_LEN);
        }
        CHECK(std::all_of(lengths.begin() + wanted, lengths.end(), [](uint8_t it) { return it == NO_LENGTH; }));
        CHECK(std::all_of(values.begin() + wanted, values.end(), [](uint64_t it) { return it == NO_VALUE; }));
    }

    void parent() {
        Network network = some_network();
        uint32_t status = art_routes_parent(&map, network.address.data(), network.address.size(), network.length, &length, &value);
        std::vector<Route> routes = network.is_network() ? around(network) : std::vector<Route>();
        if (!routes.empty() && routes[0]->first.length == network.length) routes.erase(routes.begin());
        if (routes.empty()) {
            CHECK(status == (network.is_network() ? ART_NONE : ART_BAD_NETWORK) && length == NO_LENGTH && value == NO_VALUE);
        } else {
            CHECK(status == ART_SOME && length == routes[0]->first.length && value == routes[0]->second);
        }
    }

    void remove_covered() {
        Network network = some_network();
        size_t count = NO_LEN, before = model.size();
        uint32_t status = art_routes_remove_covered(&map, network.address.data(), network.address.size(), network.length, &count);
        if (!network.is_network()) {
            CHECK(status == ART_BAD_NETWORK && count == NO_LEN);
            return;
        }
        for (Route at = model.begin(); at != model.end();) at = network.covers(at->first) ? model.erase(at) : std::next(at);
        CHECK(status == ART_NONE && count == before - model.size());
    }

    // Another table, of few values: no route is left that is not needed, and each address has its value.
    void aggregate() {
        art_routes_map other = {};
        Model small, fewer;
        CHECK(art_routes_new(&other) == ART_NONE);
        for (const auto &route : model) {
            small[route.first] = route.second % 3;
            CHECK(art_routes_insert(&other, route.first.address.data(), route.first.address.size(), route.first.length, route.second % 3, &value) == ART_NONE);
        }
        CHECK(art_routes_aggregate(&other) == ART_NONE && art_routes_len(&other) <= model.size());
        uint8_t address[16] = {}, at = 0;
        size_t width = 4;
        for (bool first = true; art_routes_next(&other, address, width, at, first, address, 16, &width, &at, &value) == ART_SOME; first = false)
            fewer[{std::vector<uint8_t>(address, address + width), at}] = value;
        for (const auto &route : fewer) {
            auto outer = longest_in(fewer, route.first, route.first.length);
            CHECK(outer == fewer.end() || outer->second != route.second);
            if (route.first.length == 0) continue;
            Network half = route.first;
            half.address[(half.length - 1) / 8] ^= 0x80 >> (half.length - 1) % 8;
            auto beside = fewer.find(half);
            CHECK(beside == fewer.end() || beside->second != route.second);
        }
        for (int i = 0; i < 100; i++) {
            width = source.below(2) ? 4 : 16;
            Network one{some_address(width), (uint8_t)(8 * width)};
            auto wanted = longest_in(small, one, 8 * width + 1), found = longest_in(fewer, one, 8 * width + 1);
            CHECK((wanted == small.end()) == (found == fewer.end()));
            CHECK(wanted == small.end() || wanted->second == found->second);
        }
        art_routes_free(&other);
        value = NO_VALUE;
    }

    // The longest of these routes that cover a network, of those that are shorter than this.
    static Route longest_in(const Model &routes, const Network &network, size_t below) {
        Route longest = routes.end();
        for (Route at = routes.begin(); at != routes.end(); ++at)
            if (at->first.length < below && at->first.covers(network) && (longest == routes.end() || longest->first.length < at->first.length))
                longest = at;
        return longest;
    }

  public:
    explicit RoutesBeside(Source &choices) : source(choices) {
        CHECK(art_routes_new(&map) == ART_NONE);
        CHECK(art_routes_new(&map) == ART_HAS_MAP);
    }

    ~RoutesBeside() {
        walk();
        art_routes_free(&map);
        CHECK(art_routes_len(&map) == 0 && art_routes_compact(&map) == ART_NO_MAP);
    }

    // All routes, each from the one before it, whose address lies where the next one is written; then from the last one down.
    void walk() {
        uint8_t address[16] = {};
        size_t width = 4;
        uint8_t at = 0;
        bool inclusive = true;
        for (const auto &route : model) {
            CHECK(art_routes_next(&map, address, width, at, inclusive, address, sizeof address, &width, &at, &value) == ART_SOME);
            CHECK(width == route.first.address.size() && std::equal(address, address + width, route.first.address.begin()));
            CHECK(at == route.first.length && value == route.second);
            inclusive = false;
        }
        CHECK(art_routes_next(&map, address, width, at, inclusive, address, sizeof address, &width, &at, &value) == ART_NONE);
        std::fill(address, address + 16, 0xFF);
        width = 16;
        at = 128;
        inclusive = true;
        for (auto route = model.rbegin(); route != model.rend(); ++route) {
            CHECK(art_routes_previous(&map, address, width, at, inclusive, address, sizeof address, &width, &at, &value) == ART_SOME);
            CHECK(width == route->first.address.size() && std::equal(address, address + width, route->first.address.begin()));
            CHECK(at == route->first.length && value == route->second);
            inclusive = false;
        }
        CHECK(art_routes_previous(&map, address, width, at, inclusive, address, sizeof address, &width, &at, &value) == ART_NONE);
    }

    void call() {
        length = NO_LENGTH;
        value = NO_VALUE;
        switch (source.below(21)) {
        case 0: case 1: case 2: case 3: {
            Network network = some_network();
            uint64_t put = source.number();
            found_value(network, art_routes_insert(&map, network.address.data(), network.address.size(), network.length, put, &value));
            if (network.is_network()) model[network] = put;
            break;
        }
        case 4: {
            Network network = some_network();
            found_value(network, art_routes_get(&map, network.address.data(), network.address.size(), network.length, &value));
            break;
        }
        case 5: case 6: case 7: {
            Network network = some_network();
            found_value(network, art_routes_remove(&map, network.address.data(), network.address.size(), network.length, &value));
            model.erase(network);
            break;
        }
        case 8: case 9:
            longest_match();
            break;
        case 10:
            longest_match_many();
            break;
        case 11: case 12:
            next(source.below(2) == 1);
            break;
        case 13: case 14:
            covering();
            break;
        case 15:
            parent();
            break;
        case 16:
            if (source.below(20) == 0) remove_covered();
            break;
        case 17:
            get_or_insert();
            break;
        case 18:
            available_many();
            break;
        case 19:
            if (model.size() < 300 && source.below(4) == 0) next_difference();
            break;
        default:
            switch (source.below(100)) {
            case 0:
                art_routes_clear(&map);
                model.clear();
                break;
            case 1:
                CHECK(art_routes_compact(&map) == ART_NONE);
                break;
            case 2:
                CHECK(art_routes_reserve(&map, source.below(100)) == ART_NONE);
                break;
            case 3:
                aggregate();
                break;
            default:
                break;
            }
        }
        CHECK(art_routes_len(&map) == model.size());
    }
};

#endif
