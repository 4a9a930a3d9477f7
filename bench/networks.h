// Tables of routes, and addresses to be looked up in them. All come from a fixed seed.
#pragma once
#include "peers.h"
#include <random>
#include <string>
#include <unordered_set>

using Random = std::mt19937_64;

// How many routes have each length, of the sum of all shares.
struct Share {
    unsigned length, count;
};
using Shares = std::vector<Share>;

// About as in the tables of routers.
static const Shares ROUGHLY[2] = {
    {{24, 60}, {23, 10}, {22, 12}, {21, 5}, {20, 5}, {19, 3}, {18, 2}, {17, 1}, {16, 2}},
    {{48, 46}, {32, 14}, {44, 10}, {40, 9}, {36, 6}, {47, 3}, {46, 4}, {29, 3}, {33, 2}, {34, 2}, {64, 1}},
};

// The public BGP table, rounded from the reports on the tables of AS131072 (G. Huston, https://bgp.potaroo.net/as2.0/ and
// https://bgp.potaroo.net/v6/as2.0/, 2024): routes of each length, and of a hundred of them how many lie inside others. Of
// the latter the reports say over all lengths that they are a little more than half of IPv4 and of IPv6.
struct Length {
    unsigned length, count, percent_inside;
};
static const std::vector<Length> PUBLIC[2] = {
    {{8, 16, 0},     {9, 13, 0},      {10, 38, 5},     {11, 100, 10},   {12, 290, 10},    {13, 570, 15},
     {14, 1190, 25}, {15, 2000, 30},  {16, 13500, 45}, {17, 8200, 60},  {18, 13800, 65},  {19, 25000, 65},
     {20, 44000, 60}, {21, 52000, 65}, {22, 110000, 60}, {23, 98000, 65}, {24, 590000, 68}},
    {{20, 2, 0},     {24, 6, 0},      {28, 15, 5},     {29, 60, 5},     {30, 15, 10},     {32, 260, 15},
     {33, 30, 80},   {34, 25, 80},    {36, 100, 75},   {38, 20, 75},    {40, 150, 70},    {42, 30, 75},
     {44, 180, 70},  {46, 60, 75},    {47, 40, 75},    {48, 1000, 65}},
};

static bool is_ipv6() { return width == 16; }
static unsigned bits() { return static_cast<unsigned>(8 * width); }

static void clear_from(uint8_t *address, unsigned length) {
    for (size_t at = (length + 7) / 8; at < width; at++) address[at] = 0;
    if (length % 8) address[length / 8] &= static_cast<uint8_t>(0xff00 >> length % 8);
}

static void flip(uint8_t *address, unsigned at) { address[at / 8] ^= static_cast<uint8_t>(0x80 >> at % 8); }

static void set_random_from(Random &rng, uint8_t *address, unsigned length) {
    for (unsigned at = length / 8; at < width; at++) {
        unsigned kept = at == length / 8 ? length % 8 : 0;
        address[at] = static_cast<uint8_t>((address[at] & ~(0xff >> kept)) | (rng() & (0xff >> kept)));
    }
}

// Of IPv4 from 1.0.0.0 below 224.0.0.0, of IPv6 in 2000::/3.
static void random_address(Random &rng, uint8_t *address) {
    for (size_t at = 0; at < width; at++) address[at] = static_cast<uint8_t>(rng());
    if (is_ipv6()) {
        address[0] = static_cast<uint8_t>(0x20 | (address[0] & 0x1f));
    } else {
        address[0] = static_cast<uint8_t>(1 + address[0] % 223);
    }
}

// The same, of IPv6 in the blocks that registries give out.
static void given_address(Random &rng, uint8_t *address) {
    static const uint16_t FIRST[] = {0x2001, 0x2400, 0x2600, 0x2800, 0x2a00, 0x2c00};
    static const uint16_t COUNT[] = {1, 16, 16, 16, 32, 16};
    random_address(rng, address);
    if (!is_ipv6()) return;
    size_t block = rng() % 6;
    uint16_t head = static_cast<uint16_t>(FIRST[block] + rng() % COUNT[block]);
    address[0] = static_cast<uint8_t>(head >> 8);
    address[1] = static_cast<uint8_t>(head);
}

// Routes, each once.
class Routes {
    std::unordered_set<std::string> known;

  public:
    std::vector<Route> all;

    bool add(const uint8_t *address, unsigned length) {
        Route route{};
        std::memcpy(route.address, address, width);
        route.length = static_cast<uint8_t>(length);
        clear_from(route.address, length);
        bool is_new = known.emplace(std::string(route.address, route.address + width) + static_cast<char>(length)).second;
        if (is_new) all.push_back(route);
        return is_new;
    }
};

// Half of the routes lie anywhere, half near others.
static std::vector<Route> random_routes(Random &rng, size_t count) {
    Routes routes;
    while (routes.all.size() < count) {
        uint8_t address[16] = {0};
        if (!routes.all.empty() && rng() % 2 == 0) {
            std::memcpy(address, routes.all[rng() % routes.all.size()].address, width);
            for (size_t at = 2; at < width; at++) address[at] ^= static_cast<uint8_t>(rng() & rng());
        } else {
            random_address(rng, address);
        }
        unsigned length = 0;
        uint64_t pick = rng() % 100;
        for (const Share &share : ROUGHLY[is_ipv6()]) {
            length = share.length;
            if (pick < share.count) break;
            pick -= share.count;
        }
        routes.add(address, length);
    }
    return routes.all;
}

// Adds one to an address of so many bits; false where it was the last.
static bool add_one(uint8_t *address, unsigned length) {
    for (unsigned at = length; at-- > 0;) {
        flip(address, at);
        if (bit(address, at)) return true;
    }
    return false;
}

// A table of the public one's shape: the shorter lengths first, each route inside one that is there or outside all of them, as
// its length has it, and neighbours of it with it.
static std::vector<Route> public_routes(Random &rng, size_t count) {
    const auto &lengths = PUBLIC[is_ipv6()];
    double sum = 0, share = 0;
    for (const Length &each : lengths) sum += each.count;
    Routes routes;
    BinaryTrie shorter;
    for (const Length &each : lengths) {
        share += each.count;
        size_t due = static_cast<size_t>(static_cast<double>(count) * share / sum + 0.5), parents = routes.all.size();
        while (routes.all.size() < due) {
            uint8_t address[16] = {0}, first[16] = {0};
            bool has_parent = parents && rng() % 100 < each.percent_inside;
            unsigned kept = 0;
            if (has_parent) {
                const Route &parent = routes.all[rng() % parents];
                std::memcpy(address, parent.address, width);
                std::memcpy(first, parent.address, width);
                kept = parent.length;
                set_random_from(rng, address, kept);
            } else {
                do given_address(rng, address);
                while (shorter.match(address).found);
            }
            clear_from(address, each.length);
            for (bool goes_on = true; goes_on && routes.all.size() < due; goes_on = rng() % 4 && add_one(address, each.length)) {
                uint8_t outer[16];
                std::memcpy(outer, address, width);
                clear_from(outer, kept);
                if (has_parent ? std::memcmp(outer, first, width) != 0 : shorter.match(address).found) break;
                routes.add(address, each.length);
            }
        }
        for (size_t at = parents; at < routes.all.size(); at++) shorter.insert(routes.all[at], 0);
    }
    std::shuffle(routes.all.begin(), routes.all.end(), rng);
    return routes.all;
}

static std::vector<std::string> some_targets(Random &rng, size_t count) {
    std::vector<std::string> targets;
    for (size_t i = 0; i < count; i++) {
        uint8_t address[16] = {0};
        given_address(rng, address);
        targets.emplace_back(address, address + width);
    }
    return targets;
}

static void append(std::vector<uint8_t> &addresses, const uint8_t *address) {
    addresses.insert(addresses.end(), address, address + width);
}

// ---- what an attacker announces

struct Attack {
    std::vector<Route> routes;
    std::vector<uint8_t> hits, misses;
};

// Around each of so many addresses the networks of all lengths, the default route too. Looked up are these addresses, each with
// one bit turned and all behind it random: the longest match is some other length each time.
static Attack nested_attack(Random &rng, size_t targets, size_t look_ups) {
    Attack attack;
    Routes routes;
    auto around = some_targets(rng, targets);
    for (const auto &target : around)
        for (unsigned length = 0; length <= bits(); length++) routes.add(reinterpret_cast<const uint8_t *>(target.data()), length);
    attack.routes = routes.all;
    std::shuffle(attack.routes.begin(), attack.routes.end(), rng);
    for (size_t i = 0; i < look_ups; i++) {
        uint8_t address[16] = {0};
        std::memcpy(address, around[rng() % targets].data(), width);
        unsigned at = static_cast<unsigned>(rng() % bits());
        flip(address, at);
        set_random_from(rng, address, at + 1);
        append(attack.hits, address);
    }
    return attack;
}

// Beside each of so many addresses the networks of all lengths that part from it in their last bit, but those in which another of
// the addresses lies. No route contains one of the addresses, and a look-up of it comes to a node for each of its bits.
static Attack beside_attack(Random &rng, size_t targets, size_t look_ups) {
    Attack attack;
    Routes routes;
    auto around = some_targets(rng, targets);
    BinaryTrie all;
    std::sort(around.begin(), around.end());
    auto is_target_inside = [&](const Route &route) {
        std::string first(route.address, route.address + width);
        auto at = std::lower_bound(around.begin(), around.end(), first);
        if (at == around.end()) return false;
        Route other{};
        std::memcpy(other.address, at->data(), width);
        clear_from(other.address, route.length);
        return !std::memcmp(other.address, route.address, width);
    };
    for (const auto &target : around)
        for (unsigned length = 1; length <= bits(); length++) {
            Route route{};
            std::memcpy(route.address, target.data(), width);
            route.length = static_cast<uint8_t>(length);
            flip(route.address, length - 1);
            clear_from(route.address, length);
            if (!is_target_inside(route)) routes.add(route.address, length);
        }
    attack.routes = routes.all;
    std::shuffle(attack.routes.begin(), attack.routes.end(), rng);
    for (size_t i = 0; i < look_ups; i++) append(attack.misses, reinterpret_cast<const uint8_t *>(around[rng() % targets].data()));
    return attack;
}

// ---- addresses

// Inside routes of a table.
static std::vector<uint8_t> inside(Random &rng, const std::vector<Route> &routes, size_t count) {
    std::vector<uint8_t> addresses;
    for (size_t i = 0; i < count; i++) {
        const Route &route = routes[rng() % routes.size()];
        uint8_t address[16] = {0};
        std::memcpy(address, route.address, width);
        set_random_from(rng, address, route.length);
        append(addresses, address);
    }
    return addresses;
}

// In no route of a table: anywhere, and where it is asked for half of them near a route.
static std::vector<uint8_t> outside(Random &rng, const std::vector<Route> &routes, size_t count, bool are_near) {
    BinaryTrie trie;
    for (const Route &route : routes) trie.insert(route, 0);
    std::vector<uint8_t> addresses;
    while (addresses.size() < count * width) {
        uint8_t address[16] = {0};
        random_address(rng, address);
        if (are_near && rng() % 2) {
            const Route &route = routes[rng() % routes.size()];
            unsigned other = static_cast<unsigned>(1 + rng() % 12);
            std::memcpy(address, route.address, width);
            set_random_from(rng, address, route.length > other ? route.length - other : 0);
        }
        if (!trie.match(address).found) append(addresses, address);
    }
    return addresses;
}

// As many addresses of each list, in random order.
static std::vector<uint8_t> mixed(Random &rng, const std::vector<uint8_t> &some, const std::vector<uint8_t> &others, size_t count) {
    std::vector<uint8_t> addresses;
    for (size_t i = 0; i < count; i++) {
        const auto &from = rng() % 2 ? some : others;
        append(addresses, &from[rng() % (from.size() / width) * width]);
    }
    return addresses;
}
