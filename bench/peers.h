// Two route tables of textbooks, beside which the library's is timed.
#pragma once
#include <algorithm>
#include <cstddef>
#include <cstdint>
#include <cstdlib>
#include <cstring>
#include <unordered_map>
#include <vector>

struct Route {
    uint8_t address[16];
    uint8_t length;
};

// What a look-up finds: the length of the route and its value.
struct Match {
    bool found;
    uint8_t length;
    uint64_t value;
};

static size_t width; // of all addresses, in bytes

static bool bit(const uint8_t *address, unsigned at) { return address[at / 8] >> (7 - at % 8) & 1; }

// ---- a binary trie: a node for each first bits of a network, of 20 bytes, in one piece of memory

class BinaryTrie {
    // The value stands in two halves, so that no bytes are lost between the fields.
    struct Node {
        uint32_t child[2] = {0, 0};
        uint32_t low = 0, high = 0;
        uint32_t is_route = 0;
    };
    static_assert(sizeof(Node) == 20);

    std::vector<Node> nodes = std::vector<Node>(1); // the root is the first: no node has it as a child
    std::vector<uint32_t> unused;

    uint32_t fresh() {
        if (unused.empty()) {
            nodes.emplace_back();
            return static_cast<uint32_t>(nodes.size() - 1);
        }
        uint32_t node = unused.back();
        unused.pop_back();
        nodes[node] = Node();
        return node;
    }

  public:
    // Whether there was no such route.
    bool insert(const Route &route, uint64_t value) {
        uint32_t at = 0;
        for (unsigned depth = 0; depth < route.length; depth++) {
            unsigned side = bit(route.address, depth);
            uint32_t child = nodes[at].child[side];
            if (!child) {
                child = fresh();
                nodes[at].child[side] = child;
            }
            at = child;
        }
        Node &node = nodes[at];
        bool is_new = !node.is_route;
        node.is_route = 1;
        node.low = static_cast<uint32_t>(value);
        node.high = static_cast<uint32_t>(value >> 32);
        return is_new;
    }

    Match match(const uint8_t *address) const {
        Match match{false, 0, 0};
        uint32_t at = 0;
        for (unsigned depth = 0;; depth++) {
            const Node &node = nodes[at];
            if (node.is_route) match = {true, static_cast<uint8_t>(depth), node.low | static_cast<uint64_t>(node.high) << 32};
            if (depth == 8 * width || !(at = node.child[bit(address, depth)])) return match;
        }
    }

    // The value of the route that was there, and one; 0 where there was none.
    uint64_t remove(const Route &route) {
        uint32_t way[129] = {0};
        for (unsigned depth = 0; depth < route.length; depth++)
            if (!(way[depth + 1] = nodes[way[depth]].child[bit(route.address, depth)])) return 0;
        Node &node = nodes[way[route.length]];
        if (!node.is_route) return 0;
        uint64_t value = node.low | static_cast<uint64_t>(node.high) << 32;
        node.is_route = 0;
        for (unsigned depth = route.length; depth > 0; depth--) {
            const Node &last = nodes[way[depth]];
            if (last.is_route || last.child[0] || last.child[1]) break;
            unused.push_back(way[depth]);
            nodes[way[depth - 1]].child[bit(route.address, depth - 1)] = 0;
        }
        return value + 1;
    }
};

// ---- a multibit trie: sixteen bits at the root, and eight at each level below; a route stands in each entry that it covers of
// its level, where no longer one of that level does. Beside it a hash table of the routes, for updates.

class MultibitTrie {
    struct Entry {
        uint32_t child = 0; // the number of a node below, and one
        uint32_t route = 0; // the number of a route, and one
    };
    struct Held {
        uint64_t value;
        uint8_t length;
    };
    struct Key {
        uint64_t high, low;
        uint8_t length;
        bool operator==(const Key &other) const { return high == other.high && low == other.low && length == other.length; }
    };
    struct Hash {
        size_t operator()(const Key &key) const {
            uint64_t sum = (key.high ^ key.length) * 0x9e3779b97f4a7c15u;
            return (sum ^ sum >> 29 ^ key.low) * 0xbf58476d1ce4e5b9u >> 16;
        }
    };
    struct Node {
        Entry entries[256];
        uint32_t used = 0; // how many entries have a child or a route
    };

    std::vector<Entry> root = std::vector<Entry>(1 << 16);
    std::vector<Node> nodes;
    std::vector<uint32_t> unused_nodes;
    std::vector<Held> held;
    std::vector<uint32_t> unused_routes;
    std::unordered_map<Key, uint32_t, Hash> numbers;

    static Key key_of(const uint8_t *address, unsigned length) {
        uint8_t bytes[16] = {0};
        std::memcpy(bytes, address, (length + 7) / 8);
        if (length % 8) bytes[length / 8] &= static_cast<uint8_t>(0xff00 >> length % 8);
        Key key{0, 0, static_cast<uint8_t>(length)};
        for (unsigned at = 0; at < 8; at++) {
            key.high = key.high << 8 | bytes[at];
            key.low = key.low << 8 | bytes[8 + at];
        }
        return key;
    }

    // How many bits lead to the level whose entries hold a route of this length.
    static unsigned bits_above(unsigned length) { return length <= 16 ? 0 : (length - 1) / 8 * 8; }

    uint32_t fresh_node() {
        if (unused_nodes.empty()) {
            nodes.emplace_back();
            return static_cast<uint32_t>(nodes.size());
        }
        uint32_t node = unused_nodes.back();
        unused_nodes.pop_back();
        nodes[node - 1] = Node();
        return node;
    }

    static size_t root_index(const uint8_t *address) { return static_cast<size_t>(address[0]) << 8 | address[1]; }

    // The first of the entries that a route covers in its level, and how many.
    Entry *covered(const Route &route, uint32_t node, size_t &count) {
        if (!node) {
            count = size_t(1) << (16 - route.length);
            return &root[root_index(route.address) & ~(count - 1)];
        }
        unsigned above = bits_above(route.length);
        count = size_t(1) << (above + 8 - route.length);
        return &nodes[node - 1].entries[route.address[above / 8] & ~(count - 1)];
    }

    static void set_route(Entry &entry, uint32_t route, Node *node) {
        if (node && !entry.child && !entry.route != !route) node->used += route ? 1 : -1;
        entry.route = route;
    }

  public:
    bool insert(const Route &route, uint64_t value) {
        auto [at, is_new] = numbers.try_emplace(key_of(route.address, route.length), 0);
        if (!is_new) {
            held[at->second].value = value;
            return false;
        }
        uint32_t number = static_cast<uint32_t>(held.size());
        if (unused_routes.empty()) {
            held.push_back({value, route.length});
        } else {
            number = unused_routes.back();
            unused_routes.pop_back();
            held[number] = {value, route.length};
        }
        at->second = number;
        uint32_t node = 0;
        for (unsigned above = bits_above(route.length), depth = 16; depth <= above && above; depth += 8) {
            Entry &entry = node ? nodes[node - 1].entries[route.address[depth / 8 - 1]] : root[root_index(route.address)];
            uint32_t child = entry.child;
            if (!child) {
                if (node && !entry.route) nodes[node - 1].used++;
                child = fresh_node(); // may move the nodes
                (node ? nodes[node - 1].entries[route.address[depth / 8 - 1]] : root[root_index(route.address)]).child = child;
            }
            node = child;
        }
        size_t count;
        Entry *entries = covered(route, node, count);
        for (size_t i = 0; i < count; i++)
            if (!entries[i].route || held[entries[i].route - 1].length <= route.length)
                set_route(entries[i], number + 1, node ? &nodes[node - 1] : nullptr);
        return true;
    }

    Match match(const uint8_t *address) const {
        const Entry *entry = &root[root_index(address)];
        uint32_t route = entry->route;
        for (size_t at = 2; entry->child; at++) {
            entry = &nodes[entry->child - 1].entries[address[at]];
            if (entry->route) route = entry->route;
        }
        if (!route) return {false, 0, 0};
        return {true, held[route - 1].length, held[route - 1].value};
    }

    uint64_t remove(const Route &route) {
        auto at = numbers.find(key_of(route.address, route.length));
        if (at == numbers.end()) return 0;
        uint32_t number = at->second;
        numbers.erase(at);
        uint64_t value = held[number].value;
        unused_routes.push_back(number);
        unsigned above = bits_above(route.length);
        uint32_t way[17] = {0};
        unsigned levels = 0;
        for (unsigned depth = 16; depth <= above && above; depth += 8, levels++)
            way[levels + 1] = way[levels] ? nodes[way[levels] - 1].entries[route.address[depth / 8 - 1]].child : root[root_index(route.address)].child;
        // The next longest route of the same level that covers this one, if there is one.
        uint32_t next = 0;
        for (unsigned length = route.length; length-- > (above ? above + 1 : 0) && !next;) {
            auto shorter = numbers.find(key_of(route.address, length));
            if (shorter != numbers.end()) next = shorter->second + 1;
        }
        size_t count;
        Entry *entries = covered(route, way[levels], count);
        for (size_t i = 0; i < count; i++)
            if (entries[i].route == number + 1) set_route(entries[i], next, way[levels] ? &nodes[way[levels] - 1] : nullptr);
        for (; levels > 0 && !nodes[way[levels] - 1].used; levels--) {
            unused_nodes.push_back(way[levels]);
            Node *parent = levels > 1 ? &nodes[way[levels - 1] - 1] : nullptr;
            Entry &entry = parent ? parent->entries[route.address[levels]] : root[root_index(route.address)];
            entry.child = 0;
            if (parent && !entry.route) parent->used--;
        }
        return value + 1;
    }
};
