// Times route tables of the library beside a binary trie and a multibit trie, in one process:
//
//     tables SHAPE ROUTES FIRST
//     tables --routes SHAPE ROUTES    writes the routes and no times, a line ADDRESS/LENGTH in hexadecimal for each
//
// SHAPE is ipv4 or ipv6 (half of the routes near others), bgp4 or bgp6 (the shape of the public table), nested4, nested6,
// beside4 or beside6 (an attacker's tables, with routes around and beside ROUTES addresses).
//
// It makes each table in turn, beginning with that of the number FIRST, and times its calls. It writes a line for each table and
// call: the nanoseconds of processor time for one route or address, of few look-ups in the fastest of five passes, and the bytes
// that malloc has given out for a route. It fails where two tables differ in what their calls return. Under valgrind's
// callgrind, which then counts the instructions of each call, there is one pass: bench/instructions runs it so.
#include "../bindings/c/art.h"
#include "networks.h"
#include <cstdio>
#include <ctime>
#include <functional>
#include <malloc.h>
#if __has_include(<valgrind/callgrind.h>)
#include <valgrind/callgrind.h>
#else
#define RUNNING_ON_VALGRIND 0
#define CALLGRIND_START_INSTRUMENTATION
#define CALLGRIND_STOP_INSTRUMENTATION
#define CALLGRIND_DUMP_STATS_AT(name)
#endif

static void require(bool due, const char *what) {
    if (due) return;
    std::fprintf(stderr, "bench: %s\n", what);
    std::exit(1);
}

// The library's table, with the calls of the others.
class Library {
    art_routes_map table{};

  public:
    Library() { require(art_routes_new(&table) == ART_NONE, "no memory"); }
    ~Library() { art_routes_free(&table); }

    bool insert(const Route &route, uint64_t value) {
        uint64_t before;
        uint32_t status = art_routes_insert(&table, route.address, width, route.length, value, &before);
        require(status <= ART_SOME, "no memory");
        return status == ART_NONE;
    }

    Match match(const uint8_t *address) const {
        Match match{false, 0, 0};
        match.found = art_routes_longest_match(&table, address, width, &match.length, &match.value) == ART_SOME;
        return match;
    }

    uint64_t remove(const Route &route) {
        uint64_t value;
        return art_routes_remove(&table, route.address, width, route.length, &value) == ART_SOME ? value + 1 : 0;
    }

    template <class Sum> void match_many(const std::vector<uint8_t> &addresses, Sum sum) const {
        uint64_t values[256];
        uint8_t lengths[256];
        for (size_t at = 0, count; at < addresses.size(); at += count * width) {
            require(art_routes_longest_match_many(&table, &addresses[at], addresses.size() - at, width, lengths, 256, values, 256, &count) ==
                        ART_NONE,
                    "no table");
            for (size_t i = 0; i < count; i++) sum(Match{lengths[i] != ART_NO_ROUTE, lengths[i], values[i]});
        }
    }
};

// ---- what is timed

// What there is to do. A call that has nothing to do is not timed.
struct Work {
    std::vector<Route> routes, again;
    std::vector<uint8_t> hits, misses, mixed;
};

constexpr size_t LOOK_UPS_OF_AN_UPDATE = 4;

static double nanoseconds() {
    timespec now;
    clock_gettime(CLOCK_PROCESS_CPUTIME_ID, &now);
    return static_cast<double>(now.tv_sec) * 1e9 + static_cast<double>(now.tv_nsec);
}

// Large blocks are not in the first number.
static double held() {
    struct mallinfo2 info = mallinfo2();
    return static_cast<double>(info.uordblks) + static_cast<double>(info.hblkhd);
}

class Timer {
    const char *name;
    std::vector<uint64_t> results;

  public:
    explicit Timer(const char *table) : name(table) {}

    // The fastest of so many passes, each of which does so many things and returns the same.
    uint64_t time(const char *call, size_t count, size_t passes, const std::function<uint64_t()> &pass) {
        double least = 0;
        uint64_t result = 0;
        for (size_t turn = 0; turn < passes; turn++) {
            double start = nanoseconds();
            CALLGRIND_START_INSTRUMENTATION;
            uint64_t now = pass();
            CALLGRIND_STOP_INSTRUMENTATION;
            double taken = nanoseconds() - start;
            require(turn == 0 || now == result, "two passes differ");
            least = turn == 0 ? taken : std::min(least, taken);
            result = now;
        }
        std::string what = std::string(name) + "\t" + call + "\t" + std::to_string(count);
        CALLGRIND_DUMP_STATS_AT(what.c_str());
        write(call, least / static_cast<double>(count));
        return result;
    }

    void keep(uint64_t result) { results.push_back(result); }
    void write(const char *call, double value) const { std::printf("%s\t%s\t%f\n", name, call, value); }
    const std::vector<uint64_t> &all() const { return results; }
};

static void add(uint64_t &sum, const Match &match) {
    if (match.found) sum += match.value + 1 + match.length * UINT64_C(1000003);
}

template <class Table> static uint64_t sum_of(const Table &table, const std::vector<uint8_t> &addresses) {
    uint64_t sum = 0;
    for (size_t at = 0; at < addresses.size(); at += width) add(sum, table.match(&addresses[at]));
    return sum;
}

// Withdraws and announces a tenth of the routes, and looks addresses up behind each of both.
template <class Table> static uint64_t update(Table &table, const Work &work, size_t count) {
    uint64_t sum = 0;
    size_t at = 0;
    auto look_up = [&] {
        for (size_t i = 0; i < LOOK_UPS_OF_AN_UPDATE; i++, at = (at + width) % work.mixed.size()) add(sum, table.match(&work.mixed[at]));
    };
    for (size_t i = 0; i < count; i++) {
        sum += table.remove(work.again[i]);
        look_up();
        sum += table.insert(work.again[i], i + 7);
        look_up();
    }
    return sum;
}

// How often so many look-ups are timed: few of them, more than once.
static size_t passes_of(size_t count) { return RUNNING_ON_VALGRIND || count >= 500000 ? 1 : 5; }

template <class Table> static std::vector<uint64_t> measure(const char *name, const Work &work) {
    Timer timer(name);
    size_t size = work.routes.size();
    double before = held();
    auto made = new Table;
    Table &table = *made;
    timer.keep(timer.time("insert", size, 1, [&] {
        uint64_t fresh = 0;
        for (size_t i = 0; i < size; i++) fresh += table.insert(work.routes[i], i);
        return fresh;
    }));
    timer.write("bytes", (held() - before) / static_cast<double>(size));
    auto look_up = [&](const char *call, const std::vector<uint8_t> &addresses) {
        if (addresses.empty()) return;
        size_t count = addresses.size() / width;
        timer.keep(timer.time(call, count, passes_of(count), [&] { return sum_of(table, addresses); }));
    };
    look_up("match", work.hits);
    look_up("miss", work.misses);
    look_up("mixed", work.mixed);
    if constexpr (std::is_same_v<Table, Library>) {
        const auto &addresses = work.mixed.empty() ? work.hits.empty() ? work.misses : work.hits : work.mixed;
        size_t count = addresses.size() / width;
        uint64_t many = timer.time("many", count, passes_of(count), [&] {
            uint64_t sum = 0;
            table.match_many(addresses, [&](const Match &match) { add(sum, match); });
            return sum;
        });
        require(many == sum_of(table, addresses), "a batch finds other routes");
    }
    if (!work.mixed.empty() && size >= 10) {
        size_t count = size / 10;
        timer.keep(timer.time("update", 2 * count, 1, [&] { return update(table, work, count); }));
    }
    timer.keep(timer.time("remove", size, 1, [&] {
        uint64_t sum = 0;
        for (const Route &route : work.again) sum += table.remove(route);
        return sum;
    }));
    delete made;
    return timer.all();
}

static Work work_of(const std::string &shape, size_t size, bool only_routes) {
    bool is_counted = RUNNING_ON_VALGRIND;
    size_t least = is_counted ? 10000 : 100000;
    Random rng(size);
    Work work;
    std::string kind = shape.substr(0, shape.size() - 1);
    if (kind == "ipv" || kind == "bgp") {
        work.routes = kind == "ipv" ? random_routes(rng, size) : public_routes(rng, size);
        if (only_routes) return work;
        size_t count = is_counted ? least : kind == "ipv" ? size : std::max(size, least);
        work.hits = inside(rng, work.routes, count);
        work.misses = outside(rng, work.routes, count, kind == "bgp" && is_ipv6());
        work.mixed = mixed(rng, work.hits, work.misses, count);
    } else {
        require(kind == "nested" || kind == "beside", "no such shape");
        Attack attack = kind == "nested" ? nested_attack(rng, size, least) : beside_attack(rng, size, least);
        work.routes = attack.routes;
        work.hits = attack.hits;
        work.misses = attack.misses;
    }
    work.again = work.routes;
    std::shuffle(work.again.begin(), work.again.end(), rng);
    return work;
}

static void print_routes(const std::vector<Route> &routes) {
    for (const Route &route : routes) {
        for (size_t at = 0; at < width; at++) std::printf("%02x", route.address[at]);
        std::printf("/%u\n", route.length);
    }
}

int main(int count, char **words) {
    bool only_routes = count > 1 && !std::strcmp(words[1], "--routes");
    require(count == 4, "usage: tables SHAPE ROUTES FIRST, or tables --routes SHAPE ROUTES");
    std::string shape = words[only_routes ? 2 : 1];
    size_t size = std::strtoul(words[only_routes ? 3 : 2], nullptr, 10), first = std::strtoul(words[3], nullptr, 10);
    require(!shape.empty() && (shape.back() == '4' || shape.back() == '6') && size, "no such shape, or no routes");
    width = shape.back() == '4' ? 4 : 16;
    Work work = work_of(shape, size, only_routes);
    if (only_routes) {
        print_routes(work.routes);
        return 0;
    }
    std::vector<uint64_t> results[3];
    for (size_t turn = 0; turn < 3; turn++) {
        size_t which = (first + turn) % 3;
        if (which == 0) results[which] = measure<Library>("`libart`", work);
        if (which == 1) results[which] = measure<BinaryTrie>("binary trie", work);
        if (which == 2) results[which] = measure<MultibitTrie>("multibit trie", work);
    }
    require(results[0] == results[1] && results[0] == results[2], "two tables differ");
    require(results[0][0] == work.routes.size(), "a route is inserted twice");
}
