// Random calls beside std::map, and of route tables beside a scan: `random [CALLS [SEED]]`.
#include "beside_map.h"
#include "beside_routes.h"
#include <random>

struct Random {
    std::mt19937_64 rng;

    uint64_t below(uint64_t most) { return rng() % most; }

    // Small and great numbers.
    uint64_t number() { return rng() >> below(64); }

    // Short keys of few letters, with zeros and 255s: many are equal, or begin another.
    std::string key() {
        static const char letters[] = {'\0', '\1', 'a', 'b', '\377'};
        std::string key;
        for (uint64_t len = below(7); len > 0; len--) key += letters[below(5)];
        if (below(50) == 0) key += std::string(below(40), letters[below(5)]);
        return key;
    }
};

int main(int count, char **words) {
    long calls = count > 1 ? std::atol(words[1]) : 300000;
    Random random;
    random.rng.seed(count > 2 ? std::strtoull(words[2], nullptr, 10) : 20261128);
    {
        BytesBeside<Random> bytes(random);
        for (long call = 0; call < calls; call++) bytes.call();
    }
    {
        NumbersBeside<Random> numbers(random);
        for (long call = 0; call < calls; call++) numbers.call();
    }
    {
        RoutesBeside<Random> routes(random);
        for (long call = 0; call < calls; call++) routes.call();
    }
    std::printf("random: %ld calls of each map and of a route table, none differs from std::map and a scan\n", calls);
}
