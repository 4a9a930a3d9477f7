// A fuzzer's bytes say which calls are made beside std::map, and of a route table beside a scan. At its end it prints how many there were.
#include "beside_map.h"
#include "beside_routes.h"

struct Input {
    const uint8_t *next;
    const uint8_t *end;

    uint64_t byte() { return next < end ? *next++ : 0; }

    uint64_t below(uint64_t most) { return byte() % most; }

    uint64_t number() {
        uint64_t width = below(9), number = 0;
        for (; width > 0; width--) number = number << 8 | byte();
        return number;
    }

    std::string key() {
        static const char letters[] = {'\0', '\1', 'a', 'b', '\376', '\377'};
        std::string key;
        uint64_t len = below(12);
        if (len == 11) key.assign(below(90), letters[below(6)]);
        for (; len > 0; len--) key += letters[below(6)];
        return key;
    }
};

static unsigned long long calls = 0;

extern "C" int LLVMFuzzerInitialize(int *, char ***) {
    std::atexit([] { std::fprintf(stderr, "fuzz: %llu calls, none differs from std::map and a scan\n", calls); });
    return 0;
}

extern "C" int LLVMFuzzerTestOneInput(const uint8_t *data, size_t size) {
    Input input{data, data + size};
    BytesBeside<Input> bytes(input);
    NumbersBeside<Input> numbers(input);
    RoutesBeside<Input> routes(input);
    while (input.next < input.end) {
        switch (input.below(4)) {
        case 0:
            bytes.call();
            break;
        case 1:
            numbers.call();
            break;
        default:
            routes.call();
        }
        calls++;
    }
    return 0;
}
