"""Times a route table in Python: `tables_in_python.py RouteTable|Radix ipv4|ipv6|bgp4|bgp6 ROUTES`. It writes a line for each
call: the nanoseconds of processor time for one route or address, and of many routes the bytes for one. The routes of the public
table's shape are those that the program `tables` prints."""

import gc
import random
import re
import socket
import subprocess
import sys
import time
from pathlib import Path

BITS = {"ipv4": 32, "ipv6": 128, "bgp4": 32, "bgp6": 128}
PROGRAM = Path(__file__).resolve().parent / "out" / "tables"
FAMILIES = {32: socket.AF_INET, 128: socket.AF_INET6}
MOST_ADDRESSES = 200_000  # of a call
# How many routes take so many pages that these say what one takes.
LEAST_IN_PAGES = 10_000
# How many of a hundred routes have each length, about as in the tables of routers.
SHARES = {
    32: {24: 60, 23: 10, 22: 12, 21: 5, 20: 5, 19: 3, 18: 2, 17: 1, 16: 2},
    128: {48: 46, 32: 14, 44: 10, 40: 9, 36: 6, 47: 3, 46: 4, 29: 3, 33: 2, 34: 2, 64: 1},
}


def text_of(number, bits):
    return socket.inet_ntop(FAMILIES[bits], number.to_bytes(bits // 8, "big"))


def some_address(rng, bits):
    """Of IPv4 below 224.0.0.0, of IPv6 in 2000::/3."""
    return rng.randrange(1 << 24, 224 << 24) if bits == 32 else 1 << 125 | rng.getrandbits(125)


def some_routes(rng, bits, count):
    lengths, weights = zip(*SHARES[bits].items())
    routes = {}
    while len(routes) < count:
        length = rng.choices(lengths, weights)[0]
        routes[some_address(rng, bits) >> bits - length << bits - length, length] = None
    return list(routes)


def public_routes(shape, count):
    printed = subprocess.run([PROGRAM, "--routes", shape, str(count)], stdout=subprocess.PIPE, text=True, check=True).stdout
    return [(int(address, 16), int(length)) for address, length in (line.split("/") for line in printed.splitlines())]


def some_misses(rng, bits, routes, count):
    """Addresses that no route contains."""
    of_length = {}
    for address, length in routes:
        of_length.setdefault(length, set()).add(address)
    misses = []
    while len(misses) < count:
        address = some_address(rng, bits)
        if not any(address >> bits - length << bits - length in of for length, of in of_length.items()):
            misses.append(text_of(address, bits))
    return misses


def held():
    """The anonymous pages of this process, in bytes."""
    return int(re.search(r"^Anonymous:\s+(\d+)", Path("/proc/self/smaps_rollup").read_text(), re.MULTILINE)[1]) * 1024


def of_library():
    sys.path.insert(0, str(Path(__file__).resolve().parent / "out" / "python"))
    from verified_art import RouteTable

    table = RouteTable()

    def insert(texts):
        for value, text in enumerate(texts):
            table[text] = value

    def remove(texts):
        for text in texts:
            del table[text]

    calls = {
        "insert": insert,
        "match": lambda addresses: sum(table[it] for it in addresses),
        "miss": lambda addresses: sum(table.get(it, 0) for it in addresses),
        "many": lambda addresses: sum(table.get_many(addresses, 0)),
        "remove": remove,
    }
    return calls


def of_radix():
    import radix

    tree = radix.Radix()

    def insert(texts):
        for value, text in enumerate(texts):
            tree.add(text).data["value"] = value

    def remove(texts):
        for text in texts:
            tree.delete(text)

    return {
        "insert": insert,
        "match": lambda addresses: sum(tree.search_best(it).data["value"] for it in addresses),
        "miss": lambda addresses: sum(tree.search_best(it) is not None for it in addresses),
        "remove": remove,
    }


def main(which, shape, size):
    rng, bits, size = random.Random(int(size)), BITS[shape], int(size)
    routes = some_routes(rng, bits, size) if shape.startswith("ipv") else public_routes(shape, size)
    texts = [f"{text_of(address, bits)}/{length}" for address, length in routes]
    looked_up = min(size, MOST_ADDRESSES)
    inside = [address | rng.getrandbits(bits - length) for address, length in rng.choices(routes, k=looked_up)]
    hits = [text_of(it, bits) for it in inside]
    misses, again = some_misses(rng, bits, routes, looked_up), rng.sample(texts, size)
    del routes, inside
    calls = {"RouteTable": of_library, "Radix": of_radix}[which]()
    given = {"insert": texts, "match": hits, "miss": misses, "many": hits, "remove": again}
    gc.collect()
    gc.disable()
    before, sums = held(), {}
    for call, body in calls.items():
        start = time.process_time_ns()
        sums[call] = body(given[call])
        print(call, (time.process_time_ns() - start) / len(given[call]), sep="\t")
        if call == "insert" and size >= LEAST_IN_PAGES:
            print("bytes", (held() - before) / size, sep="\t")
    if sums["miss"] != 0 or sums.get("many", sums["match"]) != sums["match"]:
        sys.exit("bench: a table finds other routes")


main(*sys.argv[1:])
