"""Route tables of the shape of the public BGP table, and tables that an attacker shapes, as `tables` times them.

The public table has a million IPv4 or 250,000 IPv6 routes by the published shares of lengths, a little more than half of them
inside others; of IPv6 half of the addresses without a route lie near one. An attacker's tables have routes around each of
1,000 addresses, those of all lengths, or beside each of them, those that part from it in their last bit. In the first an
address is looked up with one bit turned, so that all lengths match (`match`); in the second no route contains an address,
though a search for it goes as deep as any (`miss`).
"""

import tables

SHAPES = {
    "bgp4": "public IPv4",
    "bgp6": "public IPv6",
    "nested4": "around IPv4",
    "nested6": "around IPv6",
    "beside4": "beside IPv4",
    "beside6": "beside IPv6",
}
CASES = [("bgp4", 1_000_000), ("bgp6", 250_000), *((shape, 1_000) for shape in ("nested4", "nested6", "beside4", "beside6"))]
# The addresses of an attacker's table, and those of the kind one beside which it is set.
ATTACKS = {
    "a match among 33 routes around an IPv4 address": ("nested4", "match", "bgp4", "match"),
    "a match among 129 routes around an IPv6 address": ("nested6", "match", "bgp6", "match"),
    "a miss beside an IPv4 address": ("beside4", "miss", "bgp4", "miss"),
    "a miss beside an IPv6 address": ("beside6", "miss", "bgp6", "miss"),
}
MAPS, PEERS, CALLS = tables.MAPS, tables.PEERS, tables.CALLS
build = tables.build


def once(program, shape, size, turn):
    return tables.once(program, shape, size, turn, in_python=shape.startswith("bgp"))


def ratios(medians):
    """How often an attacker's look-up takes the time of the kind one, by the numbers of each case, map and call."""
    sizes = {shape: size for shape, size, *_ in sorted(medians)}
    lines = []
    for what, (attack, call, kind, kind_call) in ATTACKS.items():
        for which in ("`libart`", "binary trie"):
            slow, fast = medians.get((attack, sizes.get(attack), which, call)), medians.get((kind, sizes.get(kind), which, kind_call))
            if slow and fast:
                lines.append(f"{which}: {what} takes {slow / fast:.1f} times a {kind_call} of the public table")
    return "\n".join(lines)
