"""`routes` beside a radix tree for Python: networks of IPv4 and IPv6, half of them inside others, of lengths that
routers have; half of the addresses are inside networks of the table.
"""

import ipaddress

from programs import Task
from shared import fail

CRATE = "routes"
BESIDE = "`Radix`"
SIZES = [100_000, 1_000_000]
WIDTHS = {4: 32, 6: 128}
LENGTHS = {4: [0, *range(8, 33)], 6: [0, *range(16, 65, 4), 128]}


def made_address(rng, networks):
    """A random address of either family, or one inside a network."""
    if networks and rng.random() < 0.5:
        network = rng.choice(networks)
        family, width = network.version, WIDTHS[network.version]
        bits = int(network.network_address) | rng.getrandbits(width - network.prefixlen)
    else:
        family = rng.choice([4, 6])
        width = WIDTHS[family]
        bits = rng.getrandbits(width)
    return (ipaddress.IPv4Address if family == 4 else ipaddress.IPv6Address)(bits)


def made_networks(rng, count):
    networks, known = [], set()
    while len(networks) < count:
        address = made_address(rng, networks)
        network = ipaddress.ip_network((address, rng.choice(LENGTHS[address.version])), strict=False)
        if network not in known:
            known.add(network)
            networks.append(network)
    return networks


def answers(lines, addresses):
    """What the radix tree finds."""
    try:
        import radix
    except ImportError:
        fail("routes: Debian's python3-radix is not there, or this is not Debian's python3")
    tree = radix.Radix()
    for line in lines:
        tree.add(line.split(" ")[0]).data["line"] = line
    for address in addresses:
        node = tree.search_best(address)
        yield f"{address} {node.data['line'] if node else 'none'}"


def tasks(rng, sizes):
    for size in sizes:
        networks = made_networks(rng, size)
        lines = [f"{network} hop{number}" for number, network in enumerate(networks)]
        addresses = [str(made_address(rng, networks)) for _ in range(size)]
        yield Task(f"{size:,} routes and addresses", [], addresses, lambda t=lines, a=addresses: answers(t, a), table=lines)
