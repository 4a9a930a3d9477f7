"""`index` beside SQLite: some hosts of IPv4 and IPv6, times that repeat, and values; queries of each kind. SQLite has
the table in memory, with an index by address and time, and gives the rows of one host and time in the order of the file.
"""

import ipaddress
import sqlite3

from programs import Task

CRATE = "index"
BESIDE = "SQLite"
SIZES = [100_000]
ALL_TIMES = (-(2**63), 2**63 - 1)


def made_host(rng):
    if rng.random() < 0.8:
        return str(ipaddress.IPv4Address(rng.getrandbits(32)))
    return str(ipaddress.IPv6Address(rng.getrandbits(128)))


def octets(host):
    """The sixteen octets by which hosts sort."""
    address = ipaddress.ip_address(host)
    return address.packed if address.version == 6 else bytes(10) + b"\xff\xff" + address.packed


def text_of(octets):
    """The text of a host."""
    address = ipaddress.IPv6Address(octets)
    return str(address.ipv4_mapped or address)


def made_query(rng, hosts, span):
    host = rng.choice(hosts) if rng.random() < 0.9 else made_host(rng)
    start = rng.randrange(-span, span)
    within = (start, start + rng.randrange(-span // 10, span // 2))
    of_host = [("from", host, *within), ("host", host), ("count", host, *within), ("count", host)]
    of_all = [("first",), ("last",), ("count",), ("hosts",), ("time", start, start + rng.randrange(-10, span // 100))]
    return rng.choices(of_host + of_all, [80, 7, 5, 5, 1, 1, 0.98, 0.01, 0.01])[0]


def line_of(query):
    if query[0] == "from":
        return f"host {query[1]} from {query[2]} to {query[3]}"
    if query[0] == "time":
        return f"time from {query[1]} to {query[2]}"
    if len(query) == 4:
        return f"count {query[1]} from {query[2]} to {query[3]}"
    return " ".join(query)


def filled_base(rows):
    base = sqlite3.connect(":memory:")
    base.execute("create table reading (place integer primary key, host blob, time integer, line text)")
    base.executemany(
        "insert into reading values (?, ?, ?, ?)",
        ((place, octets(host), seconds, f"{host},{seconds},{value}") for place, (host, seconds, value) in enumerate(rows)),
    )
    base.execute("create index by_host on reading (host, time, place)")
    return base


def statement_of(query):
    """A query as SQLite takes it: the statement and its values."""
    what, host = query[0], octets(query[1]) if query[0] in ("from", "host", "count") and len(query) > 1 else None
    if what == "hosts":
        return "select distinct host from reading order by host", ()
    if what == "time":
        return "select line from reading where time between ? and ? order by host, time, place", query[1:]
    if what in ("first", "last"):
        way = "" if what == "first" else " desc"
        return f"select line from reading order by host{way}, time{way}, place{way} limit 1", ()
    if what == "count" and host is None:
        return "select count(*) from reading", ()
    what = "count(*)" if what == "count" else "line"
    order = "" if what == "count(*)" else " order by time, place"
    bounds = query[2:] or ALL_TIMES
    return f"select {what} from reading where host = ? and time between ? and ?{order}", (host, *bounds)


def answers(rows, queries):
    """What SQLite answers."""
    base = filled_base(rows)
    for query in queries:
        found = [cell for (cell,) in base.execute(*statement_of(query))]
        if query[0] == "hosts":
            found = map(text_of, found)
        elif query[0] in ("first", "last"):
            found = found or ["none"]
        yield from map(str, found)


def tasks(rng, sizes):
    for size in sizes:
        hosts = [made_host(rng) for _ in range(max(1, size // 20))]
        span = 2 * size + 10
        rows = [(rng.choice(hosts), rng.randrange(-span, span), rng.randrange(1000)) for _ in range(size)]
        rows += [(host, seconds, value + 1) for host, seconds, value in rows[: size // 10]]
        queries = [made_query(rng, hosts, span) for _ in range(size)]
        table = ["address,time,value", *(f"{host},{seconds},{value}" for host, seconds, value in rows)]
        lines = [line_of(query) for query in queries]
        what = f"{len(rows):,} rows, {len(queries):,} queries"
        yield Task(what, [], lines, lambda r=rows, q=queries: answers(r, q), table=table)
