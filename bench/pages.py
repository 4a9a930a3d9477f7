"""`Map`, by pages, beside `BTreeMap` of Rattle's std with the same native keys, by the program bench_map, which compares what
their calls return.

Inserts in random order (but of ascending numbers), look-ups in another, of absent keys too, a visit of all entries from
either end, key and value, and of the values alone, a range of 100 entries from each hundredth key on, removals in a third
order, and `pop_first` of all. Of fewer than 20,000 entries there are several maps, with 20,000 in all. What changes no map is
called once before it is timed. Both maps take turns in each run, so their ratio says more than either time.

Memory is the anonymous pages of a process with the entries beyond those of one that has the keys alone, and `peak` the
most that it had resident until then, beyond the same. The keys' own memory is among them.
"""

import pathlib
import re
import subprocess

from maps import ratios_across
from shared import built_of_bench, fail

SHAPES = {
    "random": "random numbers",
    "dense": "dense numbers",
    "ascending": "ascending numbers",
    "addresses": "IPv4 addresses",
    "words": "words",
    "urls": "URLs",
    "tuples": "tuples",
}
SIZES = [10, 100, 500, 100_000, 1_000_000]
HIDDEN_SIZES = [10]  # in bench/results alone
OURS, THEIRS = MAPS = ["`Map`", "`BTreeMap` of Rattle"]
CALLS = ["insert", "get", "miss", "remove", "pop_first", "iterate", "iterate_back", "values", "range", "bytes", "peak"]
SHOWN_CALLS = [call for call in CALLS if call not in ("iterate_back", "values", "peak")]
ENTRIES_FOR_ONE = {"range": 100}  # of these calls one is made for so many entries
rows = ratios_across


def build():
    return built_of_bench("bench_map")


def is_due(call, found, entries):
    """Whether so many calls find so many entries."""
    if call in ENTRIES_FOR_ONE:
        return found >= entries // ENTRIES_FOR_ONE[call]  # each begins at an entry
    return found == (0 if call in ("insert", "miss") else entries)


def times_of(program, shape, size):
    """How many entries all maps have, and each call with the nanoseconds of ours and of theirs, for all entries."""
    run = subprocess.run([program, "time", shape, str(size)], capture_output=True, text=True)
    if run.returncode != 0:
        fail(f"map: {shape}, {size} entries: the maps differ, or memory is out")
    calls = {call: tuple(map(int, numbers)) for _, call, *numbers in map(str.split, run.stdout.splitlines())}
    entries = calls["get"][0]
    for call, (found, _, _) in calls.items():
        if not is_due(call, found, entries):
            fail(f"map: {shape}, {size} entries: {call} finds {found}")
    return entries, {call: times for call, (_, *times) in calls.items()}


def memory_of(program, shape, size, what):
    """The memory of a process that holds these entries, without what it maps from files, and the most that it had."""
    words = [program, "hold", shape, str(size), what]
    with subprocess.Popen(words, stdin=subprocess.PIPE, stdout=subprocess.PIPE) as child:
        if child.stdout.readline() != b"refused 0\n":
            fail(f"map: {shape}, {size} entries: {what} could not be held")
        process = pathlib.Path("/proc", str(child.pid))
        taken = (process / "smaps_rollup").read_text() + (process / "status").read_text()
        child.stdin.close()
    return [int(re.search(rf"^{it}:\s+(\d+)", taken, re.MULTILINE)[1]) * 1024 for it in ("Anonymous", "VmHWM")]


def once(program, shape, size, turn):
    """Each map and call with what it took in one run, for an entry, or for one range. Memory does not vary, and is read in the
    first."""
    entries, calls = times_of(program, shape, size)
    for call, times in calls.items():
        number = entries // ENTRIES_FOR_ONE.get(call, 1)
        for which, time in zip(MAPS, times):
            yield which, call, time / max(number, 1)
    if turn == 0:
        keys_alone = memory_of(program, shape, size, "nothing")
        for which, what in zip(MAPS, ["ours", "theirs"]):
            for call, held, alone in zip(["bytes", "peak"], memory_of(program, shape, size, what), keys_alone):
                yield which, call, (held - alone) / entries
