#!/usr/bin/env python3
"""Times SortedMap beside SortedDict of sortedcontainers (Debian: python3-sortedcontainers), and SortedSet beside its SortedSet.

    python3 bindings/python/bench.py [ENTRIES] [CALL ..]
    python3 bindings/python/bench.py --once SortedMap|SortedSet words|numbers ENTRIES

Each line is nanoseconds of processor time for one key, ours and theirs: the median of seven runs that take turns, and the least and the
greatest of them; then the first median by the second, and who is faster where all runs of one are. Of str keys of 3 to 13 letters,
and of int keys of 64 bits, in random order. `pip install bindings/python` comes first.
With --once there is one run, and tabs stand between the call and the numbers of both: `bench/run python` runs it so."""

import gc
import random
import statistics
import sys
import time
from pathlib import Path
from string import ascii_lowercase

# The folder of this file has the module without its part in C.
sys.path = [place for place in sys.path if Path(place or ".").resolve() != Path(__file__).resolve().parent]

import sortedcontainers  # noqa: E402
import verified_art  # noqa: E402

RUNS = 7


def some_words(choose, count):
    found = {}
    while len(found) < count:
        found["".join(choose.choices(ascii_lowercase, k=choose.randrange(3, 14)))] = None
    return list(found)


def some_numbers(choose, count):
    return [choose.getrandbits(64) - 2**63 for _ in range(count)]


def other_objects(keys):
    return [key + 1 - 1 if isinstance(key, int) else (key + " ")[:-1] for key in keys]


def each(made, name, keys):
    """Makes a call with each key."""
    call = getattr(made, name)
    for key in keys:
        call(key)


def insert(made, keys):
    for key in keys:
        made[key] = 1


def get(made, keys):
    for key in keys:
        made[key]


def contains(made, keys):
    for key in keys:
        key in made


def remove_and_set(made, keys):
    for key in keys:
        del made[key]
        made[key] = 1


def ranges(made, keys):
    for key in keys:
        for step, _ in enumerate(made.irange(key)):
            if step == 99:
                break


def prefixes(made, starts):
    for start in starts:
        if hasattr(made, "prefix"):
            list(made.prefix(start))
        else:
            list(made.irange(start, start[:-1] + chr(ord(start[-1]) + 1), (True, False)))


def go_over(walk):
    for _ in walk:
        pass


def calls_of_maps(keys, choose):
    """By name: what is made anew for each run (None: nothing), the call, and how many keys it is for."""
    count, again, other = len(keys), choose.sample(keys, len(keys)), choose.sample(other_objects(keys), len(keys))
    as_dict, pairs, half = dict.fromkeys(keys, 1), [(key, 1) for key in keys], dict.fromkeys(keys[::2], 1)
    some, few, tenth, places = again[:10_000], choose.sample(keys, 100), dict.fromkeys(choose.sample(keys, count // 10), 2), [choose.randrange(count) for _ in range(1000)]

    def looked_up(kind):
        made = kind(as_dict)
        get(made, again)
        return made

    calls = {
        "insert": (lambda kind: kind(), lambda made: insert(made, keys), count),
        "a dict at once": (None, lambda made: type(made)(as_dict), count),
        "pairs at once": (None, lambda made: type(made)(pairs), count),
        "an iterator at once": (None, lambda made: type(made)(zip(keys, keys)), count),
        "update, all new": (lambda kind: kind(half), lambda made: made.update(as_dict), count),
        "update, all there": (None, lambda made: made.update(as_dict), count),
        "update, a tenth": (None, lambda made: made.update(tenth), count // 10),
        "update, 100": (None, lambda made: made.update(dict.fromkeys(few, 1)), 100),
        "get, first time": (lambda kind: kind(as_dict), lambda made: get(made, again), count),
        "get": (None, lambda made: get(made, again), count),
        "get, other objects": (None, lambda made: get(made, other), count),
        "get(), not there": (None, lambda made: each(made, "get", [key + key for key in few] * 10), 1000),
        "in": (None, lambda made: contains(made, again), count),
        "setdefault": (None, lambda made: each(made, "setdefault", again), count),
        "remove and set": (None, lambda made: remove_and_set(made, some), len(some)),
        "popitem": (lambda kind: kind(half), lambda made: [made.popitem() for _ in range(count // 100)], count // 100),
        "iterate": (None, go_over, count),
        "reversed": (None, lambda made: go_over(reversed(made)), count),
        "values": (None, lambda made: go_over(made.values()), count),
        "items": (None, lambda made: go_over(made.items()), count),
        "ranges of 100": (None, lambda made: ranges(made, few), 100 * len(few)),
        "irange, 1 key": (None, lambda made: [list(made.irange(key, key)) for key in few], len(few)),
        "bisect": (None, lambda made: each(made, "bisect", some), len(some)),
        "index": (None, lambda made: each(made, "index", some), len(some)),
        "peekitem": (None, lambda made: each(made, "peekitem", places), 1000),
        "copy": (None, lambda made: made.copy(), count),
        "==": (looked_up, lambda made: made == as_dict, count),
        "==, first time": (lambda kind: kind(as_dict), lambda made: made == as_dict, count),
        "== its own kind": (lambda kind: (kind(as_dict), kind(as_dict)), lambda two: two[0] == two[1], count),
    }
    if isinstance(keys[0], str):
        starts = [key[:2] for key in few]
        calls["a prefix"] = (None, lambda made: prefixes(made, starts), len(starts))
    return calls


def calls_of_sets(keys, choose):
    count, again, half = len(keys), choose.sample(keys, len(keys)), set(keys[::2])
    all_keys, others, some = set(keys), {key + key for key in keys}, again[:10_000]
    places = [choose.randrange(count) for _ in range(1000)]
    return {
        "add": (lambda kind: kind(), lambda made: each(made, "add", keys), count),
        "a list at once": (None, lambda made: type(made)(keys), count),
        "in": (None, lambda made: contains(made, again), count),
        "add again": (None, lambda made: each(made, "add", again), count),
        "remove": (lambda kind: kind(keys), lambda made: each(made, "remove", some), len(some)),
        "pop": (lambda kind: kind(keys), lambda made: [made.pop() for _ in range(count // 100)], count // 100),
        "iterate": (None, go_over, count),
        "[index]": (None, lambda made: get(made, places), 1000),
        "bisect": (None, lambda made: each(made, "bisect", some), len(some)),
        "| set": (None, lambda made: made | half, count),
        "& set": (None, lambda made: made & half, count),
        "- set": (None, lambda made: made - half, count),
        "& its own kind": (lambda kind: (kind(keys), kind(half)), lambda two: two[0] & two[1], count),
        ">= set": (None, lambda made: made >= half, count),
        "<= set": (None, lambda made: made <= all_keys, count),
        "== set": (None, lambda made: made == all_keys, count),
        "== its own kind": (lambda kind: (kind(keys), kind(keys)), lambda two: two[0] == two[1], count),
        "isdisjoint": (None, lambda made: made.isdisjoint(others), count),
    }


def runs_of(call, make, kinds, kept, count=RUNS):
    """The seconds of each run of each kind, which take turns."""
    runs = [[], []]
    for _ in range(count):
        for which, kind in enumerate(kinds):
            made = make(kind) if make else kept[which]
            begun = time.process_time()
            call(made)
            runs[which].append(time.process_time() - begun)
    return runs


def line_of(name, runs, its):
    """The runs of a call, which is for so many keys, by the median and the spread of each kind."""
    ours, theirs = ([seconds * 1e9 / its for seconds in sorted(each)] for each in runs)
    faster = "ours" if ours[-1] < theirs[0] else "theirs" if theirs[-1] < ours[0] else ""
    cells = (f"{statistics.median(each):7.0f} {f'{each[0]:.0f}..{each[-1]:.0f}':>13}" for each in (ours, theirs))
    return f"{name:>20} {' '.join(cells)} {statistics.median(ours) / statistics.median(theirs):6.2f} {faster}".rstrip()


SOME_KEYS = {"words": some_words, "numbers": some_numbers}
CALLS_OF = {"SortedMap": calls_of_maps, "SortedSet": calls_of_sets}


def times_of(name, keys_name, count, wanted, runs):
    """Each call that is wanted, with the seconds of each run of both kinds, and for how many keys it is."""
    choose = random.Random(1)
    keys = SOME_KEYS[keys_name](choose, count)
    kinds = getattr(verified_art, name), getattr(sortedcontainers, name.replace("Map", "Dict"))
    kept = [kind(dict.fromkeys(keys, 1)) for kind in kinds]
    for call_name, (make, call, its) in CALLS_OF[name](keys, choose).items():
        if not wanted or call_name in wanted:
            yield call_name, runs_of(call, make, kinds, kept, runs), its


def main():
    gc.disable()
    if sys.argv[1:2] == ["--once"]:
        name, keys_name, count = sys.argv[2:]
        for call_name, runs, its in times_of(name, keys_name, int(count), [], 1):
            print(call_name, *(seconds * 1e9 / its for seconds, in runs), sep="\t")
        return
    numbers = [word for word in sys.argv[1:] if word.isdigit()]
    wanted, count = [word for word in sys.argv[1:] if not word.isdigit()], int(numbers[0]) if numbers else 100_000
    for keys_name in SOME_KEYS:
        for name in CALLS_OF:
            print(f"{name}, {count} {keys_name}")
            for call_name, runs, its in times_of(name, keys_name, count, wanted, RUNS):
                print(line_of(call_name, runs, its), flush=True)


main()
