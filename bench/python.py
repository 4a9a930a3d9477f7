"""`SortedMap` and `SortedSet` of the module for Python beside those of sortedcontainers (Debian's python3-sortedcontainers), by
bindings/python/bench.py, which says what it times."""

import os
import subprocess

import tables
from maps import ratios_down
from shared import REPOSITORY, fail

KINDS = {"map": "SortedMap", "set": "SortedSet"}
SHAPES = {f"{kind}-{keys}": f"`{name}`, {keys}" for keys in ("words", "numbers") for kind, name in KINDS.items()}
SIZES = [100_000]
MAPS = ["verified_art", "sortedcontainers"]
rows = ratios_down


def build():
    """The module, compiled over the library as it is."""
    if not tables.is_there("sortedcontainers"):
        fail("python: Debian's python3-sortedcontainers is not there")
    return tables.build_module()


def once(module, shape, size, _turn):
    """Each map and call with what it took in one run."""
    kind, keys = shape.split("-")
    words = [tables.PYTHON, REPOSITORY / "bindings" / "python" / "bench.py", "--once", KINDS[kind], keys, str(size)]
    run = subprocess.run(words, env={**os.environ, "PYTHONPATH": str(module)}, stdout=subprocess.PIPE, text=True)
    if run.returncode != 0:
        fail(f"python: {shape}, {size} entries: the calls fail")
    for line in run.stdout.splitlines():
        call, *times = line.split("\t")
        for which, time in zip(MAPS, times):
            yield which, call, float(time)
