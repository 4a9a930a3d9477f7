"""Route tables: the library for C beside a binary trie of 20 bytes a node and a multibit trie, in one process, and its module for
Python beside a radix tree for Python (Debian's python3-radix), where that is there, each in a process of its own.

Routes of the lengths that routers have, half of them near others, inserted in random order; addresses inside routes (`match`),
in none (`miss`), and both in turn (`mixed`, and `many` in batches); of a tenth of the routes a withdrawal and an announcement,
with four look-ups behind each (`update`); removals in another order. In Python at most 200,000 addresses are looked up. Memory
is what malloc has given out, and in Python the anonymous pages of the process beyond those of one that has the routes' texts
alone: too coarse for fewer than 10,000 routes.
"""

import shutil
import subprocess
import sys

from shared import REPOSITORY, built_library, fail, say

SHAPES = {"ipv4": "IPv4 routes", "ipv6": "IPv6 routes"}
SIZES = [1_000, 100_000]
IN_PYTHON = {"`RouteTable` of Python": "RouteTable", "`Radix` of Python": "Radix"}
IN_C = ["`libart`", "binary trie", "multibit trie"]
PEERS = [IN_C, list(IN_PYTHON)]
MAPS = [*IN_C, *IN_PYTHON]
CALLS = ["insert", "match", "miss", "mixed", "many", "update", "remove", "bytes"]
HERE = REPOSITORY / "bench"
OUT = HERE / "out"
CPP = ["g++", "-std=c++17", "-O3", "-DNDEBUG"]
PYTHON = "/usr/bin/python3"  # Debian's, which has its radix tree


def build_program():
    """The program, compiled with the library as it is."""
    if not shutil.which("g++"):
        fail("tables: g++ is not there")
    OUT.mkdir(exist_ok=True)
    subprocess.run([*CPP, "-o", OUT / "tables", HERE / "tables.cc", built_library() / "libart.a"], check=True)
    return OUT / "tables"


def build_module():
    """The folder of the module for Python, compiled with the library as it is."""
    sources = REPOSITORY / "bindings" / "python"
    module = OUT / "python" / "verified_art"
    module.mkdir(parents=True, exist_ok=True)
    shutil.copy(sources / "verified_art" / "__init__.py", module)
    sys.path.insert(0, str(sources))
    import wheel_builder

    try:
        for name, content in wheel_builder.compiled(built_library()).items():
            (module / name).write_bytes(content)
    except wheel_builder.NotMade as why:
        fail(f"tables: {why}")
    return module.parent


def build():
    """The program and the module."""
    program = build_program()
    build_module()
    if not is_there("radix"):
        IN_PYTHON.pop("`Radix` of Python", None)
        say("tables: Debian's python3-radix is not there, and is left out")
    return program


def is_there(module):
    return subprocess.run([PYTHON, "-c", f"import {module}"], stderr=subprocess.DEVNULL).returncode == 0


def once(program, shape, size, turn, in_python=True):
    """Each table and call with what it took in one run."""
    runs = {None: [program, shape, str(size), str(turn)]}
    if in_python:
        runs |= {name: [PYTHON, HERE / "tables_in_python.py", which, shape, str(size)] for name, which in IN_PYTHON.items()}
    for name, words in runs.items():
        run = subprocess.run(words, stdout=subprocess.PIPE, text=True)
        if run.returncode != 0:
            fail(f"tables: {shape}, {size} routes: two tables differ, or memory is out")
        for line in run.stdout.splitlines():
            *which, call, value = line.split("\t")
            yield name or which[0], call, float(value)
