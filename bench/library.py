"""The library for C beside Rust's `BTreeMap`, C++'s `std::map`, `absl::btree_map` and Judy, in one process.

The same calls on each, in C++ (on `BTreeMap` in Rust), by entries in random order; a run begins with another map than the
one before it. Of fewer than 20,000 entries there are several maps, as `map` has them. Memory is what malloc has given out.
"""

import shutil
import subprocess

from shared import REPOSITORY, built_library, fail

SHAPES = {"dense": "dense numbers", "random": "random numbers", "words": "words"}
OURS, *OTHERS = MAPS = ["`libart`", "`BTreeMap` of Rust", "`std::map`", "`absl::btree_map`", "Judy"]
CALLS = ["insert", "get", "miss", "remove", "iterate", "range", "bytes"]
CASES = [(shape, size) for shape in SHAPES for size in (100, 100_000, 1_000_000) if (shape, size) != ("words", 1_000_000)]
HERE = REPOSITORY / "bench"
RUSTC = ["rustc", "--edition", "2021", "--crate-type", "staticlib", "-C", "opt-level=3", "-C", "panic=abort"]
CPP = ["g++", "-std=c++17", "-O3", "-DNDEBUG"]


def build():
    """The program, compiled from the library as it is."""
    library, out = built_library() / "libart.a", HERE / "out"
    missing = [tool for tool in ("g++", "rustc", "pkg-config") if not shutil.which(tool)]
    if missing:
        fail(f"library: {', '.join(missing)} is not there")
    absl = subprocess.run(["pkg-config", "--cflags", "--libs", "absl_btree"], capture_output=True, text=True)
    if absl.returncode != 0:
        fail("library: absl_btree (Debian's libabsl-dev) is not there")
    out.mkdir(exist_ok=True)
    subprocess.run([*RUSTC, "-o", out / "libbtree.a", HERE / "btree.rs"], check=True)
    parts = [HERE / "library.cc", library, out / "libbtree.a", *absl.stdout.split(), "-lJudy", "-ldl", "-lpthread"]
    subprocess.run([*CPP, "-o", out / "library", *parts], check=True)
    return out / "library"


def once(program, shape, size, turn):
    """Each map and call with what it took in one run."""
    run = subprocess.run([program, shape, str(size), str(turn)], stdout=subprocess.PIPE, text=True)
    if run.returncode != 0:
        fail(f"library: {shape}, {size} entries: two maps differ, or memory is out")
    for line in run.stdout.splitlines():
        which, call, value = line.split("\t")
        yield which, call, float(value)
