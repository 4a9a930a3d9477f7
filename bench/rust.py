"""`Map` of the crate for Rust beside Rust's `BTreeMap`, by the crate's example, which says what it times."""

import os
import subprocess

from maps import ratios_down
from shared import REPOSITORY, built_library, fail

SHAPES = {"u64": "`u64`", "String": "`String`", "(u32, u32)": "`(u32, u32)`"}
SIZES = [100_000, 1_000_000]
MAPS = ["`Map`", "`BTreeMap` of Rust"]
CRATE = REPOSITORY / "bindings" / "rust"
TARGET = REPOSITORY / "bench" / "out" / "cargo"
rows = ratios_down


def build():
    """The example, compiled over the library as it is."""
    words = ["cargo", "build", "--quiet", "--release", "--example", "beside_btree_map", "--target-dir", TARGET]
    environment = {**os.environ, "VERIFIED_ART_DIR": str(built_library())}
    if subprocess.run(words, cwd=CRATE, env=environment).returncode != 0:
        fail("rust: the example could not be compiled")
    return TARGET / "release" / "examples" / "beside_btree_map"


def once(program, shape, size, _turn):
    """Each map and call with what it took in one run."""
    run = subprocess.run([program, "--once", shape, str(size)], stdout=subprocess.PIPE, text=True)
    if run.returncode != 0:
        fail(f"rust: {shape}, {size} entries: the example fails")
    for line in run.stdout.splitlines():
        call, *times = line.split("\t")
        for which, time in zip(MAPS, times):
            yield which, call, float(time)
