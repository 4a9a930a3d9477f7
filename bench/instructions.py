"""The same tables as `bgp` has, in instructions for one route or address as valgrind's callgrind counts them: what does not
depend on what else the machine does. One run, with smaller tables."""

import re
import shutil
import subprocess
import tempfile
from pathlib import Path

import tables
from bgp import SHAPES
from shared import fail, say, table_of

CASES = [("bgp4", 100_000), ("bgp6", 50_000), *((shape, 1_000) for shape in ("nested4", "nested6", "beside4", "beside6"))]
MAPS = ["`libart`", "binary trie", "multibit trie"]
CALLS = [it for it in tables.CALLS if it != "bytes"]


def counted(program, shape, size):
    """The instructions of each table and call."""
    with tempfile.TemporaryDirectory() as room:
        counter = ["valgrind", "--tool=callgrind", "--instr-atstart=no", f"--callgrind-out-file={room}/out"]
        words = [*counter, program, shape, str(size), "0"]
        ran = subprocess.run(words, stdout=subprocess.DEVNULL, stderr=subprocess.PIPE, text=True)
        if ran.returncode != 0:
            fail(f"instructions: {shape}, {size} routes: {ran.stderr[-300:]}")
        found = {}
        for file in sorted(Path(room).glob("out*")):
            text = file.read_text(encoding="utf-8", errors="replace")
            of = re.search(r"^desc: Trigger: Client Request: (.*)\t(.*)\t(\d+)$", text, re.MULTILINE)
            total = re.search(r"^totals: (\d+)", text, re.MULTILINE)
            if of and total:
                found[of[1], of[2]] = int(total[1]) / int(of[3])
    return found


def measure(sizes):
    """The table of instructions."""
    if not shutil.which("valgrind"):
        fail("instructions: valgrind is not there")
    program = tables.build_program()
    rows = [["Keys", "Entries", "Map", *CALLS]]
    for shape, size in [(shape, size) for shape, _ in CASES for size in sizes] if sizes else CASES:
        say(f"instructions of {size:,} {SHAPES[shape]}")
        found = counted(program, shape, size)
        for which in MAPS:
            cells = (f"{found[which, call]:,.0f}" if (which, call) in found else "" for call in CALLS)
            rows.append([SHAPES[shape], f"{size:,}", which, *cells])
    return table_of(rows)
