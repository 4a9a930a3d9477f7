"""Times programs on inputs made from a seed, and compares what they write with what is due.

A program is run itself, not by its launcher, which looks first whether a source has changed. A time is the median of some
runs, with the start of the process; another way to the same answers is timed once, on what is in memory already.
"""

import dataclasses
import fcntl
import os
import pathlib
import statistics
import subprocess
import tempfile
import time
from collections.abc import Callable

import idle
from maps import Taken as Runs
from maps import keep, spread_of
from shared import built, fail, place_and_time, say, table_of

HEAD = ["Program", "Input", "Lines", "Seconds", "Lines a second", "In and out", "Peak memory", "Beside", "Its seconds"]


@dataclasses.dataclass
class Task:
    """One run of a program, and what is due: the very lines of its output, or no fault."""

    what: str
    words: list
    lines: list
    answers: Callable | None = None  # another way to the lines of the output
    fault: Callable | None = None  # what is wrong with the output, if something is
    table: list | None = None  # the lines of a file, whose name is the last word
    most_growth: float | None = None  # how many times the seconds of the task before it
    most_memory: float | None = None  # how many times the bytes of input and output


def seconds_of_run(command, given_path):
    """How long one run of the program takes."""
    with open(given_path, "rb") as given:
        start = time.perf_counter()
        subprocess.run(command, stdin=given, stdout=subprocess.DEVNULL, check=True)
        return time.perf_counter() - start


def output_and_peak(command, given_path):
    """What the program writes, and its peak memory in bytes.

    The program takes no memory once it writes, and it cannot end before its output is read, since the pipe holds
    less. So its peak is looked up when the first byte has come.
    """
    reader, writer = os.pipe()
    fcntl.fcntl(writer, fcntl.F_SETPIPE_SZ, 4096)  # before the program writes
    with open(given_path, "rb") as given, open(reader, "rb", buffering=0) as answers:
        with subprocess.Popen(command, stdin=given, stdout=writer) as child:
            os.close(writer)
            first = answers.read(1)
            status = pathlib.Path(f"/proc/{child.pid}/status").read_text()
            output = first + answers.read()
    peak = next(line.split()[1] for line in status.splitlines() if line.startswith("VmHWM:"))
    return output.decode(), int(peak) * 1024


def written(folder, name, lines):
    path = pathlib.Path(folder, name)
    path.write_text("".join(f"{line}\n" for line in lines))
    return path


@dataclasses.dataclass
class Taken:
    """What a task took: the seconds of each run, the bytes of input and output, the peak, the seconds of the other way."""

    runs: list
    moved: int
    peak: int
    theirs: float

    @property
    def seconds(self):
        return statistics.median(self.runs)


def measured(program, task, runs):
    with tempfile.TemporaryDirectory() as folder:
        given = written(folder, "input", task.lines)
        command = [program, *task.words]
        if task.table is not None:
            command.append(written(folder, "table", task.table))
        seconds = [seconds_of_run(command, given) for _ in range(runs)]
        output, peak = output_and_peak(command, given)
        moved = sum(path.stat().st_size for path in pathlib.Path(folder).iterdir()) + len(output)
    start = time.perf_counter()
    if task.answers:
        fault = None if output == "".join(f"{line}\n" for line in task.answers()) else "an answer differs"
    else:
        fault = task.fault(output)
    if fault:
        fail(f"{task.what}: {fault}")
    return Taken(seconds, moved, peak, time.perf_counter() - start)


def check_limits(task, taken, before):
    """Fails where more time or memory than the task allows is taken."""
    if task.most_growth and before and taken.seconds > task.most_growth * before.seconds:
        fail(f"{task.what}: {taken.seconds / before.seconds:.1f} times the time of the task before it")
    if task.most_memory and taken.peak > task.most_memory * taken.moved:
        fail(f"{task.what}: peak memory is {taken.peak / taken.moved:.1f} times the data")


def row_of(name, other, task, taken):
    lines = len(task.lines) + len(task.table or [])
    return [
        f"`{name}`",
        task.what,
        f"{lines:,}",
        f"{taken.seconds:.3g}{spread_of(taken.runs)}",
        f"{lines / taken.seconds:,.0f}",
        f"{taken.moved / 2**20:.1f} MiB",
        f"{taken.peak / 2**20:.0f} MiB",
        other,
        f"{taken.theirs:.3g}" if other else "",
    ]


def measure_programs(programs, rng, sizes, runs, is_busy_allowed):
    """The table of what these take, whether the machine was idle, and a function that keeps the runs in bench/results."""
    rows, cases = [HEAD], {}
    paths = {name: built(bench.CRATE) for name, bench in programs.items()}
    idle.wait_until_idle(is_busy_allowed)
    others = idle.Others()
    for name, bench in programs.items():
        before = None
        for task in bench.tasks(rng, sizes or bench.SIZES):
            say(f"{name}: {task.what}")
            taken = measured(paths[name], task, runs)
            check_limits(task, taken, before)
            rows.append(row_of(name, bench.BESIDE, task, taken))
            cases.setdefault((task.what, len(task.lines)), {})[name, "milliseconds"] = [1000 * it for it in taken.runs]
            before = taken
    share = others.share()
    where = f"{place_and_time()}, {idle.in_words(share)}; {runs} runs"
    return f"{where}:\n\n{table_of(rows)}", share <= idle.MOST, lambda: keep("programs", Runs(where, cases, share))
