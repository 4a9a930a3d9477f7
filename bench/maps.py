"""Times ordered maps beside each other, by the same calls on each."""

import statistics
from dataclasses import dataclass

import idle
from shared import REPOSITORY, place_and_time, say, table_of

SIZES = [100_000, 1_000_000]
RESULTS = REPOSITORY / "bench" / "results"


def number(value):
    return f"{value:,.0f}" if value >= 10 else f"{value:.1f}"


def cases_of(bench, sizes):
    """The shapes of keys and the sizes that a bench measures."""
    if not sizes and hasattr(bench, "CASES"):
        return bench.CASES
    sizes = sizes or getattr(bench, "SIZES", SIZES)
    return [(shape, size) for shape in bench.SHAPES for size in sizes]


@dataclass
class Taken:
    """What the runs of a bench took, and how idle the machine was."""

    where: str
    cases: dict  # for each shape of keys and size, for each map and call, what each run took
    others: float = 0.0

    @property
    def is_idle(self):
        return self.others <= idle.MOST


def measure(bench, sizes, turns, is_busy_allowed):
    """What each run takes. The runs of all cases take turns."""
    program = bench.build()
    cases = cases_of(bench, sizes)
    taken = {case: {} for case in cases}
    idle.wait_until_idle(is_busy_allowed)
    others = idle.Others()
    for turn in range(turns):
        for shape, size in cases:
            say(f"run {turn + 1} of {turns}: {size:,} {bench.SHAPES[shape]}")
            for which, call, value in bench.once(program, shape, size, turn):
                taken[shape, size].setdefault((which, call), []).append(value)
    share = others.share()
    runs = "one run" if turns == 1 else f"{turns} runs"
    return Taken(f"{place_and_time()}, {idle.in_words(share)}; {runs}", taken, share)


# ---- the runs in bench/results


def keep(name, taken):
    """Writes what each run took: the keys, the entries, the map, the call, and the runs in their order."""
    lines = [taken.where]
    for (shape, size), runs in taken.cases.items():
        for (which, call), cell in runs.items():
            lines.append("\t".join([shape, str(size), which, call, " ".join(f"{it:.2f}" for it in cell)]))
    RESULTS.mkdir(exist_ok=True)
    (RESULTS / f"{name}.txt").write_text("\n".join(lines) + "\n", encoding="utf-8")


def kept(name):
    """The runs that `keep` has written."""
    where, *lines = (RESULTS / f"{name}.txt").read_text(encoding="utf-8").splitlines()
    taken = Taken(where, {})
    for shape, size, which, call, runs in (line.split("\t") for line in lines):
        taken.cases.setdefault((shape, int(size)), {})[which, call] = [float(it) for it in runs.split()]
    return taken


# ---- tables


def spread_of(runs):
    """How far a run is from the median at most; nothing where that is less than half a percent."""
    median = statistics.median(runs)
    most = max(abs(it - median) for it in runs)
    return f" ±{most / median:.0%}" if most > 0.005 * median else ""


def cell_of(runs, is_best=False):
    """The median, bold for the best, and the spread."""
    if not runs:
        return ""
    median = number(statistics.median(runs))
    return (f"**{median}**" if is_best else median) + spread_of(runs)


def is_best(runs, others):
    """Whether each run took less than all of the others."""
    return bool(runs) and bool(others) and max(runs) < min(map(min, others))


def row_of(runs, which, peers, calls):
    """The cells of a map's calls. Best is a call beside those of its peers."""
    cells = []
    for call in calls:
        others = [runs[other, call] for other in peers if other != which and (other, call) in runs]
        mine = runs.get((which, call))
        cells.append(cell_of(mine, is_best(mine, others)))
    return cells


def peers_of(bench, which):
    """The maps beside which one is set: all of a process."""
    return next(some for some in getattr(bench, "PEERS", [bench.MAPS]) if which in some)


def ratio_cell(ours, theirs):
    """Our median, and the median of the runs' ratios with its spread: bold where each is less than 1, in italics where more."""
    if not ours or not theirs:
        return ""
    ratios = [our / their for our, their in zip(ours, theirs)]
    mark = "**" if max(ratios) < 1 else "*" if min(ratios) > 1 else ""
    return f"{number(statistics.median(ours))}: {mark}{statistics.median(ratios):.2f}{mark}{spread_of(ratios)}"


def ratios_across(bench, taken):
    """A row for each case, with our numbers and their ratios."""
    rows = [["Keys", "Entries", *bench.SHOWN_CALLS]]
    for (shape, size), runs in taken.cases.items():
        if size not in bench.HIDDEN_SIZES:
            cells = (ratio_cell(*(runs.get((which, call)) for which in bench.MAPS)) for call in bench.SHOWN_CALLS)
            rows.append([bench.SHAPES[shape], f"{size:,}", *cells])
    return rows


def ratios_down(bench, taken):
    """A row for each call, with our numbers and their ratios."""
    is_one_size = len({size for _, size in taken.cases}) == 1
    rows = [["Call", *(bench.SHAPES[shape] + ("" if is_one_size else f", {size:,}") for shape, size in taken.cases)]]
    for call in dict.fromkeys(call for runs in taken.cases.values() for _, call in runs):
        rows.append([call, *(ratio_cell(*(runs.get((which, call)) for which in bench.MAPS)) for runs in taken.cases.values())])
    return rows


def maps_down(bench, taken):
    """A row for each case and map, with its numbers."""
    rows = [["Keys", "Entries", "Map", *bench.CALLS]]
    for (shape, size), runs in taken.cases.items():
        for which in (it for it in bench.MAPS if any(of == it for of, _ in runs)):
            rows.append([bench.SHAPES[shape], f"{size:,}", which, *row_of(runs, which, peers_of(bench, which), bench.CALLS)])
    return rows


def table(bench, taken):
    """The table of a bench, under a line that says where and when."""
    text = f"{taken.where}:\n\n{table_of(getattr(bench, 'rows', maps_down)(bench, taken))}"
    if hasattr(bench, "ratios"):
        medians = {(*case, *of): statistics.median(it) for case, runs in taken.cases.items() for of, it in runs.items()}
        text += "\n\n" + bench.ratios(medians)
    return text


def summary(benches, shape="random"):
    """The table of README.md: the numbers of all maps of these benches for keys of this shape, at both sizes."""
    calls = ["insert", "get", "miss", "remove", "iterate", "range", "bytes"]
    rows = [["Entries", "Map", *calls]]
    every = {name: kept(name).cases for name in benches}
    for size in SIZES:
        for name, bench in benches.items():
            runs = every[name][shape, size]
            rows += [[f"{size:,}", which, *row_of(runs, which, bench.MAPS, calls)] for which in bench.MAPS]
    return table_of(rows)
