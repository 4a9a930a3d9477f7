"""Draws the runs in bench/results: docs/speed.svg of `map`, and docs/speed-bindings.svg of `library`.

One panel for each call and one for memory: our time divided by the other's for each number of entries. In the first a
line is a shape of keys; in the second it is another map, and each shape of keys has its own panels.
"""

import math
import statistics

import library
import pages
from maps import kept
from shared import REPOSITORY

DOCS = REPOSITORY / "docs"
COLUMNS = 4
WIDTH, HEIGHT = 250, 190  # of a panel
LEFT, TOP, GAP_ACROSS, GAP_DOWN = 64, 112, 26, 62
HEADING = 40  # above the panels of one shape of keys
MARKS = "●■▲◆★▼⬟"
NAMES = {"bytes": "memory", "iterate": "iterate, an entry", "range": "range of 100 entries"}
STYLE = """
    .ground { fill: #ffffff } .panel { fill: #f6f8fa } text { fill: #1f2328 } .quiet { fill: #57606a }
    .grid { stroke: #d0d7de } .equal { stroke: #57606a; stroke-width: 1.5; stroke-dasharray: 5 4 }
    .line { fill: none; stroke-width: 2 }
    .s0 { stroke: #0072b2 } .m0 { fill: #0072b2 } .s1 { stroke: #d55e00 } .m1 { fill: #d55e00 }
    .s2 { stroke: #00805a } .m2 { fill: #00805a } .s3 { stroke: #a8478a } .m3 { fill: #a8478a }
    .s4 { stroke: #6f5a00 } .m4 { fill: #6f5a00 } .s5 { stroke: #57606a } .m5 { fill: #57606a }
    .s6 { stroke: #7a3ec2 } .m6 { fill: #7a3ec2 }
    @media (prefers-color-scheme: dark) {
      .ground { fill: #0d1117 } .panel { fill: #161b22 } text { fill: #e6edf3 } .quiet { fill: #9198a1 }
      .grid { stroke: #30363d } .equal { stroke: #9198a1 }
      .s0 { stroke: #56b4e9 } .m0 { fill: #56b4e9 } .s1 { stroke: #ff9a4d } .m1 { fill: #ff9a4d }
      .s2 { stroke: #3ddc97 } .m2 { fill: #3ddc97 } .s3 { stroke: #e9a3cc } .m3 { fill: #e9a3cc }
      .s4 { stroke: #e3c653 } .m4 { fill: #e3c653 } .s5 { stroke: #9198a1 } .m5 { fill: #9198a1 }
      .s6 { stroke: #c29bf0 } .m6 { fill: #c29bf0 }
    }
"""


def ratios_of(bench, name, theirs, calls):
    """For each shape of keys and number of entries our medians of these calls, divided by those of the other map."""
    ratios = {}
    for (shape, size), runs in kept(name).cases.items():
        median = {of: statistics.median(it) for of, it in runs.items()}
        row = [median[bench.OURS, call] / median[theirs, call] for call in calls]
        ratios.setdefault(bench.SHAPES[shape], {})[f"{size:,}"] = row
    return ratios


def halvings(ratios):
    """The least and the greatest power of two that the axis shows."""
    values = [value for sizes in ratios.values() for row in sizes.values() for value in row]
    low = math.floor(math.log2(min(values)) - 0.05)
    high = math.ceil(math.log2(max(values)) + 0.05)
    return min(low, -1), max(high, 1)


def axis_label(power):
    if power == 0:
        return "equal"
    return f"{2**power}×" if power > 0 else f"1/{2**-power}"


def mark(index, x, y):
    """The mark of a line, so that color alone tells nothing."""
    return f'<text class="m{index}" x="{x:.1f}" y="{y + 4:.1f}" text-anchor="middle">{MARKS[index]}</text>'


def axis(left, top, powers, is_first):
    """The lines at powers of two, which the first panel of a row names."""
    low, high = powers
    for power in range(low, high + 1):
        y = top + (high - power) / (high - low) * HEIGHT
        yield f'<path class="{"grid" if power else "equal"}" d="M{left} {y:.1f} h{WIDTH}"/>'
        if is_first:
            yield f'<text class="quiet" x="{left - 8}" y="{y + 4:.1f}" text-anchor="end">{axis_label(power)}</text>'


def panel(first_top, place, call, ratios, powers):
    """One panel: its name, its axes and its lines."""
    low, high = powers
    left = LEFT + place % COLUMNS * (WIDTH + GAP_ACROSS)
    top = first_top + place // COLUMNS * (HEIGHT + GAP_DOWN)
    sizes = list(next(iter(ratios.values())))
    across = [left + WIDTH * (nth + 0.5) / len(sizes) for nth in range(len(sizes))]
    yield f'<rect class="panel" x="{left}" y="{top}" width="{WIDTH}" height="{HEIGHT}" rx="3"/>'
    yield f'<text x="{left}" y="{top - 9}" font-weight="bold">{NAMES.get(call, call)}</text>'
    yield from axis(left, top, powers, place % COLUMNS == 0)
    for x, size in zip(across, sizes):
        yield f'<text class="quiet" x="{x:.1f}" y="{top + HEIGHT + 18}" text-anchor="middle">{size}</text>'
    for index, rows in enumerate(ratios.values()):
        points = [(x, top + (high - math.log2(rows[size][place])) / (high - low) * HEIGHT) for x, size in zip(across, sizes)]
        yield f'<path class="line s{index}" d="M{" L".join(f"{x:.1f} {y:.1f}" for x, y in points)}"/>'
        yield from (mark(index, x, y) for x, y in points)


def legend(ratios):
    drawn = []
    for index, keys in enumerate(ratios):
        x = LEFT + index * 155
        drawn.append(f'<path class="line s{index}" d="M{x} 74 h28"/>')
        drawn.append(mark(index, x + 14, 74))
        drawn.append(f'<text x="{x + 36}" y="78">{keys.replace("`", "")}</text>')
    return drawn


def block_height(calls):
    return math.ceil(len(calls) / COLUMNS) * (HEIGHT + GAP_DOWN)


def drawing(title, below, blocks):
    """Blocks of panels, each under a heading where there are several."""
    heading = HEADING if len(blocks) > 1 else 0
    powers = halvings({name + line: sizes for name, (_, ratios) in blocks.items() for line, sizes in ratios.items()})
    width = LEFT + COLUMNS * (WIDTH + GAP_ACROSS)
    height = TOP + sum(heading + block_height(calls) for calls, _ in blocks.values()) - 10
    drawn = [
        f'<svg xmlns="http://www.w3.org/2000/svg" width="{width}" height="{height}"'
        f' viewBox="0 0 {width} {height}" font-family="DejaVu Sans, Arial, sans-serif" font-size="12.5">',
        f"<title>{title}</title>",
        f"<style>{STYLE}</style>",
        f'<rect class="ground" width="{width}" height="{height}" rx="8"/>',
        f'<text x="{LEFT}" y="28" font-size="16" font-weight="bold">{title}</text>',
        f'<text class="quiet" x="{LEFT}" y="49">{below}</text>',
        *legend(next(iter(blocks.values()))[1]),
    ]
    top = TOP
    for name, (calls, ratios) in blocks.items():
        if heading:
            drawn.append(f'<text x="{LEFT}" y="{top + 4}" font-size="15" font-weight="bold">{name}</text>')
        for place, call in enumerate(calls):
            drawn += panel(top + heading, place, call, ratios, powers)
        top += heading + block_height(calls)
    return "\n".join([*drawn, "</svg>", ""])


def draw_map():
    ratios = ratios_of(pages, "map", pages.THEIRS, pages.SHOWN_CALLS)
    title = "Map beside BTreeMap of Rattle's std"
    below = "Time of a call and memory of an entry, divided by those of BTreeMap: below the dashed line is better"
    (DOCS / "speed.svg").write_text(drawing(title, below, {"": (pages.SHOWN_CALLS, ratios)}), encoding="utf-8")


def draw_library():
    calls, blocks = library.CALLS, {}
    for theirs in library.OTHERS:
        for keys, sizes in ratios_of(library, "library", theirs, calls).items():
            blocks.setdefault(keys, (calls, {}))[1][theirs] = sizes
    title = "The library for C beside other ordered maps"
    below = "Time of a call and memory of an entry, divided by those of the other map: below the dashed line is better"
    (DOCS / "speed-bindings.svg").write_text(drawing(title, below, blocks), encoding="utf-8")
