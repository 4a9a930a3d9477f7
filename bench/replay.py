"""`artnodes replay`: commands that fill a node and empty it again, in turn, through every kind of node."""

from programs import Task

CRATE = "art_cli"
BESIDE = ""
SIZES = [10_000, 100_000, 1_000_000]
DIFFERENT_BYTES = 256  # how many bytes the writes choose from
MOST_GROWTH = 12
MOST_MEMORY = 20


def bound(rng):
    kind = rng.choice("ieu")
    return kind if kind == "u" else f"{kind}{rng.randrange(256)}"


def command_lines(count, rng):
    choices = rng.sample(range(256), DIFFERENT_BYTES)
    lines = []
    for number in range(count):
        is_growing = number // (8 * DIFFERENT_BYTES) % 2 == 0
        writes, removals = (54, 1) if is_growing else (0, 55)
        what = rng.choices(["w", "r", "l", "min", "max", "range"], [writes, removals, 25, 7, 7, 6])[0]
        if what == "w":
            lines.append(f"w {rng.choice(choices)} {rng.randrange(2**32)}")
        elif what in ("r", "l"):
            lines.append(f"{what} {rng.choice(choices)}")
        elif what == "range":
            lines.append(f"range {bound(rng)} {bound(rng)}")
        else:
            lines.append(what)
    return lines


def range_answer(children, low, high):
    """The pairs within two bounds, each a kind and, where it has one, a number."""
    (low_kind, start), (high_kind, end) = ((it[0], int(it[1:] or 0)) for it in (low, high))
    if "u" not in (low_kind, high_kind) and (start > end or (start == end and low_kind == high_kind == "e")):
        return "invalid bounds"
    before = -1 if low_kind == "u" else start - (low_kind == "i")
    after = 256 if high_kind == "u" else end + (high_kind == "i")
    return "".join(["pairs", *(f" {byte}:{children[byte]}" for byte in sorted(children) if before < byte < after)])


def answers(lines):
    """The answers of a dictionary."""
    children = {}
    for line in lines:
        what, *words = line.split(" ")
        if what in ("w", "r", "l"):
            byte = int(words[0])
            yield f"child {children.get(byte, 'none')}"
            if what == "w":
                children[byte] = int(words[1])
            elif what == "r":
                children.pop(byte, None)
        elif what == "range":
            yield range_answer(children, *words)
        elif not children:
            yield "pair none"
        else:
            byte = min(children) if what == "min" else max(children)
            yield f"pair {byte} {children[byte]}"
    kind = next(most for most in (4, 16, 48, 256) if len(children) <= most)
    yield f"node Node{kind} {len(children)}"


def tasks(rng, sizes):
    for size in sizes:
        lines = command_lines(size, rng)
        what = f"{size:,} commands"
        yield Task(what, ["replay"], lines, lambda lines=lines: answers(lines), most_growth=MOST_GROWTH, most_memory=MOST_MEMORY)
