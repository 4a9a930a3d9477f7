"""`artnodes find`: entries in random order, then as many queries and removals, half of them of keys of entries.

The keys are decimal numbers with zeros in front, words, and dotted addresses; the last two end with a byte of their
own, so that no key begins another. One more task has keys nested 10,000 levels deep. The answers are those of a
dictionary, and no query reads more nodes than its key has bytes and one.
"""

import string

from programs import Task

CRATE = "art_cli"
BESIDE = ""
SIZES = [10_000, 100_000, 1_000_000]
LEVELS = 10_000
DEEP_QUERIES = 1_000
# The larger tree is beyond the processor's cache.
MOST_GROWTH = 30


def decimal(rng):
    return f"{rng.randrange(10**10):010}"


def word(rng):
    return "".join(rng.choices(string.ascii_lowercase, k=rng.randrange(3, 13))) + "."


def address(rng):
    return ".".join(str(rng.randrange(256)) for _ in range(4)) + "/"


def keys_of(shape, count, rng):
    """So many different keys, in random order."""
    keys = set()
    while len(keys) < count:
        keys.add(shape(rng))
    keys = sorted(keys)
    rng.shuffle(keys)
    return keys


def half_present(shape, keys, rng):
    """As many keys as these, about half of them among these."""
    present = rng.choices(keys, k=len(keys) // 2)
    drawn = present + [shape(rng) for _ in range(len(keys) - len(present))]
    rng.shuffle(drawn)
    return drawn


def nested_lines(rng):
    """Keys that each begin like the one before, but for its last byte, the longest first, and queries."""
    keys = ["a" * level + "b" for level in range(LEVELS, -1, -1)]
    queries = rng.choices(keys, k=DEEP_QUERIES // 2) + ["a" * LEVELS] * (DEEP_QUERIES // 2)
    return [f"+{key}" for key in keys] + [f"?{key}" for key in queries]


def is_right(line, answer, number):
    """Whether the answer to a query or a removal is the one due, by the number of the key's entry."""
    key = line[1:]
    if line[0] == "-":
        return answer == ("absent" if number is None else f"removed {number}")
    found, reads = answer.rsplit(" reads ", 1)
    due = found == "none" if number is None else found.startswith(f"found {number} ")
    return due and int(reads) <= len(key) + 1


def fault_of(lines, output):
    """The first answer that differs from a dictionary's, if one does."""
    numbers = {}
    count = 0
    answers = iter(output.splitlines())
    for line in lines:
        key = line[1:]
        if line[0] == "+":
            numbers[key] = count
            count += 1
            continue
        answer = next(answers, "nothing")
        if answer == "nothing" or not is_right(line, answer, numbers.get(key)):
            return f"the answer to {line[:40]} is {answer}"
        if line[0] == "-":
            numbers.pop(key, None)
    return "there are more answers than questions" if next(answers, None) else None


def task_of(what, lines, most_growth=None):
    return Task(what, ["find", "16"], lines, fault=lambda output: fault_of(lines, output), most_growth=most_growth)


def tasks(rng, sizes):
    cases = [(decimal, size) for size in sizes] + [(word, sizes[-1]), (address, sizes[-1])]
    for shape, size in cases:
        keys = keys_of(shape, size, rng)
        lines = [f"+{key}" for key in keys]
        lines += [f"?{key}" for key in half_present(shape, keys, rng)]
        lines += [f"-{key}" for key in half_present(shape, keys, rng)]
        yield task_of(f"{size:,} {shape.__name__} keys", lines, MOST_GROWTH)
    yield task_of(f"keys nested {LEVELS:,} levels deep", nested_lines(rng))
