"""`words` beside a sorted list of Python: words of 1 to 12 letters, with repeats, and queries of each kind by prefixes
of words and other words.
"""

import bisect
import string

from programs import Task

CRATE = "words"
BESIDE = "`bisect`"
SIZES = [100_000, 1_000_000]


def made_word(rng):
    return "".join(rng.choices(string.ascii_lowercase, k=rng.randrange(1, 13)))


def made_query(rng, words):
    word = rng.choice(words) if rng.random() < 0.5 else made_word(rng)
    prefix = word[: rng.randrange(2, 5)]
    return rng.choice([f"?{prefix} {rng.randrange(10)}", f"#{prefix}", f"<{word}", f">{word}"])


def answers(words, queries):
    """What `bisect` finds in the sorted list of the words."""
    ordered = sorted(set(words))
    yield f"{len(ordered)} words in {len(words)} lines"
    for query in queries:
        text = query[1:].split(" ")[0]
        start = bisect.bisect_left(ordered, text)
        if query[0] in "?#":
            end = bisect.bisect_left(ordered, text + "\x7f")
            if query[0] == "#":
                yield str(end - start)
            else:
                yield from ordered[start : min(end, start + int(query.split(" ")[1]))]
        elif query[0] == "<":
            yield ordered[start - 1] if start > 0 else "none"
        else:
            after = bisect.bisect_right(ordered, text)
            yield ordered[after] if after < len(ordered) else "none"


def tasks(rng, sizes):
    for size in sizes:
        words = [made_word(rng) for _ in range(size)]
        queries = [made_query(rng, words) for _ in range(size)]
        yield Task(f"{size:,} words and queries", [], queries, lambda w=words, q=queries: answers(w, q), table=words)
