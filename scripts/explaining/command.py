"""The command line of `./explain`."""
import difflib
import sys
from pathlib import Path

from explaining.calls import calls_of
from explaining.closure import Explorer
from explaining.page import Page, as_html, as_text
from explaining.repository import Repository

TOP = Path(__file__).resolve().parents[2]


class Refused(Exception):
    """What is wrong with the words of the command line."""


def main(words, usage):
    if not words or words[0] in ("--help", "-h"):
        print(usage)
        return 0 if words else 2
    try:
        run(Repository(TOP), words, usage)
    except Refused as fault:
        print(f"explain: {fault}", file=sys.stderr)
        return 1
    except BrokenPipeError:
        sys.stderr.close()
    return 0


def run(repository, words, usage):
    match words:
        case ["--list"]:
            print_calls(repository, libraries(repository))
        case ["--list", crate] | [crate] if not crate.startswith("-"):
            print_calls(repository, [known_crate(repository, crate)])
        case ["--definitions"]:
            print_words(repository, libraries(repository))
        case ["--definitions", crate] if crate in repository.crates:
            print_words(repository, [crate])
        case ["--definitions", word]:
            print(as_text(page_of_word(repository, word)))
        case ["--lines", crate, call]:
            page = page_of_call(repository, crate, call)
            print(page.definitions, page.lines)
        case ["--html", file, crate, call]:
            Path(file).write_text(as_html(page_of_call(repository, crate, call)), encoding="utf-8")
        case [crate, call] if not crate.startswith("-"):
            print(as_text(page_of_call(repository, crate, call)))
        case _:
            raise Refused(f"these words make no call\n\n{usage}")


def libraries(repository):
    """The crates that are no tests."""
    return [it for it in repository.crates if not it.endswith("_tests") and it != "art_strangers"]


def known_crate(repository, name):
    if name not in repository.crates:
        raise Refused(f"no crate {name}{nearest(name, repository.crates)}")
    return name


def nearest(name, names):
    near = difflib.get_close_matches(name, names, 3, 0.5)
    return f"; nearest: {', '.join(near)}" if near else ""


def page_of_call(repository, crate, name):
    call = chosen(repository, known_crate(repository, crate), name)
    return Page(repository, f"{crate} {call.name}", Explorer(repository).call(call)).with_call(call)


def chosen(repository, crate, name):
    calls = calls_of(repository, crate)
    fitting = [it for it in calls if it.name == name] or [it for it in calls if it.fits(name)]
    if len(fitting) == 1:
        return fitting[0].by_alias(repository, name)
    if fitting:
        ways = "\n".join(f"    ./explain {crate} {quoted(it.name)}" for it in fitting)
        raise Refused(f"{name} is the name of {len(fitting)} calls:\n{ways}")
    elsewhere = [it for below in crates_below(repository, crate) for it in calls_of(repository, below) if it.fits(name)]
    if elsewhere:
        ways = "\n".join(f"    ./explain {it.crate} {quoted(it.name)}" for it in elsewhere)
        raise Refused(f"{crate} has no call {name} of its own, but:\n{ways}")
    whole = [it for call in calls for it in call.names]
    ends = {it.rsplit("::", 1)[-1]: it for it in whole}
    near = difflib.get_close_matches(name, whole, 3, 0.5)
    near = near or [ends[it] for it in difflib.get_close_matches(name, list(ends), 3, 0.5)]
    raise Refused(f"{crate} has no call {name}" + (f"; nearest: {', '.join(near)}" if near else ""))


def crates_below(repository, crate):
    """The crates of the repository that this one builds on, nearest first."""
    found, left = [], list(repository.crates[crate])
    while left:
        below = left.pop(0)
        if below in repository.crates and below not in found:
            found.append(below)
            left.extend(repository.crates[below])
    return found


def quoted(name):
    return f"'{name}'" if any(it in name for it in "<>[]& '") else name


def print_calls(repository, crates):
    for crate in crates:
        for call in calls_of(repository, crate):
            print(crate, call.name)


def definitions_of(repository, crates):
    for crate in crates:
        for module in repository.modules_of(crate):
            for definition in module.definitions.values():
                if definition.kind != "lemma":
                    yield definition


def page_of_word(repository, word):
    module, _, name = word.rpartition(".")
    every = list(definitions_of(repository, repository.crates))
    found = [it for it in every if it.name == name and it.module.path.endswith(module)]
    if not found:
        names = {it.name for it in every}
        raise Refused(f"no word {word} in specs/{nearest(word, names)}")
    return Page(repository, word, Explorer(repository).words(found))


def print_words(repository, crates):
    shown = None
    for definition in definitions_of(repository, crates):
        module = definition.module
        if module is not shown:
            print(f"\n{module.path.removeprefix('Rattle.')}: {module.title()}")
            shown = module
        print(f"    {definition.name}: {definition.comment}")
