"""The trials of mutants, and the file of a crate that keeps their results."""
import re
import shutil
import subprocess
import tempfile
from functools import cache
from pathlib import Path

from trying.sums import pairs_of, texts_after

HEAD = "# What the prover says of each mutant, with the sum of what its trial rests on. Written by scripts/mutants --try.\n"
# A message of the prover at a place of a file, and the goal that it names.
TOLD = re.compile(r"^(?:note: )?(?:\./)?((?:src|specs|proofs)/\S+?):\d+:\d+: (.*)$", re.MULTILINE)
GOAL = re.compile(r"\(`([^`]+)`\)|^error: `([^`]+)`: ")
NAMES_ALONE = re.compile(r"has no field|is not in scope|has no `|was not admitted")
UNREAD = re.compile(r"is not in scope|has no field|is no name|operand is missing|expected the end|cannot continue")
UNPROVED = re.compile(r"^(?:fn|impl) (\S+): (?!proved$|proved where |no proof: it calls|not proved; it waits for)", re.MULTILINE)


@cache
def kit():
    """The kit, and the part of its name that tells the logic."""
    said = subprocess.run(["rt", "version"], capture_output=True, text=True, check=True).stdout.strip()
    return said, logic_of(said)


def logic_of(said):
    return said.partition(" logic ")[2]


# ---- the file of results


def results_of(folder):
    """The kit, the sum and what was said of each mutant, by its name; None where the crate has no file of results."""
    file = folder / "mutants" / "RESULTS"
    if not file.is_file():
        return None
    results, named = {}, ""
    for line in file.read_text(encoding="utf-8").splitlines():
        if line.startswith("kit "):
            named = line.removeprefix("kit ")
        elif line and not line.startswith("#"):
            name, sum_, said = line.split(" ", 2)
            results[name] = named, sum_, said
    return results


def write_results(folder, results):
    text = [HEAD]
    for named in sorted({it[0] for it in results.values()}):
        text.append(f"kit {named}\n")
        text += [f"{name} {sum_} {said}\n" for name, (by, sum_, said) in sorted(results.items()) if by == named]
    (folder / "mutants" / "RESULTS").write_text("".join(text), encoding="utf-8")


def edits_of(folder):
    return sorted(folder.glob("mutants/*.edit"))


def is_current(result, sum_):
    """Whether a result is of this sum and of a kit with the same logic, and the mutant was refused."""
    return bool(result) and result[1] == sum_ and logic_of(result[0]) == kit()[1] and result[2].startswith("refused")


def due(sums, crate):
    """The crate's edits that have no result of what they rest on now."""
    folder = sums.repository.crate(crate).folder
    results = results_of(folder) or {}
    return [it for it in edits_of(folder) if not is_current(results.get(it.stem), sums.of(crate, it))]


# ---- a trial


def said_of(output, changed):
    """What the prover says of a mutant whose check fails: the function and the goal that it refuses."""
    if not re.search(r"^logic=not-proved", output, re.MULTILINE):
        return "not tried: the check did not reach the prover"
    told = TOLD.findall(output)
    for path, message in told:
        if message.startswith("error: ") and (path in changed or path.startswith(("src/", "specs/"))):
            labelled = GOAL.search(message)
            if not labelled or UNREAD.search(re.sub(r"`[^`]*`", "", message[labelled.end() :])):
                return f"not tried: the prover cannot read the edited text: {message[:160]}"
    places = ", ".join(dict.fromkeys(UNPROVED.findall(output)))
    goals = [(path, GOAL.search(message), message) for path, message in told]
    refusing = [it for it in goals if it[1] and not (it[0].startswith("proofs/") and NAMES_ALONE.search(it[2]))]
    if not refusing:
        return f"refused at {places}, where a proof names what the edit takes away" if places else "refused"
    goal = refusing[0][1][1] or refusing[0][1][2]
    return f"refused at {places or refusing[0][0]}: {goal}"


class Room:
    """A copy of a crate and of the libraries below it, with what their checks kept."""

    def __init__(self, sums, crate, place):
        self.repository, self.crate, self.place = sums.repository, crate, Path(place)
        self.folder = self.place / "crates" / crate
        needed = [*sums.below(crate), crate]
        shutil.copy(self.repository.top / "HANDLES", place)
        lines = (self.repository.top / "crates.txt").read_text(encoding="utf-8").splitlines(keepends=True)
        kept = [it for it in lines if it.partition(":")[0].split()[:1] and it.partition(":")[0].split()[0] in needed]
        (self.place / "crates.txt").write_text("".join(kept), encoding="utf-8")
        for name in needed:
            for part in ("src", "specs", "proofs", "out/rlib", *["out/incremental"] * (name == crate)):
                source = self.repository.crate(name).folder / part
                if source.is_dir():
                    shutil.copytree(source, self.place / "crates" / name / part)

    def check(self):
        words, together = ["rt", "check", "--jobs", "1"], {"stdout": subprocess.PIPE, "stderr": subprocess.STDOUT}
        return subprocess.run(words, cwd=self.folder, **together, text=True, errors="replace")

    def is_proved(self):
        return self.check().returncode == 0

    def trial(self, edit):
        """What the prover says of the crate with this edit."""
        texts = texts_after(pairs_of(edit), self.folder)
        if texts is None:
            return "not tried: the edit cannot be applied"
        before = {path: (self.folder / path).read_text(encoding="utf-8") for path in texts}
        self._write(texts)
        ran = self.check()
        self._write(before)
        return said_of(ran.stdout, texts) if ran.returncode else "NOT REFUSED: the crate is still proved"

    def _write(self, texts):
        for path, text in texts.items():
            (self.folder / path).write_text(text, encoding="utf-8")


def try_crate(sums, crate, chosen, say):
    """Tries the crate's mutants of these names, or those that are due, and keeps each result as it comes; returns how many are
    not refused."""
    folder = sums.repository.crate(crate).folder
    before = results_of(folder) or {}
    names = {it.stem for it in edits_of(folder)}
    tried = [it for it in edits_of(folder) if it.stem in chosen] if chosen else due(sums, crate)
    edits = {it: sums.of(crate, it) for it in tried}
    say(f"mutants: {crate}, {len(edits)} of {len(names)} mutants to be tried")
    results = {name: it for name, it in before.items() if name in names}
    with tempfile.TemporaryDirectory(prefix="mutants-") as place:
        room = Room(sums, crate, place)
        if edits and not room.is_proved():
            say(f"mutants: {crate} is not proved, so its mutants show nothing")
            return len(edits)
        for edit, sum_ in edits.items():
            said = room.trial(edit)
            say(f"{crate} {edit.stem}: {said}")
            results[edit.stem] = kit()[0], sum_, said
            write_results(folder, results)
        # What was kept of one mutant's check must not be what refuses the next.
        if edits and not room.is_proved():
            write_results(folder, {name: it for name, it in before.items() if name in names})
            say(f"mutants: {crate} is no longer proved in the copy, so these results do not count")
            return len(edits)
    write_results(folder, results)
    return sum(not it[2].startswith("refused") for it in results.values())
