"""What all benches share: building, and the tables in documents."""

import datetime
import hashlib
import os
import pathlib
import re
import shutil
import subprocess
import sys
import tempfile

REPOSITORY = pathlib.Path(__file__).resolve().parent.parent
RUNS = 7


def say(text):
    print(f"bench: {text}", file=sys.stderr, flush=True)


def fail(text):
    sys.exit(f"bench: {text}")


def built(crate):
    """The program of a crate, proved and built where no proved one is there, or a source has changed."""
    if subprocess.run([REPOSITORY / "prove", crate], stdin=subprocess.DEVNULL, stdout=subprocess.DEVNULL).returncode != 0:
        fail(f"there is no proved program {crate} to measure")
    return REPOSITORY / "crates" / crate / "out" / crate


def sources_of(program):
    """A sum of all that a program of bench/ is built from."""
    folders = [REPOSITORY / "bench" / program, *REPOSITORY.glob("crates/*/src"), *REPOSITORY.glob("crates/*/specs")]
    files = [REPOSITORY / "crates.txt", *sorted(it for folder in folders for it in folder.rglob("*") if it.is_file())]
    sum_ = hashlib.sha256(subprocess.run(["rt", "version"], stdout=subprocess.PIPE, check=True).stdout)
    for file in files:
        sum_.update(str(file.relative_to(REPOSITORY)).encode() + file.read_bytes())
    return sum_.hexdigest()


def built_of_bench(program):
    """A program of bench/, proved and built as a crate of a copy of the repository, and kept in bench/out."""
    kept, mark = (REPOSITORY / "bench" / "out" / it for it in (program, f"{program}.sources"))
    sources = sources_of(program)
    if kept.is_file() and mark.is_file() and mark.read_text() == sources:
        return kept
    line = (REPOSITORY / "bench" / program / "crate_line.txt").read_text()
    for library in line.partition(":")[2].split():
        say(f"proving {library}, where that is not done")
        if subprocess.run(["rt", "lib"], cwd=REPOSITORY / "crates" / library, stdout=subprocess.DEVNULL).returncode != 0:
            fail(f"{library} is not proved")
    say(f"proving and building {program}")
    with tempfile.TemporaryDirectory() as place:
        room = pathlib.Path(place)
        for file in ("crates.txt", "HANDLES"):
            shutil.copy2(REPOSITORY / file, room)
        left_out = shutil.ignore_patterns("incremental", "mutants", "must-fail")
        shutil.copytree(REPOSITORY / "crates", room / "crates", ignore=left_out)
        subprocess.run(["git", "init", "-q", room], check=True)
        subprocess.run([REPOSITORY / "scripts" / "lay_out_program", REPOSITORY / "bench" / program, room], check=True)
        crate = room / "crates" / program
        words = ["rt", "run", "--", *(crate / "args").read_text().splitlines()]
        ran = subprocess.run(words, cwd=crate, stdin=subprocess.DEVNULL, capture_output=True, text=True)
        if ran.returncode != 0 or not (crate / "out" / program).is_file():
            fail(f"{program} could not be proved and built: {(ran.stdout + ran.stderr)[-600:]}")
        kept.parent.mkdir(exist_ok=True)
        shutil.copy2(crate / "out" / program, kept)
    mark.write_text(sources)
    return kept


def built_library():
    """The folder with the library for C of these sources."""
    found = subprocess.run([REPOSITORY / "bindings" / "library"], stdout=subprocess.PIPE, text=True)
    if found.returncode != 0:
        fail("there is no libart.a of these sources")
    return pathlib.Path(found.stdout.strip())


def table_of(rows):
    """Rows of cells as a table, the first row its head."""
    head, *others = ([cell.replace("|", r"\|") for cell in row] for row in rows)
    lines = [head, ["---"] * len(head), *others]
    return "\n".join(f"|{'|'.join(line)}|" for line in lines)


def place_and_time():
    """Where and when this is measured."""
    model = re.search(r"^model name\s*: (.*)", pathlib.Path("/proc/cpuinfo").read_text(), re.MULTILINE)
    today = f"{datetime.date.today():%-d %B %Y}"
    return f"{today}, {os.cpu_count()} virtual processors ({model[1].strip() if model else 'unknown'})"


def marks_of(name):
    return f"<!-- written by bench/run --write: {name} -->", f"<!-- end of {name} -->"


def replace_marked(path, name, inside):
    begin, end = marks_of(name)
    before, rest = path.read_text(encoding="utf-8").split(begin)
    _, after = rest.split(end)
    path.write_text(f"{before}{begin}\n\n{inside}\n\n{end}{after}", encoding="utf-8")
