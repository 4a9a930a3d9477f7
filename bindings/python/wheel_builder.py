"""Makes the wheel of verified_art, with the library inside: what `pip install` of this folder runs. It needs no other
backend, but a C compiler (`cc`, or what CC says) and the header of Python, and takes the library that `bindings/library`
names. The module is compiled for the limited interface of CPython 3.10, so that one wheel serves each later one."""

import base64
import hashlib
import os
import re
import shlex
import shutil
import subprocess
import sys
import sysconfig
import tempfile
import zipfile
from pathlib import Path

HERE = Path(__file__).resolve().parent
PROJECT = dict(re.findall(r'^([\w-]+) = "(.*)"$', (HERE / "pyproject.toml").read_text(), re.MULTILINE))
# The library needs no symbol of the C library that is newer than glibc 2.17 has.
TAG = "cp310-abi3-manylinux_2_17_x86_64"
WHEEL = f"{PROJECT['name']}-{PROJECT['version']}-{TAG}.whl"

# What is seen of the module is its start alone; it names no path, and nothing in it is writable that need not be.
FLAGS = ["-std=c11", "-O2", "-fPIC", "-fvisibility=hidden", "-shared", "-s", "-Wl,--exclude-libs,ALL", "-Wl,--build-id=none"]
FLAGS += ["-Wl,-z,relro,-z,now,-z,noexecstack"]
COMPILER = shlex.split(os.environ.get("CC") or "cc")


def packaged(page, places={}):
    """A page as a package has it: of its links to files those to these places in the package alone."""

    def link(found):
        text, target = found.groups()
        if re.match(r"https?:|#", target):
            return found[0]
        return f"[{text}]({places[target]})" if target in places else text

    return re.sub(r"\[([^\]]*)\]\(([^)\s]+)\)", link, page)


class NotMade(Exception):
    """Why there can be no wheel, in a sentence."""


def _not_compiled(why, needed):
    return NotMade(f"verified_art cannot be compiled, since {why}: install {needed}, or {WHEEL}, which needs no compiler")


def library():
    """The folder with the library."""
    found = subprocess.run([HERE.parent / "library"], capture_output=True, text=True, check=False)
    if found.returncode != 0:
        raise NotMade(found.stderr.strip())
    return Path(found.stdout.strip())


def compiled(folder):
    """The module in C over libart.a of a folder, by its file's name."""
    headers = Path(sysconfig.get_path("include"))
    if not shutil.which(COMPILER[0]):
        raise _not_compiled(f"there is no {COMPILER[0]}", "a C compiler (Debian: gcc)")
    if not (headers / "Python.h").is_file():
        raise _not_compiled(f"there is no {headers}/Python.h", "the headers of Python (Debian: python3-dev)")
    with tempfile.TemporaryDirectory() as room:
        made = Path(room, "_in_c.abi3.so")
        source, archive = HERE / PROJECT["name"] / "_in_c.c", folder / "libart.a"
        run = subprocess.run([*COMPILER, *FLAGS, f"-I{headers}", f"-I{HERE.parent / 'c'}", source, archive, "-o", made], check=False)
        if run.returncode != 0:
            raise _not_compiled(f"{COMPILER[0]} fails", "a C compiler that works (Debian: gcc)")
        return {made.name: made.read_bytes()}


def _contents():
    """The files of the wheel, but for the list of them."""
    name, version = PROJECT["name"], PROJECT["version"]
    information = f"{name}-{version}.dist-info"
    metadata = [
        "Metadata-Version: 2.1",
        f"Name: {name}",
        f"Version: {version}",
        f"Summary: {PROJECT['description']}",
        f"Requires-Python: {PROJECT['requires-python']}",
        "License: MIT OR Apache-2.0",
        "Description-Content-Type: text/markdown",
        "",
        packaged((HERE / "README.md").read_text()),
    ]
    module = HERE / name
    files = {f"{name}/{it.name}": it.read_bytes() for it in sorted(module.iterdir()) if it.suffix in (".py", ".pyi", ".typed")}
    files |= {f"{name}/{it}": content for it, content in compiled(library()).items()}
    files[f"{information}/METADATA"] = "\n".join(metadata).encode()
    files[f"{information}/WHEEL"] = f"Wheel-Version: 1.0\nGenerator: art-nodes\nRoot-Is-Purelib: false\nTag: {TAG}\n".encode()
    for licence in ("LICENSE-APACHE", "LICENSE-MIT"):
        files[f"{information}/licenses/{licence}"] = (HERE.parent.parent / licence).read_bytes()
    return information, files


def write_wheel(folder):
    """Writes the wheel to a folder, the same bytes each time."""
    information, files = _contents()
    record = ""
    for name, content in files.items():
        digest = base64.urlsafe_b64encode(hashlib.sha256(content).digest()).rstrip(b"=").decode()
        record += f"{name},sha256={digest},{len(content)}\n"
    files[f"{information}/RECORD"] = f"{record}{information}/RECORD,,\n".encode()
    with zipfile.ZipFile(Path(folder, WHEEL), "w", zipfile.ZIP_DEFLATED) as archive:
        for name, content in files.items():
            entry = zipfile.ZipInfo(name)
            entry.compress_type, entry.external_attr = zipfile.ZIP_DEFLATED, 0o100644 << 16
            archive.writestr(entry, content)


def build_wheel(wheel_directory, config_settings=None, metadata_directory=None):
    """The call of a build backend: writes the wheel and returns its name."""
    try:
        write_wheel(wheel_directory)
    except NotMade as why:
        sys.exit(str(why))
    return WHEEL
