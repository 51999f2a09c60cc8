"""The files that are packed: library for C, programs, manual, completions, Python and documents."""
from __future__ import annotations

import re
import shutil
import time
from dataclasses import dataclass
from pathlib import Path

from packages import completion, manual
from packages.checkout import FQSIM, MALTLINK, Checkout, Missing, gate_text, run
from packages.tree import Tree

TRIPLET = "x86_64-linux-gnu"
# Sections that nothing reads as a program runs.
NEEDLESS = ("--remove-section=.comment", "--remove-section=.note")
NO_LICENCE = """No licence was chosen for Maltcove yet, and nothing in this package is one.

Copyright (C) 2026 the Maltcove maintainers. Ask them before you copy, change or pass on any of it.
"""
# The package of Debian that has a shared library.
LIBRARIES = {"libc.so.6": "libc6", "libm.so.6": "libc6", "libpthread.so.0": "libc6", "ld-linux-x86-64.so.2": "libc6",
             "libgcc_s.so.1": "libgcc-s1"}


@dataclass
class Staged:
    """What packages and archive are made of, in a folder that ends with the script."""

    checkout: Checkout
    room: Path
    gate: str
    pages: dict[str, str]
    completions: dict[str, str]

    def program(self, name: str) -> Path:
        """A program without symbols."""
        return self.room / name

    def installed(self, libdir: str) -> Path:
        """The folder of an install of the library for C below /usr, with its libraries in that folder."""
        there = self.room / "installed" / libdir.replace("/", "_")
        if not there.exists():
            run("make", "-s", "-C", str(self.room / "c"), "RT=false", "install", f"DESTDIR={there}", "PREFIX=/usr",
                f"LIBDIR={libdir}")
            for library in sorted((there / libdir.lstrip("/")).glob("libmaltcove.*")):
                if not library.is_symlink():
                    strip(library, "--strip-debug" if library.suffix == ".a" else "--strip-unneeded")
        return there


def strip(path: Path, how: str) -> None:
    """Takes symbols and needless sections off a program or a library, in place."""
    run("strip", how, *NEEDLESS, "--enable-deterministic-archives", str(path))


def alone(checkout: Checkout, room: Path) -> None:
    """A copy of c/ without the sources of the proved library, so that an install takes what was built."""
    (room / "c" / "build").mkdir(parents=True)
    for path in [*checkout.path("c").glob("maltcove*"), checkout.path("c/Makefile")]:
        shutil.copy2(path, room / "c")
    for path in checkout.path("c/build").glob("libmaltcove.*"):
        shutil.copy2(path, room / "c" / "build", follow_symlinks=False)


def stage(checkout: Checkout, room: Path, log: Path | None) -> Staged:
    """Makes all that goes into packages and archive."""
    fqsim, maltlink = checkout.path(FQSIM), checkout.path(MALTLINK)
    alone(checkout, room)
    for name, source in (("fqsim", fqsim), ("maltlink", maltlink)):
        shutil.copy(source, room / name)
        (room / name).chmod(0o755)
        strip(room / name, "--strip-all")
    edition = manual.Edition(time.strftime("%Y-%m-%d", time.gmtime(checkout.epoch)), checkout.version)
    pages = manual.pages(fqsim, maltlink, checkout.text("c/maltcove.h"), edition)
    return Staged(checkout, room, gate_text(checkout, log), pages, completion.completions(fqsim, maltlink))


def put_documents(tree: Tree, staged: Staged, folder: str) -> None:
    """Adds the pages of docs/, and examples of a trace and of arrivals."""
    checkout = staged.checkout
    for path in sorted([*checkout.path("docs").glob("*.md"), *checkout.path("docs").glob("*.svg")]):
        tree.copy(f"{folder}/docs/{path.name}", path)
    tree.copy(f"{folder}/SECURITY.md", checkout.path("SECURITY.md"))
    for name in ("closing", "closing.args", "closing.stdout", "hashed", "hashed.args", "hashed.stdout"):
        tree.copy(f"{folder}/examples/{name}", checkout.path(f"examples/{name}"))
    for name in ("small.csv", "small_delays.csv", "small_flows.args", "small_flows.out"):
        tree.copy(f"{folder}/examples/{name}", checkout.path(f"vectors/link/{name}"))


def put_c_examples(tree: Tree, checkout: Checkout, folder: str) -> None:
    """Adds the examples in C and C++, and what they print."""
    for path in sorted(checkout.path("c/examples").iterdir()):
        tree.copy(f"{folder}/{path.name}", path)


def put_python_examples(tree: Tree, checkout: Checkout, folder: str) -> None:
    """Adds the examples in Python."""
    for path in sorted(checkout.path("python/examples").glob("*.*")):
        tree.copy(f"{folder}/{path.name}", path, path.suffix == ".sh")


def archive_tree(staged: Staged) -> Tree:
    """The archive: a folder that runs wherever it is unpacked."""
    tree, checkout = Tree(), staged.checkout
    for name in ("fqsim", "maltlink"):
        tree.copy(f"bin/{name}", staged.program(name), True)
    tree.take(staged.installed("/usr/lib"), "usr", "")
    for name, text in staged.pages.items():
        tree.put(f"share/man/man{name[-1]}/{name}", text)
    for name, text in staged.completions.items():
        tree.put(f"share/bash-completion/completions/{name}", text)
    put_documents(tree, staged, "share/doc/maltcove")
    put_c_examples(tree, checkout, "share/doc/maltcove/examples")
    put_python_examples(tree, checkout, "share/doc/maltcove/examples")
    for name in ("maltcove.py", "py.typed"):
        tree.copy(f"python/{name}", checkout.path(f"python/{name}"))
    for name in ("VERSION", "CHANGELOG.md"):
        tree.copy(name, checkout.path(name))
    tree.copy("README.md", checkout.path("tools/packages/README.md"))
    tree.put("NO-LICENCE.txt", NO_LICENCE)
    tree.put("GATE.txt", staged.gate)
    return tree


def needed(*files: Path) -> str:
    """What of Debian these programs and libraries need, as a field Depends has it. The libraries' versions are those of
    the newest symbols that they name.
    """
    packages: dict[str, tuple[int, ...]] = {}
    for file in files:
        told = run("objdump", "-p", str(file))
        for library in re.findall(r"^  NEEDED +(\S+)$", told, re.M):
            if library not in LIBRARIES:
                raise Missing(f"{file.name} needs {library}, which LIBRARIES in tools/packages/stage.py hasn't")
            packages.setdefault(LIBRARIES[library], (2, 2, 5))
        versions = [tuple(map(int, found.split("."))) for found in re.findall(r" GLIBC_([0-9.]+)$", told, re.M)]
        if versions:
            packages["libc6"] = max(*versions, packages.get("libc6", (2, 2, 5)))
    return ", ".join(f"{name} (>= {'.'.join(map(str, version))})" if name == "libc6" else name
                     for name, version in sorted(packages.items()))
