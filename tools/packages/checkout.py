"""What a checkout has: its version, its commit, and what was built in it."""
from __future__ import annotations

import os
import re
import subprocess
from dataclasses import dataclass
from pathlib import Path

FQSIM = "crates/fqsim/out/fqsim"
MALTLINK = "crates/maltlink/out/maltlink"
PROVED_LIBRARY = "crates/maltcove_c/out/libmaltcove_c.a"
GATE_LOG = "dist/gate.log"
# What has to be built, and the command that builds it.
BUILT = {
    FQSIM: "'rt ci' at the top, or 'rt run' in crates/fqsim",
    MALTLINK: "'rt ci' at the top, or 'rt run' in crates/maltlink",
    PROVED_LIBRARY: "'make -C c'",
    "c/build/libmaltcove.a": "'make -C c'",
    "c/build/libmaltcove.so": "'make -C c'",
}


class Missing(Exception):
    """Something that the packages are made of isn't there. The text says what, and how to get it."""


def run(*words: str, folder: Path | None = None, text: str | None = None) -> str:
    """What a command prints, of which a failure ends the script with what it wrote."""
    ran = subprocess.run(words, cwd=folder, input=text, capture_output=True, text=True, check=False)
    if ran.returncode != 0:
        raise Missing(f"'{' '.join(words)}' failed with status {ran.returncode}:\n{ran.stdout}{ran.stderr}".rstrip())
    return ran.stdout


@dataclass(frozen=True)
class Checkout:
    """A checkout: its folder, VERSION, the commit, the time and the author of it, and whether files differ from it."""

    top: Path
    version: str
    commit: str
    epoch: int
    author: str
    is_clean: bool

    def path(self, name: str) -> Path:
        """A file of the checkout."""
        return self.top / name

    def text(self, name: str) -> str:
        """The text of a file of the checkout."""
        return self.path(name).read_text(encoding="utf-8")

    def toolchain(self) -> str:
        """The toolchain, as the built program names it."""
        said = run(str(self.path(MALTLINK)), "--version")
        found = re.fullmatch(r"maltlink (\S+)\nproved with (.+)\n", said)
        if not found or found[1] != self.version:
            raise Missing(f"{MALTLINK} --version prints {said!r}, and VERSION has {self.version}: build it anew")
        return found[2]


def read_checkout(top: Path) -> Checkout:
    """Reads what git and VERSION say. SOURCE_DATE_EPOCH, where it is set, is the time in place of the commit's."""
    def git(*words: str) -> str:
        return run("git", "--no-optional-locks", *words, folder=top).strip()
    commit, time, author = git("log", "-1", "--format=%H%n%ct%n%an <%ae>").split("\n")
    changed = git("status", "--porcelain", "--untracked-files=normal")
    return Checkout(top=top, version=(top / "VERSION").read_text(encoding="utf-8").strip(), commit=commit,
                    epoch=int(os.environ.get("SOURCE_DATE_EPOCH", time)), author=author, is_clean=not changed)


def check_built(checkout: Checkout) -> None:
    """Raises Missing where something isn't built, or the library for C isn't of the sources that are here."""
    missing = [f"no {name}: {command} builds it" for name, command in BUILT.items() if not checkout.path(name).exists()]
    if missing:
        raise Missing("\n".join(missing))
    asked = subprocess.run(["make", "-q", "-C", str(checkout.path("c"))], capture_output=True, text=True, check=False)
    if asked.returncode != 0:
        raise Missing(f"c/build isn't what the sources make: 'make -C c' builds it anew\n{asked.stderr}".rstrip())


def gate_text(checkout: Checkout, log: Path | None) -> str:
    """What the packages say of the gate: the end of its log, or that none was given. That of another commit is none."""
    if log is None and checkout.path(GATE_LOG).exists():
        log = checkout.path(GATE_LOG)
    if log is None:
        return (f"Built from commit {checkout.commit}, without a log of its gate.\n\n"
                "So nothing in this package shows that the proofs and tests of that commit passed.\n")
    lines = log.read_text(encoding="utf-8", errors="replace").splitlines()
    if f"commit {checkout.commit}" not in lines:
        raise Missing(f"{log} isn't the log of commit {checkout.commit}: '.ci/run' writes it, or remove the file")
    if not lines or lines[-1] != "the gate passed":
        raise Missing(f"the last line of {log} isn't 'the gate passed': run '.ci/run', or remove the file")
    state = "" if checkout.is_clean else "Files of the checkout have been changed since that commit.\n"
    return f"The end of the log of the gate, .ci/run:\n{state}\n" + "\n".join(lines) + "\n"
