"""The Debian packages: maltcove, libmaltcove0, libmaltcove-dev and python3-maltcove."""
from __future__ import annotations

import hashlib
import os
import re
import shutil
import subprocess
import time
from dataclasses import dataclass, field
from pathlib import Path

from packages import manual
from packages.checkout import Checkout, Missing, run
from packages.stage import NO_LICENCE, TRIPLET, Staged, needed, put_c_examples, put_documents, put_python_examples
from packages.tree import Tree, packed

REVISION = "1"
LIBDIR = f"/usr/lib/{TRIPLET}"
SYMBOLS = "tools/packages/libmaltcove0.symbols"
# As dh_python3 writes them: byte code is made where there is Python, and goes with the package.
COMPILE = """#!/bin/sh
set -e
if command -v py3compile >/dev/null 2>&1; then
	py3compile -p python3-maltcove
fi
"""
CLEAN = """#!/bin/sh
set -e
if command -v py3clean >/dev/null 2>&1; then
	py3clean -p python3-maltcove
else
	rm -f /usr/lib/python3/dist-packages/__pycache__/maltcove.*.pyc
fi
"""


@dataclass
class Package:
    """A package: its fields beside those that all have, its files, and the files of its DEBIAN folder."""

    name: str
    fields: dict[str, str]
    summary: str
    text: str
    tree: Tree = field(default_factory=Tree)
    control: dict[str, str] = field(default_factory=dict)

    def documents(self) -> str:
        """The folder of its documents."""
        return f"usr/share/doc/{self.name}"


def debian_version(checkout: Checkout) -> str:
    """The version of the packages."""
    return f"{checkout.version}-{REVISION}"


def changelog(checkout: Checkout) -> str:
    """Debian's changelog. What changed for users stands in CHANGELOG.md, which is beside it as changelog.gz."""
    date = time.strftime("%a, %d %b %Y %H:%M:%S +0000", time.gmtime(checkout.epoch))
    return (f"maltcove ({debian_version(checkout)}) unstable; urgency=medium\n\n"
            f"  * Release {checkout.version}, from commit {checkout.commit[:12]}; changelog.gz says what it has.\n\n"
            f" -- {checkout.author}  {date}\n")


def exported(library: Path) -> list[str]:
    """The symbols that a shared library defines, in order."""
    return sorted(re.findall(r"^\S+ [TDBRW] (\S+)$", run("nm", "-D", "--defined-only", str(library)), re.M))


def symbols(checkout: Checkout, library: Path) -> str:
    """The file of symbols, which names the version that each call came with. It has to have the library's symbols."""
    text = checkout.text(SYMBOLS)
    soname = re.search(r"^  SONAME +(\S+)$", run("objdump", "-p", str(library)), re.M)
    if not soname or not text.startswith(soname[1] + " libmaltcove0 "):
        raise Missing(f"the library's soname isn't that of {SYMBOLS}: docs/ABI.md says what a new one needs")
    named = sorted(re.findall(r"^ (\w+)@Base ", text, re.M))
    if named != exported(library):
        differ = sorted(set(named) ^ set(exported(library)))
        raise Missing(f"{SYMBOLS} hasn't the symbols that the library defines; these differ: {' '.join(differ)}")
    return text


def programs(staged: Staged) -> Package:
    """The package maltcove: the programs, their pages and completions."""
    files = [staged.program(name) for name in ("fqsim", "maltlink")]
    package = Package(
        "maltcove", {"Architecture": "amd64", "Section": "net", "Depends": needed(*files)},
        "FQ-CoDel packet scheduler: run traces and simulate a bottleneck link",
        "Maltcove is a packet scheduler with the behaviour of FQ-CoDel (RFC 8290),\n"
        "whose contracts were checked by a prover. This package has two programs.\n\n"
        "fqsim runs a trace of packets through the scheduler, and reports what became\n"
        "of each one. maltlink runs arrivals through a bottleneck link behind it, and\n"
        "writes tables of delays, drops and marks, or a picture.")
    for file in files:
        package.tree.copy(f"usr/bin/{file.name}", file, True)
        package.tree.put(f"usr/share/man/man1/{file.name}.1.gz", packed(staged.pages[f"{file.name}.1"]))
        package.tree.put(f"usr/share/bash-completion/completions/{file.name}", staged.completions[file.name])
    put_documents(package.tree, staged, package.documents())
    return package


def shared_library(staged: Staged) -> Package:
    """The package libmaltcove0: the shared library."""
    checkout, there = staged.checkout, staged.installed(LIBDIR)
    library = there / LIBDIR.lstrip("/") / f"libmaltcove.so.{checkout.version}"
    package = Package(
        "libmaltcove0", {"Architecture": "amd64", "Section": "libs", "Multi-Arch": "same", "Depends": needed(library)},
        "FQ-CoDel packet scheduler: shared library",
        "Maltcove is a packet scheduler with the behaviour of FQ-CoDel (RFC 8290),\n"
        "whose contracts were checked by a prover. It decides which packet goes next,\n"
        "which one is dropped and which one is marked, and keeps no packet itself.\n\n"
        "This package has the shared library that programs in C, C++ and Python use.")
    package.tree.copy(f"{LIBDIR[1:]}/{library.name}", library)
    package.tree.link(f"{LIBDIR[1:]}/libmaltcove.so.0", library.name)
    package.control = {"shlibs": f"libmaltcove 0 libmaltcove0 (>= {checkout.version})\n",
                       "symbols": symbols(checkout, library), "triggers": "activate-noawait ldconfig\n"}
    return package


def development(staged: Staged) -> Package:
    """The package libmaltcove-dev: the header, the archive, and what pkg-config and CMake read."""
    checkout = staged.checkout
    package = Package(
        "libmaltcove-dev", {"Architecture": "amd64", "Section": "libdevel", "Multi-Arch": "same",
                            "Depends": f"libmaltcove0 (= {debian_version(checkout)})", "Recommends": "libc6-dev"},
        "FQ-CoDel packet scheduler: header and libraries for programs in C",
        "Maltcove is a packet scheduler with the behaviour of FQ-CoDel (RFC 8290),\n"
        "whose contracts were checked by a prover.\n\n"
        "This package has the header, the static library, the files by which\n"
        "pkg-config and CMake find both, the page maltcove(3), and examples.")
    package.tree.take(staged.installed(LIBDIR), "usr", "usr/")
    for name in [name for name in [*package.tree.files, *package.tree.links] if re.search(r"/libmaltcove\.so\.", name)]:
        package.tree.files.pop(name, None)
        package.tree.links.pop(name, None)
    package.tree.link(f"{LIBDIR[1:]}/libmaltcove.so", "libmaltcove.so.0")
    package.tree.put("usr/share/man/man3/maltcove.3.gz", packed(staged.pages["maltcove.3"]))
    for name in manual.functions(checkout.text("c/maltcove.h")):
        package.tree.link(f"usr/share/man/man3/{name}.3.gz", "maltcove.3.gz")
    put_c_examples(package.tree, checkout, f"{package.documents()}/examples")
    return package


def python(staged: Staged) -> Package:
    """The package python3-maltcove: the module, over the shared library."""
    checkout = staged.checkout
    package = Package(
        "python3-maltcove", {"Architecture": "all", "Section": "python", "Suggests": "maltcove, python3-distributed",
                             "Depends": f"libmaltcove0 (>= {checkout.version}), python3:any (>= 3.8)"},
        "FQ-CoDel packet scheduler: module for Python",
        "Maltcove is a packet scheduler with the behaviour of FQ-CoDel (RFC 8290),\n"
        "whose contracts were checked by a prover.\n\n"
        "This package has the module maltcove, which calls the shared library, and\n"
        "examples: a queue, and a sweep over parameters on a Dask cluster.")
    package.tree.copy("usr/lib/python3/dist-packages/maltcove.py", checkout.path("python/maltcove.py"))
    put_python_examples(package.tree, checkout, f"{package.documents()}/examples")
    package.control = {"postinst": COMPILE, "prerm": CLEAN}
    return package


def fields(checkout: Checkout, package: Package) -> str:
    """The file control of a package."""
    tree = package.tree
    size = sum(-(-len(content) // 1024) for content, _ in tree.files.values()) + len(tree.links) + len(tree.folders())
    found = {"Package": package.name, "Source": "maltcove", "Version": debian_version(checkout), "Priority": "optional",
             "Maintainer": checkout.author, "Installed-Size": str(size), **package.fields}
    text = "\n".join(f" {line}" if line else " ." for line in package.text.split("\n"))
    lines = [f"{name}: {value}" for name, value in found.items() if value]
    return "\n".join([*lines, f"Description: {package.summary}", text, ""])


def build(staged: Staged, package: Package, folder: Path) -> Path:
    """Makes a package in a folder."""
    checkout, here = staged.checkout, staged.room / "packages" / package.name
    package.tree.put(f"{package.documents()}/copyright", NO_LICENCE)
    package.tree.put(f"{package.documents()}/changelog.gz", packed(checkout.text("CHANGELOG.md")))
    package.tree.put(f"{package.documents()}/changelog.Debian.gz", packed(changelog(checkout)))
    package.tree.put(f"{package.documents()}/gate.txt", staged.gate)
    sums = {name: hashlib.md5(content).hexdigest() for name, (content, _) in package.tree.files.items()}
    package.control["md5sums"] = "".join(f"{sums[name]}  {name}\n" for name in sorted(sums))
    control = Tree()
    for name, text in {"control": fields(checkout, package), **package.control}.items():
        control.put(f"DEBIAN/{name}", text, name in ("postinst", "prerm"))
    here.mkdir(parents=True)
    here.chmod(0o755)
    package.tree.write(here, checkout.epoch)
    control.write(here, checkout.epoch)
    made = folder / f"{package.name}_{debian_version(checkout)}_{package.fields['Architecture']}.deb"
    command = ["dpkg-deb", "--root-owner-group", "-Zxz", "--threads-max=1", "--build", str(here), str(made)]
    variables = {**os.environ, "SOURCE_DATE_EPOCH": str(checkout.epoch)}
    built = subprocess.run(command, env=variables, capture_output=True, text=True, check=False)
    if built.returncode != 0:
        raise Missing(f"dpkg-deb makes no {made.name}: {built.stdout}{built.stderr}")
    shutil.rmtree(here)
    return made


def build_all(staged: Staged, folder: Path) -> list[Path]:
    """Makes all packages in a folder."""
    return [build(staged, package(staged), folder) for package in (programs, shared_library, development, python)]
