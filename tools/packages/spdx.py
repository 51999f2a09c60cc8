"""The list of contents and inputs, as SPDX 2.3 in JSON."""
from __future__ import annotations

import hashlib
import json
import re
import time
from typing import Any

from packages.checkout import FQSIM, MALTLINK, PROVED_LIBRARY, Checkout, run
from packages.tree import Tree, sha256

# What was built, and of what. Other files of the archive are copies, or are made of the programs' help.
MADE_OF = {
    "bin/fqsim": [FQSIM],
    "bin/maltlink": [MALTLINK],
    "lib/libmaltcove.a": [PROVED_LIBRARY, "c/guard.c", "c/heap.c"],
    "lib/libmaltcove.so.VERSION": [PROVED_LIBRARY, "c/guard.c", "c/heap.c", "c/maltcove.map"],
    "include/maltcove.h": ["c/maltcove.h"],
    "python/maltcove.py": ["python/maltcove.py"],
    "share/man/man1/fqsim.1": [FQSIM],
    "share/man/man1/maltlink.1": [MALTLINK],
    "share/man/man3/maltcove.3": ["c/maltcove.h"],
    "share/bash-completion/completions/fqsim": [FQSIM],
    "share/bash-completion/completions/maltlink": [MALTLINK],
}


def identity(kind: str, name: str) -> str:
    """An identifier of SPDX for a name."""
    return f"SPDXRef-{kind}-" + re.sub(r"[^A-Za-z0-9.-]", "-", name)


def file_entry(kind: str, name: str, content: bytes) -> dict[str, Any]:
    """A file with its checksums."""
    return {
        "SPDXID": identity(kind, name), "fileName": f"./{name}",
        "checksums": [{"algorithm": "SHA1", "checksumValue": hashlib.sha1(content).hexdigest()},
                      {"algorithm": "SHA256", "checksumValue": sha256(content)}],
        "licenseConcluded": "NOASSERTION", "licenseInfoInFiles": ["NONE"], "copyrightText": "NOASSERTION",
    }


def package_entry(kind: str, name: str, version: str, **more: Any) -> dict[str, Any]:
    """A package of which no files are listed."""
    return {"SPDXID": identity(kind, name), "name": name, "versionInfo": version, "downloadLocation": "NOASSERTION",
            "filesAnalyzed": False, "licenseConcluded": "NOASSERTION", "licenseDeclared": "NOASSERTION",
            "copyrightText": "NOASSERTION", **more}


def ported_crates(checkout: Checkout) -> list[str]:
    """The crates of the toolchain that the programs and the library for C use, by crates.txt."""
    lines = [line for line in checkout.text("crates.txt").splitlines() if ":" in line and not line.startswith("#")]
    uses = {left.split()[0]: right.split() for left, _, right in (line.partition(":") for line in lines)}
    found, open_names = set(), ["fqsim", "maltlink", "maltcove_c"]
    while open_names:
        name = open_names.pop()
        if name not in found:
            found.add(name)
            open_names += uses.get(name, [])
    return sorted(found - set(uses))


def verification_code(tree: Tree) -> str:
    """SPDX's code of a package: the checksum of its files' checksums, in order."""
    sums = sorted(hashlib.sha1(content).hexdigest() for content, _ in tree.files.values())
    return hashlib.sha1("".join(sums).encode()).hexdigest()


def archive_entry(checkout: Checkout, tree: Tree) -> dict[str, Any]:
    """The archive as a package, of which all files are listed."""
    return {**package_entry("Package", "maltcove", checkout.version), "filesAnalyzed": True, "licenseDeclared": "NONE",
            "packageVerificationCode": {"packageVerificationCodeValue": verification_code(tree)},
            "comment": "No licence was chosen yet. Links of the archive aren't listed: "
                       + ", ".join(f"{name} to {target}" for name, target in sorted(tree.links.items()))}


def inputs(checkout: Checkout) -> list[dict[str, Any]]:
    """The packages that went in: the sources, the toolchain, the crates that it ports, and the compiler of C."""
    state = "clean" if checkout.is_clean else "files of the checkout differ from the commit"
    compiler = run("gcc", "--version").splitlines()[0]
    return [
        package_entry("Input", "maltcove-sources", checkout.commit, licenseDeclared="NONE",
                      comment=f"git commit; {state}"),
        package_entry("Input", "rattle-toolchain", checkout.toolchain(),
                      comment="proved and built the programs and the library"),
        *[package_entry("Input", f"crate-{name}", "NOASSERTION", comment="ported by the toolchain, with its version")
          for name in ported_crates(checkout)],
        package_entry("Input", "gcc", compiler, comment="compiled c/guard.c and c/heap.c, unless CC was another"),
    ]


def relation(one: str, kind: str, other: str) -> dict[str, str]:
    """A relationship of two elements."""
    return {"spdxElementId": one, "relationshipType": kind, "relatedSpdxElement": other}


def document(checkout: Checkout, tree: Tree) -> str:
    """The list, as a text."""
    archive = identity("Package", "maltcove")
    contents = [file_entry("File", name, content) for name, (content, _) in sorted(tree.files.items())]
    made_of = {name.replace("VERSION", checkout.version): sources for name, sources in MADE_OF.items()}
    names = sorted({source for sources in made_of.values() for source in sources})
    sources = [file_entry("Source", name, checkout.path(name).read_bytes()) for name in names]
    packages = inputs(checkout)
    relations = [relation("SPDXRef-DOCUMENT", "DESCRIBES", archive)]
    relations += [relation(archive, "CONTAINS", entry["SPDXID"]) for entry in contents]
    relations += [relation(identity("File", name), "GENERATED_FROM", identity("Source", source))
                  for name, of in sorted(made_of.items()) for source in of]
    relations += [relation(archive, "GENERATED_FROM", packages[0]["SPDXID"])]
    relations += [relation(entry["SPDXID"], "BUILD_DEPENDENCY_OF", archive) for entry in packages[1:]]
    missing = [name for name in made_of if name not in tree.files]
    if missing:
        raise ValueError(f"MADE_OF names {missing}, which the archive hasn't")
    return json.dumps({
        "spdxVersion": "SPDX-2.3", "dataLicense": "CC0-1.0", "SPDXID": "SPDXRef-DOCUMENT",
        "name": f"maltcove-{checkout.version}-linux-x86_64",
        "documentNamespace": f"https://maltcove.example/spdx/{checkout.version}/{checkout.commit}",
        "creationInfo": {"created": time.strftime("%Y-%m-%dT%H:%M:%SZ", time.gmtime(checkout.epoch)),
                         "creators": ["Tool: maltcove-tools-dist"]},
        "packages": [archive_entry(checkout, tree), *packages], "files": [*contents, *sources],
        "relationships": relations,
    }, indent=1) + "\n"
