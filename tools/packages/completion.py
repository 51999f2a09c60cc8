"""Bash completions of both programs, of what they print for --help: commands, options and the words of parameters."""
from __future__ import annotations

import re
from dataclasses import dataclass, field
from pathlib import Path

from packages.checkout import Missing, run
from packages.manual import COMMANDS

OPTION = re.compile(r"^ {2,6}(?:(-\w), )?(--[a-z][a-z-]*)(?: (<?[A-Za-z0-9|]+>?))?$", re.M)
PARAMETERS = re.compile(r"^( +)(?:Words|Parameter) +Range +Default\n((?:\1.*\n)+)", re.M)


@dataclass
class Words:
    """The words of a command line, and the values that follow some of them. An empty list of values is any text."""

    words: list[str] = field(default_factory=list)
    values: dict[str, list[str]] = field(default_factory=dict)

    def add(self, word: str, value: str | None) -> None:
        """Adds a word, with its value as help writes it: in capitals a text, in small letters the choices."""
        self.words.append(word)
        if value is not None:
            self.values[word] = value.split("|") if re.fullmatch(r"[a-z|]+", value) else []


def read_options(text: str) -> Words:
    """The options that a help has."""
    found = Words()
    for short, long, value in OPTION.findall(text):
        if short:
            found.add(short, value or None)
        found.add(long, value or None)
    if "--help" not in found.words:
        raise Missing("a help has no option --help, so its options aren't where they are looked for")
    return found


def read_parameters(text: str) -> Words:
    """The words of parameters in the table of a help. Below a row its text may stand, further right."""
    table = PARAMETERS.search(text)
    if not table:
        raise Missing("a help has no table of parameters with Range and Default")
    found = Words()
    for row in re.findall(rf"^{table[1]}(\S.*?)(?: {{2,}}|$)", table[2], re.M):
        if " | " in row:
            for word in row.split(" | "):
                found.add(word, None)
        else:
            word, value = row.split(" ")
            found.add(word, value)
    return found


def function(name: str, cases: list[str]) -> str:
    """The completion of a program, with the lines that choose what is offered."""
    lines = [f"# Completion of {name} for bash, written by tools/dist of what the program prints for --help.",
             f"_{name}()", "{", "    local cur=${COMP_WORDS[COMP_CWORD]} prev=${COMP_WORDS[COMP_CWORD-1]}",
             "    COMPREPLY=()", *cases, "}", f"complete -F _{name} {name}", ""]
    return "\n".join(lines)


def offer(words: list[str]) -> str:
    """A line that offers words."""
    return f"""COMPREPLY=($(compgen -W '{" ".join(words)}' -- "$cur"))"""


def of_words(options: Words, parameters: Words) -> list[str]:
    """The lines that offer options and parameters, and after some of them their values. A value isn't a parameter,
    though one may be called as a parameter is.
    """
    values = {**parameters.values, **options.values}
    texts = [word for word, choices in values.items() if not choices]
    cases = [f"    ((COMP_CWORD < 2)) || case ${{COMP_WORDS[COMP_CWORD-2]}} in {'|'.join(values)}) prev= ;; esac",
             "    case $prev in", f"        {'|'.join(texts)}) return ;;"]
    cases += [f"        {word}) {offer(choices)}; return ;;" for word, choices in values.items() if choices]
    return [*cases, "    esac", f"    {offer([*options.words, *parameters.words])}"]


def tables(text: str) -> list[str]:
    """The tables that maltlink writes: the terms of its section TABLES."""
    section = re.search(r"^TABLES\n(.*?)^[A-Z]", text, re.M | re.S)
    found = re.findall(r"^ {4}([a-z]+)$", section[1], re.M) if section else []
    if not found:
        raise Missing("maltlink --help has no section TABLES with a table's name in a line of its own")
    return found


def of_maltlink(text: str) -> str:
    """The completion of maltlink."""
    options = read_options(text)
    options.values["--write"] = tables(text)
    return function("maltlink", of_words(options, read_parameters(text)))


def of_fqsim(helps: dict[str, str]) -> str:
    """The completion of fqsim, of the help of each command. All take the parameters that stand in that of trace."""
    parameters = read_parameters(helps["trace"])
    cases = ["    if ((COMP_CWORD == 1)); then", f"        {offer([*helps, 'help', '-h', '--help'])}", "        return",
             "    fi", "    case ${COMP_WORDS[1]} in"]
    for command, text in helps.items():
        lines = ["    " + line for line in of_words(read_options(text), parameters)]
        cases += [f"        {command})", *("    " + line for line in lines), "            ;;"]
    cases += ["        help)", f"            {offer(list(helps))}", "            ;;", "    esac"]
    return function("fqsim", cases)


def completions(fqsim: Path, maltlink: Path) -> dict[str, str]:
    """Both completions, by the names of their files."""
    helps = {name: run(str(fqsim), name, "--help") for name in COMMANDS}
    return {"fqsim": of_fqsim(helps), "maltlink": of_maltlink(run(str(maltlink), "--help"))}
