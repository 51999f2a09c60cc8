"""Lists lines of the sources with the function around each, and compares the list with one that is kept.

A line is listed where a rule wants it. With it stand the line before it, and a checksum of all code of its function. So
a line that is new is seen, and so is a function with such a line that is another one now. A line may have a note in the
list: lines that begin with '#', below it. `--write` writes the list anew and keeps the notes of lines that stay.
"""
import hashlib
import pathlib
import re
import sys

TOP = pathlib.Path(__file__).resolve().parent.parent
# Crates of tests and of measurements answer nobody.
LEFT_OUT = re.compile(r"test_.*|bench|workloads|quickstart|router")
FUNCTION = re.compile(r"(\s*)(?:#\[[^\]]*\] )?(?:pub(?:\([a-z]+\))? )?(?:const |unsafe |extern \"C\" )*fn (\w+)")
IMPL = re.compile(r"impl(?:<.*>)? (?=[A-Z])(.*?)(?: \{|$)")


def functions(lines):
    """For each line the name of the function that it stands in, with its type or trait, and that function's code."""
    within, name, owner = [("", "")] * len(lines), "", ""
    for place, line in enumerate(lines):
        if line.startswith("impl"):
            owner = IMPL.match(line)[1] + "::"
        elif line.startswith("}"):
            owner = ""
        head = FUNCTION.match(line)
        if not head:
            continue
        name = (owner if head[1] else "") + head[2]
        last = end_of(lines, place, head[1])
        body = body_of(lines, place, last, head[1])
        code = " ".join(text.strip() for text in lines[body:last + 1] if is_code(text))
        for inside in range(place, last + 1):
            within[inside] = (name, code)
    return within


def body_of(lines, place, last, indent):
    """The first line of the function's body, behind its head and its clauses."""
    for body in range(place, last + 1):
        text = lines[body]
        if text.endswith("{") and re.match(re.escape(indent) + r"\S", text):
            return body
    return place


def end_of(lines, place, indent):
    """The last line of the function whose head is there: a brace as far from the edge as the head, or its only line."""
    for last in range(place, len(lines)):
        if lines[last].rstrip() == indent + "}" or (last == place and re.search(r"[;}]$", lines[last])):
            return last
        if lines[last].startswith(indent + ")") and lines[last].endswith(";"):
            return last
    return len(lines) - 1


def is_code(line):
    """Whether the line is code: neither empty nor a comment."""
    return bool(line.strip()) and not line.lstrip().startswith("//")


def listed(top, is_wanted):
    """The lines of a checkout: each its file, its function with a checksum, and the line with the one before it."""
    for path in sorted(top.glob("crates/*/src/**/*.rt")):
        if LEFT_OUT.fullmatch(path.relative_to(top).parts[1]):
            continue
        lines = path.read_text().splitlines()
        within, before = functions(lines), ""
        for place, line in enumerate(lines):
            if is_wanted(line):
                name, code = within[place]
                checksum = hashlib.sha256(code.encode()).hexdigest()[:12]
                yield f"{path.relative_to(top)}: {name} {checksum}", f"{before} | {line.strip()}"
            if is_code(line):
                before = line.strip()


def read_kept(file):
    """The list as it is kept: the functions with their lines, and the notes, by file, name and line."""
    kept, notes, head, line = [], {}, "", ""
    for text in file.read_text().splitlines() if file.exists() else []:
        if text.startswith("        # "):
            notes.setdefault((head.rsplit(" ", 1)[0], line), []).append(text)
        elif text.startswith("    "):
            line = text.strip()
            kept.append((head, line))
        else:
            head = text
    return kept, notes


def write(file, found, notes):
    """Writes the list, with the notes of the lines that stay."""
    text, shown = [], None
    for head, line in found:
        if head != shown:
            text.append(head)
            shown = head
        text.append(f"    {line}")
        text += notes.get((head.rsplit(" ", 1)[0], line), [])
    file.write_text("".join(part + "\n" for part in text))


def compare(name, is_wanted, what):
    """Compares the lines of a checkout, whose folder may be the first word, with the list of that name."""
    words = sys.argv[1:]
    top = pathlib.Path(words[0]).resolve() if words and words[0] != "--write" else TOP
    file = TOP / ".ci" / name
    found = list(listed(top, is_wanted))
    kept, notes = read_kept(file)
    if words == ["--write"]:
        write(file, found, notes)
        kept, notes = read_kept(file)
    new, gone = [], list(kept)
    for one in found:
        if one in gone:
            gone.remove(one)
        else:
            new.append(one)
    for head, line in new:
        print(f"not in .ci/{name}: {head}: {line}")
    for head, line in gone:
        print(f"in .ci/{name} alone: {head}: {line}")
    print(f"{len(found)} lines {what}: {len(new)} of them new, {len(gone)} gone")
    sys.exit(bool(new or gone))
