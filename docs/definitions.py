#!/usr/bin/env python3
"""Makes docs/DEFINITIONS.md from the specs of all crates, or compares it with them.

    python3 docs/definitions.py           writes docs/DEFINITIONS.md
    python3 docs/definitions.py --check   says what differs, and fails where something does

The sentence of a definition is the comment that stands right above it in crates/NAME/specs/FILE.antt;
the subject of a file, with the section of the public standard that it is from, is its first comment.
A definition without a sentence is a fault.
"""

import re
import sys
from pathlib import Path

TOP = Path(__file__).resolve().parent.parent
OUT = TOP / "docs" / "DEFINITIONS.md"

HEAD = """# Definitions

Each definition that a contract cites, in one sentence, by crate and file (`crates/NAME/specs/FILE.antt`).
This list is made from the specs by `docs/definitions.py`, which takes the sentence that stands above a
definition there; `python3 docs/definitions.py --check` compares the two.
"""



def crates():
    """The names of the crates, each with the order of crates.txt."""
    for line in (TOP / "crates.txt").read_text().splitlines():
        if line and not line.startswith("#"):
            yield line.split(":")[0].split()[0]


def modules(specs):
    """The files of a crate's specs, in the order in which its Lib.antt names them."""
    lib = specs / "Lib.antt"
    if not lib.exists():
        return
    for line in lib.read_text().splitlines():
        found = re.match(r"^pub mod (\w+)$", line)
        if found:
            yield specs / (found.group(1) + ".antt")


def sentence(lines):
    """A comment's text, on one line."""
    return " ".join(line.strip().removeprefix("--").strip() for line in lines).strip()


def name_of(line):
    """The name that a line defines, if it begins a definition of its own."""
    found = re.match(
        r"^(?:  )?(?:abbrev pub|unfoldable pub|pub record|pub data|pub)\s+(\S+)", line
    )
    if not found:
        return None
    name = found.group(1)
    if name in ("mod", "use", "record", "data"):
        return None
    indented = line.startswith("  ")
    if indented and not re.match(r"^  (?:abbrev pub|unfoldable pub|pub record|pub data)\s", line):
        return None
    return name


def read(path):
    """The subject of a file, its definitions with their sentences, and the names without one."""
    lines = path.read_text().splitlines()
    at = 0
    head = []
    while at < len(lines) and lines[at].startswith("--"):
        head.append(lines[at])
        at += 1
    found, bare, comment = [], [], []
    for line in lines[at:]:
        if line.strip().startswith("-- "):
            comment.append(line)
            continue
        name = name_of(line)
        if name:
            if comment:
                found.append((name, sentence(comment)))
            else:
                bare.append(name)
        if not line.startswith("infix"):
            comment = []
    return sentence(head), found, bare


def listing():
    """The whole document, and the definitions that have no sentence."""
    parts, bare = [HEAD], []
    for crate in crates():
        files = list(modules(TOP / "crates" / crate / "specs"))
        if not files:
            continue
        parts.append(f"\n## {crate}\n")
        for path in files:
            subject, found, missing = read(path)
            bare += [f"{path.relative_to(TOP)}: {name}" for name in missing]
            if not found:
                continue
            parts.append(f"\n**{path.stem}.** {subject}\n\n| Definition | One sentence |\n|---|---|\n")
            for name, text in found:
                text = text.replace("|", "\\|")
                parts.append(f"| `{name}` | {text} |\n")
    return "".join(parts), bare


def main():
    text, bare = listing()
    for name in bare:
        print(f"no sentence: {name}")
    if "--check" in sys.argv[1:]:
        same = OUT.exists() and OUT.read_text() == text
        if not same:
            print("docs/DEFINITIONS.md is not what the specs say: run docs/definitions.py")
        sys.exit(0 if same and not bare else 1)
    OUT.write_text(text)
    sys.exit(1 if bare else 0)


main()
