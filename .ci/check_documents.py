#!/usr/bin/env python3
"""Sees that the documents tell what the contracts say.

Each named clause of a public function stands in docs/PROVED.md, in the section of its crate, beside that function. Each
file of definitions (specs/, but for specs/inside/ and the files that only list others) is named in docs/DEFINITIONS.md.
Prints a line for each that is missing, and ends with status 1 if there is one.
"""
import re
import sys
from pathlib import Path

TOP = Path(__file__).resolve().parent.parent
CRATES = sorted(path.parent.parent for path in TOP.glob("crates/*/src/lib.rt"))


def public_names(crate):
    """The names that the crate's root gives out."""
    names = set()
    for group in re.findall(r"pub use [\w:]*?(\{[^}]*\}|\w+);", (crate / "src/lib.rt").read_text()):
        names.update(re.findall(r"\w+", group))
    return names


def contracts(file):
    """Each function of the file with the type or trait that it belongs to, whether it is `pub`, and its clauses."""
    owner, function = None, None
    for line in file.read_text().splitlines():
        if re.match(r"(pub(\(crate\))? )?(unsafe )?(impl|trait)\b", line):
            words = re.sub(r"<[^<>]*(<[^<>]*>)?[^<>]*>", "", line.split("{")[0])
            is_trait = "trait " in line.split("{")[0]
            # a trait's clauses are told once, at the trait
            owner = None if " for " in words else (words.split(":")[0].split()[-1], is_trait)
            listed = re.match(r"impl (\w+)<(\w+)>", line)
            if listed:
                owner = (listed.group(1), False)
        elif line == "}":
            owner = None
        head = re.match(r"( *)(pub(?:\(\w+\))? )?(?:unsafe |const )*fn (\w+)", line)
        if head:
            inside = head.group(1) != ""
            public = head.group(2) == "pub " or (inside and owner is not None and owner[1])
            function = (owner[0] if inside and owner else None, head.group(3), public and (owner is not None or not inside))
        clause = re.match(r" +ensures (\w+) \{", line)
        if clause and function:
            yield (*function, clause.group(1))


def told(document):
    """The clauses that each section tells, as pairs of a function and a clause."""
    sections, current = {}, None
    for line in document.splitlines():
        if line.startswith("## "):
            current = sections.setdefault(line[3:].strip(), set())
        elif line.startswith("|") and current is not None:
            cells = line.split("|")[1:-1]
            functions = re.findall(r"`([\w:<>]+)`", cells[0])
            for cell in cells:
                named = re.findall(r"`(\w+): ", cell)
                clauses = re.findall(r"`(?:\w+: )?(\w+)`", cell)
                current.update((function, clause) for function in functions + named for clause in clauses)
    return sections


def plain(function):
    """The function's own name, without type parameters and the type."""
    return re.sub(r"<\w+>", "", function).split("::")[-1]


def missing_clauses():
    sections = told((TOP / "docs/PROVED.md").read_text())
    anywhere = set().union(*sections.values())
    for crate in CRATES:
        exported = public_names(crate)
        pairs = sections.get(crate.name, set()) | (anywhere if crate.name == "tutor_app" else set())
        rows = {(plain(function), clause) for function, clause in pairs}
        for file in sorted(crate.glob("src/**/*.rt")):
            for owner, name, public, clause in contracts(file):
                if public and (owner or name) in exported and (name, clause) not in rows:
                    yield f"docs/PROVED.md: {crate.name}: {owner + '::' if owner else ''}{name}: {clause}"


def unnamed_definitions():
    text = (TOP / "docs/DEFINITIONS.md").read_text()
    for crate in CRATES:
        for file in sorted(crate.glob("specs/**/*.antt")):
            inner = file.relative_to(crate / "specs").parts[0]
            if inner in ("inside", "formers") or file.stem in ("Lib", "formers", "inside"):
                continue
            named = re.search(rf"(`|/){re.escape(file.name)}`", text)
            if not named:
                yield f"docs/DEFINITIONS.md: {file.relative_to(TOP)}"


faults = [*missing_clauses(), *unnamed_definitions()]
for fault in faults:
    print(f"{fault} isn't told")
sys.exit(1 if faults else 0)
