#!/usr/bin/env python3
"""Respells the repository's own definitions and lemmas: words in snake case, types and modules in camel case.

usage: python3 tools/respell.py [--list]     at the top of the repository; --list writes nothing and prints each name, old and new

A name that begins with a small letter and has a capital inside, or that has a dash between words, becomes words joined by '_':
causeFor is cause_for, loaded-within is loaded_within. Names are those that crates/*/specs/*.antt and crates/*/proofs/*.antt declare, with the
fields of records and the constructors of data. Names that the toolchain makes of the code (loop-i-init, or-requires) are no such names and stay.
Functions of src/, exported names, text in quotes and files of programs and tests stay. In documents only what stands in backticks is respelled.
"""

import glob
import os
import re
import sys

WORD = re.compile(r'"(?:[^"\\\n]|\\.)*"|[^\s(){}\[\].,;:"`|]+')
HEAD = re.compile(r"^\s*((?:(?:pub|abbrev|unfoldable) )*(?:record |data |ruleset )?)([^\s:(){}\[\],;]+)(?: :| [({].*:|$| =)")
USE = re.compile(r"^\s*(?:pub )?(?:ghost )?use ([\w.·]+)\.\{([^}]*)\}", re.M)
KEBAB = re.compile(r"^[A-Za-z][\w'₀-₉′]*(?:-[\w'₀-₉′]+)+$")
CAMEL = re.compile(r"[a-z0-9][A-Z]")
# The paper's name of a relation, which stays in comments and documents.
PAPER = {"po-loc"}
# Fields that bear the name of a definition, which get no _lem.
FIELDS = {"most-events": "most_events", "most-locations": "most_locations", "fence-mode": "fence_mode"}
# first_of is a tactic.
OTHERWISE = {"first-of": "first_of_pairs"}
# Lemmas in snake case whose names a definition gets.
BESIDE = {
    "crates/layout/specs/Layout.antt": FIELDS,
    "crates/models/specs/Translated.antt": FIELDS,
    "crates/recording/proofs/CauseLaws.antt": FIELDS,
    "crates/translation/proofs/Relates.antt": FIELDS,
    "crates/litmus/proofs/TableProved.antt": {"all_pass": "all_pass_lem"},
    "crates/recording/proofs/Longest.antt": {"too_long": "too_long_lem"},
    "crates/explanation/proofs/NameLaws.antt": {"step_line": "step_line_lem"},
    "crates/explanation/proofs/step/line/Proof.antt": {"step_line": "step_line_lem"},
}
SKIP = {"use", "mod", "pub", "abbrev", "unfoldable", "record", "data", "ruleset", "unfolding", "where"}


def declared():
    """The names that the files of definitions and lemmas declare."""
    found = set()
    for path in sorted(glob.glob("crates/*/specs/*.antt") + glob.glob("crates/*/proofs/*.antt")):
        with open(path, encoding="utf-8") as f:
            for line in f:
                m = HEAD.match(line)
                if m and m.group(2) not in SKIP and not line.lstrip().startswith("--"):
                    found.add(m.group(2))
    return found


def new_name(name):
    if not KEBAB.match(name) and not re.match(r"^[A-Za-z][\w'₀-₉′]*$", name):
        return name
    parts = []
    for part in name.split("-"):
        if part[:1].islower() and CAMEL.search(part):
            part = re.sub(r"(?<=[a-z0-9])([A-Z])", lambda m: "_" + m.group(1).lower(), part)
        parts.append(part)
    return OTHERWISE.get(name, "_".join(parts))


def respelled(text, names):
    """The text with new names, but for those that it takes from other repositories' modules."""
    others = set()
    for module, items in USE.findall(text):
        part = module.split(".")
        if part[0] != "Rattle" or len(part) < 2 or not os.path.isdir(os.path.join("crates", part[1])):
            others |= {w for item in items.split(",") for w in item.split(" as ")[0].split()}
    names = {old: new for old, new in names.items() if old not in others}

    def word(m):
        name = m.group(0)
        if name.startswith('"') or (name in PAPER and re.match(r"\s*(--|//)", line(m))):
            return name
        if name in FIELDS and m.string[: m.start()].endswith("."):
            return FIELDS[name]
        return names.get(name, name)

    def line(m):
        return m.string[m.string.rfind("\n", 0, m.start()) + 1 : m.start()]

    return WORD.sub(word, text)


def in_backticks(text, names):
    names = {old: new for old, new in names.items() if old not in PAPER}
    return re.sub(r"`[^`\n]+`", lambda m: "`" + respelled(m.group(0)[1:-1], names) + "`", text)


def main(argv):
    found = declared()
    names = {old: new_name(old) for old in found}
    taken = found | {new for old, new in names.items() if "-" not in old}
    # A lemma that would have its definition's name gets _lem.
    names = {old: new + "_lem" if "-" in old and new in taken else new for old, new in names.items() if old != new}
    if "--list" in argv:
        for old in sorted(names):
            print(old, names[old])
        return 0
    for path in sorted(glob.glob("crates/*/specs/**/*.antt", recursive=True) + glob.glob("crates/*/proofs/**/*.antt", recursive=True) + glob.glob("crates/*/src/**/*.rt", recursive=True) + glob.glob("crates/*/must-fail/*.edit")):
        write(path, names, respelled)
    for path in sorted(glob.glob("*.md") + glob.glob("docs/*.md") + glob.glob("tests/**/*.md", recursive=True)):
        write(path, names, in_backticks)
    return 0


def write(path, names, turn):
    with open(path, encoding="utf-8") as f:
        old = f.read()
    new = turn(old, names | BESIDE.get(path, {}))
    if new != old:
        with open(path, "w", encoding="utf-8") as f:
            f.write(new)


if __name__ == "__main__":
    raise SystemExit(main(sys.argv[1:]))
