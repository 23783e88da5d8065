#!/usr/bin/env python3
"""places.py [COMMIT]: counts the places of docs/DESIGN-PASS.md in crates/*/src of a commit, or of the files as they stand.
With --list it prints each. A place is a line that one of the patterns of its kind meets; comments do not count."""
import re
import subprocess
import sys
from pathlib import Path

KINDS = [
    ("1a", "own enums of the shape of Option or Result", r"^pub enum (Load|Filled|Answer) "),
    ("1b", "uses of them", r"\b(Load|Filled|Answer)::[A-Z]"),
    ("1c", "a number for a refusal, or for none", r"^(pub )?fn (header_refusal|record_refusal|link_refusal|number|cause|refused|rule|ring_length|left)\b.*-> (u8|usize|Verdict)|^\s*return (Filled::Refused\(.*\)|[0-9]+);|\bif [ijk] != 0|\bif (64 <= [a-z]+|[a-z]+ < 64) \{|row::first\(.*\) (<|==) 64|row::next\("),
    ("1d", "a length as a flag", r"\.len (!=|==) 0"),
    ("1e", "a bool for a side", r"\bsource: bool|: bool = (true|false)|own != source|let source = h"),
    ("1f", "a number for a kind, class, mode, flag, link type, rule or model", r"\b(class|kind|mode|flag|t|rule|k|model|n)\b [=!]= [0-9]|(class_of|mode_of|flag_of|link_byte|event_byte)\(.*\) [=!]= [0-9]|\b(of_class|is_flagged|classes|sources_of|links|link_rows|sorted)\((&?file|file\b).*, [1-7]\)|\bclasses\(file, a, [0-9]|broken_(event|pair|ring)\([0-9]|from_exact"),
    ("3a", "loops that count or step by hand", r"^\s*('[a-z]+: )?while "),
    ("3b", "for loops", r"^\s*('[a-z]+: )?for "),
    ("3c", "iterator chains", r"\.(all|any|find|position|filter|map|count|sum|rev|enumerate)\("),
    ("4a", "digits printed by hand", r"\b48 \+|b'0' \+"),
    ("4b", "a copy of fields or elements by name", r"^\s*let (at|n|m|len|answer|from|source|h|own) = [a-z]+\.[a-z]+;|\[(0|1|2|3|4|5|6)\],$"),
    ("5a", "a fact of a file in a requires", r"^\s*requires .*\b(Sized|Readable|Chained|Source|Ready|LoadsAs|refusal) "),
    ("5b", "arrays that travel together", r"\bsets: Sets|\brelations: Relations"),
    ("5c", "a bound on a length beside its array", r"(\.len|len|n) ≤ (64|320|960|1413|1458|9408)"),
    ("6a", "structs of an array and a length", r"^    pub at: \["),
    ("6b", "an array and a length as parameters", r"\[u8; [0-9A-Z]+\], (n|len): usize"),
    ("6c", "arrays with named places", r"\b(sets|relations)\[|^pub const [A-Z]+: usize = [0-9]+;"),
    ("6d", "padding", r"\bnone, none|\[g, g"),
    ("7", "functions chosen by a number or passed on", r"\bfn\(|dyn "),
]


def files(commit):
    if commit is None:
        for path in sorted(Path("crates").glob("*/src/*.rt")):
            yield str(path), path.read_text(encoding="utf-8")
        return
    names = subprocess.run(["git", "ls-tree", "-r", "--name-only", commit, "crates"], capture_output=True, text=True, check=True).stdout
    for name in names.split():
        if re.fullmatch(r"crates/\w+/src/\w+\.rt", name):
            yield name, subprocess.run(["git", "show", f"{commit}:{name}"], capture_output=True, text=True, check=True).stdout


def main(words):
    shown = "--list" in words
    words = [it for it in words if it != "--list"]
    found = {kind: [] for kind, _, _ in KINDS}
    for name, text in files(words[0] if words else None):
        for number, line in enumerate(text.split("\n"), 1):
            if line.lstrip().startswith("//"):
                continue
            for kind, _, pattern in KINDS:
                if re.search(pattern, line):
                    found[kind].append(f"{name}:{number}: {line.strip()}")
    for kind, what, _ in KINDS:
        print(f"{kind} {len(found[kind]):4} {what}")
        for it in found[kind] if shown else []:
            print("       " + it)


main(sys.argv[1:])
