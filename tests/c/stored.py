#!/usr/bin/env python3
"""Writes as arrays of C the recordings of calls.c that are stored elsewhere, with what is stored beside them: every sample NAME, what the
judge and page print of it as texts NAME_txt and NAME_page, and files of the corpus with what the judge prints of them."""

import pathlib

CORPUS = {
    "tso: store buffering with acquire-release fences": "store_buffering_with_acq_rel_fences",
    "tso: store buffering with exclusive reads that failed between": "store_buffering_with_failed_reads",
}


def recording(name, data):
    print(f"static const uint8_t {name}[] = {{{', '.join(map(str, data))}}};")


def text(name, data):
    print(f"static const char {name}[] = {{{', '.join(map(str, data + bytes(1)))}}};")


for file in sorted(pathlib.Path("samples").glob("*.rec")):
    recording(file.stem, file.read_bytes())
    text(f"{file.stem}_txt", file.with_suffix(".txt").read_bytes())
    text(f"{file.stem}_page", file.with_suffix(".page").read_bytes())
for line in open("tests/corpus/corpus.tsv"):
    name, digits, answer = line.rstrip("\n").split("\t")
    if name in CORPUS:
        recording(CORPUS[name], bytes.fromhex(digits))
        text(f"{CORPUS[name]}_txt", answer.replace(";", "\n").encode())
