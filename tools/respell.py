#!/usr/bin/env python3
"""Brings the repository's own definitions and lemmas to today's spelling: words in snake case, facts in upper camel case.

usage: python3 tools/respell.py        at the repository's top, once, after the kit's port.py

A word that begins small and has a capital inside, as `wordsRequest`, becomes `words_request`, in proof files, in clauses and comments of the
code, in must-fail edits and in pages between backquotes. Strings of the code, functions of the code and exported names stay. FACTS are
definitions whose value is a type; SCOPED are words that would fall together with another in their file, or whose old spelling means several
things, and are turned only where the named file declares or imports them. CRATES get another name, since the kit has a library of theirs.
It says which words fell together.
"""
import glob
import os
import re
import sys

FACTS = {
    "optBelow": "OptBelow", "labelInside": "LabelInside", "uuidInside": "UuidInside", "agfFits": "AgfFits", "agiFits": "AgiFits",
    "allocFits": "AllocFits", "inobtFits": "InobtFits", "rmapFits": "RmapFits", "all_fit": "AllFit", "all_below": "AllBelow",
}
# (crate, file without its ending, old word, new word)
SCOPED = [
    ("btree", "specs/Decode", "each", "Each"),
    ("endian", "specs/Bytes", "below", "Below"),
    ("refusals", "proofs/Clear", "clear", "Clear"),
    ("request", "specs/Options", "holds", "Holds"),
    ("list_accepted", "specs/Accepted", "signed64", "Signed64"),
    ("chunk", "proofs/Chunks", "no_place", "no_place_lem"),
    ("chunk", "proofs/Values", "root_over", "root_over_lem"),
    ("geometry_places", "proofs/Refused", "no_answer", "no_answer_lem"),
    ("list_spec", "proofs/Spans", "blocks_end", "blocks_end_within"),
    ("plan_closed", "proofs/Mappings", "list_at", "list_at_lem"),
    ("plan_holds_laws", "proofs/Kept", "held_with", "held_with_lem"),
    ("plan_summary", "proofs/Laws", "no_answer", "no_answer_lem"),
    ("reader_compare", "proofs/Answers", "no_place", "no_place_lem"),
    ("reader_compare", "proofs/Answers", "no_answer", "no_answer_lem"),
    ("reader_compare", "proofs/Made", "made_in", "made_in_lem"),
    ("reader_pass", "proofs/Turns", "place_byte", "place_byte_lem"),
    ("reader_uses", "proofs/OneUse", "chunk_part", "chunk_part_lem"),
    ("reader_uses", "proofs/OneUse", "free_part", "free_part_lem"),
    ("request_profile", "proofs/Fronts", "no_record", "no_record_lem"),
    ("request_words", "proofs/Writing", "no_word", "no_word_lem"),
    ("sb", "proofs/Runs", "all_runs", "all_runs_lem"),
]
CRATES = {"log": "log_record"}
# Names that the kit makes, and names of others in comments.
KEPT = re.compile(r"_(Tells|Lawful|Meets|Makes)$|^iSCSI$|^getD$")
WORD = r"(?<![A-Za-z0-9_'₀-₉])([A-Za-z0-9_]+)"
CAMEL = re.compile(WORD)


def snake(word):
    word = re.sub(r"(?<=[a-z0-9])([A-Z])", r"_\1", word)
    return re.sub(r"([A-Z]+)([A-Z][a-z])", r"\1_\2", word).lower()


def turned(word):
    if word in FACTS:
        return FACTS[word]
    if re.match(r"[a-z]", word) and re.search(r"[A-Z]", word) and not KEPT.search(word):
        return snake(word)
    return word


def turn(text):
    return CAMEL.sub(lambda m: turned(m.group(1)), text)


def outside_strings(text, f):
    parts = re.split(r"""(b?'(?:[^'\\]|\\.)'|"(?:[^"\\]|\\.)*")""", text, flags=re.S)
    return "".join(p if i % 2 else f(p) for i, p in enumerate(parts))


def scoped(path, text):
    for crate, name, old, new in SCOPED:
        module = f"Rattle.{crate}.{name.replace('/', '.')}"
        own = path == f"crates/{crate}/{name}.antt"
        used = re.search(r"use " + re.escape(module) + r"(\.\{[^}]*(?<![\w'-])" + old + r"(?![\w'-])| as |\(|$|\s)", text, re.M)
        if own or used:
            text = re.sub(r"(?<![A-Za-z0-9_'-])" + old + r"(?![A-Za-z0-9_'-])", new, text)
    return text


def moved():
    for old, new in CRATES.items():
        os.rename(f"crates/{old}", f"crates/{new}")
        with open("crates.txt", encoding="utf-8") as f:
            lines = f.read().split("\n")
        lines = [ln if ln.startswith("#") else re.sub(rf"(?<![\w]){old}(?![\w])", new, ln) for ln in lines]
        with open("crates.txt", "w", encoding="utf-8") as f:
            f.write("\n".join(lines))


def of_crates(text):
    for old, new in CRATES.items():
        text = text.replace(f"Rattle.{old}.", f"Rattle.{new}.").replace(f"crates/{old}/", f"crates/{new}/")
        text = re.sub(rf"(?<![\w:.]){old}::", f"{new}::", text)
    return text


def main():
    moved()
    files = sorted(glob.glob("crates/**/*.antt", recursive=True) + glob.glob("crates/**/*.rt", recursive=True))
    edits = sorted(glob.glob("crates/*/must-fail/*.edit"))
    pages = sorted(glob.glob("docs/**/*.md", recursive=True) + glob.glob("*.md"))
    words, met = {}, set()
    texts = {}
    for p in files + edits + pages:
        with open(p, encoding="utf-8") as f:
            texts[p] = f.read()
    for p in files:
        for m in CAMEL.finditer(texts[p]):
            w = m.group(1)
            if turned(w) != w:
                words.setdefault(turned(w), set()).add(w)
    known = {w for ws in words.values() for w in ws}
    for new, olds in sorted(words.items()):
        if len(olds) > 1:
            print("fall together:", new, sorted(olds))
    for p, t in texts.items():
        if p in pages:
            new = re.sub(r"`[^`\n]+`", lambda m: CAMEL.sub(lambda w: turned(w.group(1)) if w.group(1) in known else w.group(1), m.group(0)), t)
        elif p.endswith(".antt"):
            new = turn(scoped(p, t))
        else:
            new = outside_strings(scoped(p, t), turn)
        new = of_crates(new)
        if new != t:
            met.add(p)
            with open(p, "w", encoding="utf-8") as f:
                f.write(new)
    print(f"respell: {len(words)} words turned in {len(met)} files")
    return 0


if __name__ == "__main__":
    sys.exit(main())
