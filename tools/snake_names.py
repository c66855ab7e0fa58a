#!/usr/bin/env python3
"""Spells this repository's own definitions and lemmas as today's Rattle does.

usage: python3 tools/snake_names.py        at the top of the repository, once, after port.py

Words of specs/, of proofs/ and of clauses are in snake case, facts in upper camel case. A dash stays only in a lemma that
is named after the two words it joins. Names that Rattle makes, and names of src/, keep their spelling.
"""
import os
import re
import sys

WORD = r"[A-Za-z_][\w']*(?:-[\w']+)*"
# strings, bytes, characters and comments' markers are left alone; everything else is read word by word
PIECES = re.compile(r'b?"(?:\\.|[^"\\])*"|b?\'(?:\\.|[^\'\\])\'(?!\w)|' + WORD)
CAMEL = re.compile(r"(?<=[a-z0-9])(?=[A-Z])")
DEFINED = re.compile(r"^\s*(?:abbrev\s+|unfoldable\s+|pub\s+|data\s+|record\s+)*(" + WORD + r")(?:\s+\{[^}]*\}|\s+\([^)]*\))*\s+:\s")

# a lemma keeps the dash after the word that it is about
ABOUT = ("length", "getD", "map", "textLen")
JOINED = {"value-lt": "value-lt", "value-printed": "value-printed", "padded-trimmed": "padded-trimmed", "trimmed-padded": "trimmed-padded"}
# names that would fall together with a tactic's or another's
CHOSEN = {
    "first_of": "first_some",
    "getD": "get_or",
    "Read-back": "ReadBack",
    "rowNumber": "number_of_row",
    "ownerNumber": "number_of_owner",
    # lemmas that would have the name of the word they are about
    "cell-at": "cell_at_lem",
    "checked-lines": "checked_lines_lem",
    "digits-held": "digits_held_lem",
    "digits_in": "digits_in_lem",
    "filled_at": "filled_at_lem",
    "hex-byte": "hex_byte_lem",
    "in-row": "in_row_lem",
    "is-leap": "is_leap_lem",
    "kind-with": "kind_with_lem",
    "lined-byte": "lined_byte_lem",
    "of-file": "of_file_lem",
    "of_row": "of_row_lem",
    "raw-read": "raw_read_lem",
    "raw-write": "raw_write_lem",
    "take-value": "take_value_lem",
    "values-in": "values_in_lem",
}


def files(ending):
    for folder, dirs, names in os.walk("crates"):
        dirs[:] = sorted(d for d in dirs if d != "out")
        for name in sorted(names):
            if name.endswith(ending):
                yield os.path.join(folder, name)


def snake(word):
    if re.match(r"^[a-z]", word) and CAMEL.search(word):
        return CAMEL.sub("_", word).lower()
    return word


def dashed(word):
    """The new spelling of an own name with a dash."""
    if word in JOINED:
        return JOINED[word]
    first, rest = word.split("-", 1)
    if first[0].isupper():
        return "".join(p[0].upper() + p[1:] for p in word.split("-"))
    rest = "_".join(snake(p) for p in rest.split("-"))
    if first in ABOUT:
        return CHOSEN.get(first, snake(first)) + "-" + rest
    return snake(first) + "_" + rest


def own_dashed():
    """Names with a dash that specs/ and the lemma files of proofs/ define; the files of goals have Rattle's names."""
    found = {}
    for path in files(".antt"):
        if os.path.basename(path) in ("Answers.antt", "Invariants.antt", "Proof.antt"):
            continue
        with open(path) as f:
            for line in f:
                m = DEFINED.match(line)
                if m and "-" in m.group(1):
                    found[m.group(1)] = dashed(m.group(1))
    return found


def turn(word, own):
    if word in CHOSEN:
        return CHOSEN[word]
    if word in own:
        return own[word]
    return "-".join(CHOSEN.get(p, snake(p)) for p in word.split("-"))


def main():
    own = own_dashed()
    before, after = set(), {}
    texts = []
    for ending in (".antt", ".rt"):
        for path in files(ending):
            with open(path) as f:
                text = f.read()

            def each(m):
                piece = m.group(0)
                if not re.match(r"[A-Za-z_]", piece) or piece.endswith(('"',)) or re.match(r"b?['\"]", piece):
                    return piece
                new = turn(piece, own)
                before.add(piece)
                after.setdefault(new, set()).add(piece)
                return new

            texts.append((path, text, PIECES.sub(each, text)))
    for new, olds in sorted(after.items()):
        if len(olds) > 1:
            print("look: fall together:", " ".join(sorted(olds)), "->", new)
    if "--dry" in sys.argv:
        return
    for path, text, new in texts:
        if new != text:
            with open(path, "w") as f:
                f.write(new)


main()
