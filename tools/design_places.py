#!/usr/bin/env python3
"""Lists and counts, in src/ of every crate, the places where an older form of the language may stand.

    python3 tools/design_places.py [COMMIT] [POINT]

Without COMMIT it reads the working tree. Each line is a place to look at; docs/DESIGN-PASS.md says what was found there.
"""
import re
import subprocess
import sys
from collections import Counter, defaultdict

PATTERNS = {
    "1 numbers for kinds, letters and refusals, results that mean nothing": [
        r"\b(number|letter|mark): u8\b", r"-> u8$", r"-> u8 \{",
    ],
    "1 enums of one's own": [r"^\s*(pub )?enum \w+"],
    "1 a value that stands for none": [r"(?i)\b(or the length|0 for none|, or 0|or an empty one|0 where)\b"],
    "1 a match that only passes Option or Result on": [
        r"None => (Err\(|None\b|false\b|0\b|return\b)", r"Err\(\w+\) => (return )?Err\(", r"Some\(\w+\) => Ok\(", r"Ok\(\w+\) => Ok\(",
        r"Err\(_\) => ",
    ],
    "3 loops that count an index": [
        r"\bfor \w+ in [^_].*\.\.", r"^\s*while ", r"^\s*\w+ \+= 1;", r"^\s*\w+ -= 1;", r"\bnext = ",
    ],
    "4 equality, order, copying, conversion and printing by hand": [
        r"^impl.* (From|TryFrom|FromStr|PartialEq|PartialOrd|Ord|Clone|fmt::Display|Display|fmt::Debug)\b.* for ",
        r"\bfn (is_same|read|byte|word|named|letter_in|meaning_of|sort_word|requirement)\b",
    ],
    "6 buffers with a length beside, pairs of indices, parallel slices": [
        r"\b(held|start|end|place|length): usize,", r"\bnames\[", r"\bfields\[\w+\]",
    ],
    "7 switches on a step": [r"match \(?self, \w+", r"match (letter|look|from|to|request\.call|call)\b", r"\bdyn\b", r"\bfn\("],
}


def files(commit):
    names = ["git", "ls-tree", "-r", "--name-only", commit] if commit else ["git", "ls-files", "-co", "--exclude-standard"]
    listed = subprocess.run(names, capture_output=True, text=True, check=True).stdout.split("\n")
    for name in sorted(n for n in listed if re.match(r"crates/\w+/src/.*\.rt$", n)):
        if commit:
            text = subprocess.run(["git", "show", f"{commit}:{name}"], capture_output=True, text=True, check=True).stdout
        else:
            try:
                text = open(name).read()
            except FileNotFoundError:
                continue
        yield name, text


def is_table(line):
    return len(line) > 300 or "Value::Text {" in line and "Value::Number" in line


def signatures(text):
    """Each function's name and its parameters."""
    for found in re.finditer(r"\bfn (\w+)(?:<[^(]*>)?\((.*?)\)", text, re.S):
        yield found.group(1), re.findall(r"(\w+): ([^,]+)", found.group(2))


def report(title, rows, show):
    print(f"{title}: {len(rows)}")
    if show:
        for row in rows:
            print("   ", row)


def main():
    words = sys.argv[1:]
    point = next((w for w in words if re.fullmatch(r"[1-8]", w)), None)
    commit = next((w for w in words if w != point), None)
    texts = list(files(commit))
    for title, patterns in PATTERNS.items():
        rows = []
        for name, text in texts:
            for number, line in enumerate(text.split("\n"), 1):
                code = line.split("//")[0] if "stands for none" not in title else line
                if not is_table(line) and any(re.search(p, code) for p in patterns):
                    rows.append(f"{name}:{number}: {line.strip()}")
        report(title, rows, title[0] == point)
    pairs, facts = defaultdict(set), Counter()
    for name, text in texts:
        crate = name.split("/")[1]
        for function, parameters in signatures(text):
            kinds = sorted({f"{n}: {t.strip()}" for n, t in parameters})
            for i, one in enumerate(kinds):
                for other in kinds[i + 1:]:
                    pairs[crate, one, other].add(function)
        for kind, clause in re.findall(r"^\s*(requires|ensures)[^{\n]*\{ (.*) \}$", text, re.M):
            for premise in clause.split(" → ")[:-1] if kind == "ensures" else [f"requires {clause}"]:
                facts[crate, premise.strip()] += 1
    report("5 parameters that travel together in three functions of a crate or more",
           sorted(f"{c}: {a}, {b}: {len(f)} functions" for (c, a, b), f in pairs.items() if len(f) > 2), point == "5")
    report("5 premises and requires that stand in three contracts of a crate or more",
           sorted(f"{c}: {n} times: {fact[:150]}" for (c, fact), n in facts.items() if n > 2), point == "5")


main()
