"""Holds the books of this program against the tables of BOOKS.md.

    python3 document.py PATH-TO/BOOKS.md

Prints every difference and ends with status 1 if there is one. The tables in books.py
were written by hand; this finds slips in them, and changes of the document later on.
"""

import re
import sys

from books import BOOKS, Sort


def table_rows(lines):
    """The cells of each line of the first table among the lines, without its head."""
    rows = []
    for line in lines:
        if line.startswith("|"):
            rows.append([cell.strip() for cell in line.strip("| \n").split(" | ")])
        elif rows:
            break
    return rows[2:]


def sections(text):
    """The document's parts by their headings, of whatever depth."""
    parts = {}
    heading = ""
    for line in text.splitlines():
        if line.startswith("#"):
            heading = line.lstrip("# ")
            parts[heading] = []
        else:
            parts.setdefault(heading, []).append(line)
    return parts


def documented_field(line):
    # The content may be empty, which leaves a single bar between two blanks.
    cells = [cell.strip() for cell in line.strip().strip("|").split("|")]
    first, last = (int(number) for number in cells[0].split("–"))
    quoted = tuple(re.findall("`([^`]*)`", cells[4]))
    sort = Sort(cells[2])
    content, choices = b"", ()
    if sort is Sort.CONSTANT:
        content = quoted[0].encode()
    elif sort is Sort.CODE:
        choices = tuple(int(number) for number in quoted)
    elif sort is Sort.WORD:
        choices = tuple(word.encode() for word in quoted)
    width_agrees = int(cells[1]) == last - first + 1
    return (first, last, sort, cells[3] == "yes", content, choices, cells[5], width_agrees)


def our_field(field):
    return (field.start, field.end, field.sort, field.required, field.content,
            field.choices, field.name, True)


def same_field(theirs, ours):
    # Names differ in their first letter, and the document explains some after a colon.
    name = theirs[6].split(":")[0].lower()
    return theirs[:6] == ours[:6] and theirs[7] and name.startswith(ours[6].lower()[:8])


def differences(text):
    parts = sections(text)
    for book in BOOKS.values():
        kinds_seen = set()
        for heading, lines in parts.items():
            found = re.fullmatch(rf"{book.letter}, kind (.): .*", heading)
            if not found:
                continue
            mark = found.group(1)
            kinds_seen.add(mark)
            where = f"book {book.letter}, kind {mark}"
            yield from kind_differences(where, book.kinds[mark], lines)
        if kinds_seen != set(book.kinds):
            yield f"book {book.letter}: kinds {sorted(kinds_seen)} in the document"
        for mark, before in table_rows(parts[f"{book.letter}: order"]):
            marks = "" if before.startswith("none") else before.replace(", ", "")
            if marks != book.after[mark]:
                yield f"book {book.letter}: {mark} may follow {before} in the document"


def kind_differences(where, kind, lines):
    tables = "\n".join(lines).split("Conditions of kind")
    documented = [documented_field(line) for line in tables[0].splitlines()
                  if re.match(r"\| \d+–", line)]
    if len(documented) != len(kind.fields):
        yield f"{where}: {len(documented)} fields in the document"
    for theirs, field in zip(documented, kind.fields):
        if not same_field(theirs, our_field(field)):
            yield f"{where}: {theirs} in the document, {our_field(field)} here"
    told = []
    if len(tables) > 1:
        told = [int(cells[-1]) for cells in table_rows(tables[1].splitlines())]
    ours = [condition.position for condition in kind.conditions]
    if told != ours:
        yield f"{where}: conditions tell {told} in the document, {ours} here"


def main():
    if len(sys.argv) != 2:
        sys.exit("usage: document.py PATH-TO/BOOKS.md")
    with open(sys.argv[1], encoding="utf-8") as file:
        found = list(differences(file.read()))
    for difference in found:
        print(difference)
    if found:
        sys.exit(1)
    print("the books are those of the document")


if __name__ == "__main__":
    main()
