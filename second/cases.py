"""Writes a fixed set of cases for a program that reads many.

    python3 cases.py [N] [SEED] [--out DIRECTORY]

`cases.bin` has the inputs of `conferir` one after the other, each as its length in decimal
digits, LF, the input itself and LF. `expected.txt` has the line that `conferir` prints for
each. At least N cases are written: one of every group of recipes; then, as far as N
reaches, the recipes that are worth a case of their own; and then random ones.
"""

import argparse
import os
from collections import Counter
from random import Random

from books import BOOKS
from generate import RandomCases, all_recipes, by_group
from judge import conferir
from recipes import ANY_BOOK, as_case

DEFAULT_CASES = 360
DEFAULT_SEED = 750

NUMBERS = (1, 10, 11, 12, 13, 14, 15, 20, 22, 23, 24, 25, 26, 28, 32, 33)


def choose_recipes(rng, wanted):
    """One recipe of each group, then those of their own that are not yet among them."""
    recipes = all_recipes()
    chosen = [rng.choice(group) for group in by_group(recipes).values()]
    others = [recipe for recipe in recipes if recipe.own and recipe not in chosen]
    rng.shuffle(others)
    return chosen + others[: max(0, wanted - len(chosen))]


def make_cases(wanted, seed):
    """Pairs of a recipe and its case, each held against what it was made for."""
    rng = Random(seed)
    made = [(recipe, recipe.make(rng)) for recipe in choose_recipes(rng, wanted)]
    source = RandomCases(rng)
    while len(made) < wanted:
        recipe, case = source.next()
        if not recipe.huge:
            made.append((recipe, case))
    answered = []
    for recipe, case in made:
        line = conferir(case.data)
        if case.line not in (None, line):
            raise AssertionError(f"{recipe.group}: made for {case.line}, judged {line}")
        answered.append((recipe, case.data, line))
    return answered


# The coverage table


def print_table(title, cells):
    """A table of counts by topic and book; `cells` counts pairs of the two."""
    books = [*BOOKS, ANY_BOOK]
    print(f"\n{title:44}" + "".join(f"{book:>5}" for book in books))
    for topic in dict.fromkeys(topic for topic, _ in cells):
        counts = (cells.get((topic, book), "") for book in books)
        print(f"  {topic:42}" + "".join(f"{count:>5}" for count in counts))


def book_of(data):
    letter = data[:1].decode("latin-1")
    return letter if letter in BOOKS and data[1:2] == b"\n" else ANY_BOOK


def answer_of(line):
    return "accepted" if line.startswith("OK") else f"refused by {int(line[5:7])}"


def print_coverage(answered):
    answers = Counter((answer_of(line), book_of(data)) for _, data, line in answered)
    order = ["accepted", *(f"refused by {number}" for number in NUMBERS)]
    by_answer = {key: answers[key] for key in sorted(answers, key=lambda k: order.index(k[0]))}
    print_table("answer (-: the input names no book)", by_answer)

    families = {}
    for recipe, _, _ in answered:
        cells = families.setdefault(recipe.family, Counter())
        cells[recipe.topic, recipe.book] += 1
    for family, cells in families.items():
        print_table(f"{family} (-: a book at random)", cells)

    missing = set(order) - {answer for answer, _ in answers}
    print(f"\n{len(answered)} cases, {sum(map(len, families.values()))} groups;",
          f"answers that never come up: {', '.join(sorted(missing)) or 'none'}")


def main():
    parser = argparse.ArgumentParser(description="Writes cases.bin and expected.txt.")
    parser.add_argument("cases", nargs="?", type=int, default=DEFAULT_CASES)
    parser.add_argument("seed", nargs="?", type=int, default=DEFAULT_SEED)
    parser.add_argument("--out", default=".", help="where the two files are written")
    options = parser.parse_args()

    answered = make_cases(options.cases, options.seed)
    size = 0
    with (
        open(os.path.join(options.out, "cases.bin"), "wb") as cases,
        open(os.path.join(options.out, "expected.txt"), "w", encoding="ascii") as expected,
    ):
        for _, data, line in answered:
            size += cases.write(as_case(data))
            expected.write(line + "\n")
    print_coverage(answered)
    print(f"cases.bin has {size:,} bytes")


if __name__ == "__main__":
    main()
