"""Compares another `conferir` with the judge on fresh random cases.

    python3 compare.py N SEED [--save FILE] --program PATH [ARGUMENT ...]
    python3 compare.py N SEED [--save FILE] --batch PATH [ARGUMENT ...]

With --program the program is started once for each case, reads the input on standard
input and prints its line. With --batch it is started once, reads all cases in the form
of cases.bin and prints one line for each. The first case in which the two differ is
shown, its input is saved, and the status is 1.
"""

import argparse
import subprocess
import sys
import time
from random import Random

from generate import RandomCases
from judge import conferir
from recipes import as_case

SECONDS_FOR_A_CASE = 60
REPORT_EVERY = 1000


class Difference(Exception):
    """The first case in which the two programs do not agree."""

    def __init__(self, number, recipe, data, expected, answer):
        super().__init__(number)
        self.number = number
        self.recipe = recipe
        self.data = data
        self.expected = expected
        self.answer = answer


def fresh_cases(count, seed):
    """Recipes, inputs and the judge's lines."""
    source = RandomCases(Random(seed))
    for _ in range(count):
        recipe, case = source.next()
        line = conferir(case.data)
        if case.line not in (None, line):
            raise AssertionError(f"{recipe.group}: made for {case.line}, judged {line}")
        yield recipe, case.data, line


def answer_of_program(command, data):
    """What the program prints, or what went wrong with it."""
    try:
        done = subprocess.run(command, input=data, capture_output=True, timeout=SECONDS_FOR_A_CASE)
    except subprocess.TimeoutExpired:
        return f"no answer in {SECONDS_FOR_A_CASE} seconds"
    text = done.stdout.decode("latin-1")
    if done.returncode != 0:
        return f"{text} (status {done.returncode}: {done.stderr.decode('latin-1').strip()})"
    # One line and nothing else: its LF is taken off, anything more is a difference.
    return text[:-1] if text.endswith("\n") else text + " (without LF)"


def compare_one_by_one(command, cases):
    for number, (recipe, data, expected) in enumerate(cases, 1):
        answer = answer_of_program(command, data)
        if answer != expected:
            raise Difference(number, recipe, data, expected, answer)
        if number % REPORT_EVERY == 0:
            print(f"{number} agreed", flush=True)


def compare_in_batch(command, cases):
    cases = list(cases)
    data = b"".join(as_case(data) for _, data, _ in cases)
    done = subprocess.run(command, input=data, stdout=subprocess.PIPE)
    answers = done.stdout.decode("latin-1").split("\n")
    for number, (recipe, data, expected) in enumerate(cases, 1):
        answer = answers[number - 1] if number <= len(answers) else "(nothing)"
        if answer != expected:
            raise Difference(number, recipe, data, expected, answer)
    if done.returncode != 0:
        sys.exit(f"every line agreed, but the program ended with status {done.returncode}")
    if answers[len(cases) :] != [""]:
        sys.exit("every line agreed, but the program printed more or no LF at the end")


def main():
    parser = argparse.ArgumentParser(description="Compares a conferir with the judge.")
    parser.add_argument("cases", type=int)
    parser.add_argument("seed", type=int)
    parser.add_argument("--save", default="differs.bin", help="where a differing input is saved")
    # Everything behind the path belongs to the program, whatever it looks like.
    rest = argparse.REMAINDER
    parser.add_argument("--program", nargs=rest, help="a path; started once for each case")
    parser.add_argument("--batch", nargs=rest, help="a path; started once for all cases")
    options = parser.parse_args()
    if not options.program and not options.batch:
        parser.error("say --program PATH or --batch PATH")

    cases = fresh_cases(options.cases, options.seed)
    begin = time.monotonic()
    try:
        if options.program:
            compare_one_by_one(options.program, cases)
        else:
            compare_in_batch(options.batch, cases)
    except Difference as found:
        with open(options.save, "wb") as file:
            file.write(found.data)
        print(f"{found.number - 1} agreed; case {found.number} does not")
        print(f"  made as:  {', '.join(filter(None, (*found.recipe.group, found.recipe.place)))}")
        print(f"  input:    {len(found.data)} bytes, saved in {options.save}")
        print(f"  judge:    {found.expected}")
        print(f"  program:  {found.answer}")
        sys.exit(1)
    seconds = time.monotonic() - begin
    print(f"{options.cases} of {options.cases} agreed, in {seconds:.0f} seconds")


if __name__ == "__main__":
    main()
