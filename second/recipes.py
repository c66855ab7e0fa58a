"""What the makers of cases share: cases, recipes, and files that are being spoilt."""

from random import Random
from typing import Callable, NamedTuple, Optional

from books import Book
from drafter import print_rows
from judge import no_line, ok_line
from legal import legal_items


class Case(NamedTuple):
    """An input of `conferir` and the line that it was made for, if its maker knows it."""

    data: bytes
    line: Optional[str]


def as_case(data):
    """An input in a list of cases: its length, LF, the input itself, LF."""
    return b"%d\n%b\n" % (len(data), data)


ANY_BOOK = "-"


class Recipe(NamedTuple):
    """Makes cases of one sort.

    Recipes that agree in family, topic and book are a group: they test the same rule at
    different places. A recipe is `own` if the book says something about its place that
    no other recipe tests, so that it is worth a case even if its group has one.
    """

    family: str
    topic: str
    book: str  # a letter, or ANY_BOOK where each case takes a book at random
    place: str
    make: Callable[[Random], Case]
    huge: bool = False
    own: bool = False

    @property
    def group(self):
        return self.family, self.topic, self.book


def feed(book, rows):
    """The input of `conferir` for these rows."""
    lines = "".join(row.hex().upper() + "\n" for row in rows)
    return f"{book.letter}\n{lines}".encode()


class Sheet:
    """A file whose rows can be spoilt one by one; rows are named by their index, from 0."""

    def __init__(self, book: Book, items):
        self.book = book
        self.items = items
        self.rows = print_rows(book, items)

    @classmethod
    def legal(cls, rng, book, marks, **options):
        return cls(book, legal_items(rng, book, marks, **options))

    def field(self, index, start):
        return self.book.kinds[self.items[index].mark].field(start)

    def put(self, index, position, data):
        row = self.rows[index]
        self.rows[index] = row[: position - 1] + data + row[position - 1 + len(data) :]

    def put_number(self, index, start, number):
        self.put(index, start, b"%0*d" % (self.field(index, start).width, number))

    @property
    def data(self):
        return feed(self.book, self.rows)

    @property
    def total(self):
        return sum(self.book.added_amount(*item) for item in self.items)

    def accepted(self):
        return Case(self.data, ok_line(len(self.rows), self.total))

    def refused(self, number, index, position):
        return Case(self.data, no_line(number, index + 1, position))
