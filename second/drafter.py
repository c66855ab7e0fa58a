"""The drafter: prints entries as rows, and refuses what a draft refuses.

It shares only the books with the judge. What fields and files may hold is said here a
second time, from the writer's side, so that each of the two can be held against the other.
"""

from dataclasses import dataclass, replace
from typing import NamedTuple, Optional

from books import GIVEN_AS_BYTES, LARGEST_ROW, LARGEST_SUM, Book, Sort, is_date
from refusals import Refused


class Slice(NamedTuple):
    """A value that lies in an entry's pool."""

    place: int
    length: int


@dataclass(frozen=True)
class Entry:
    mark: str
    values: tuple  # numbers and slices
    pool: bytes = b""


def make_entry(mark, contents):
    """An entry of plain contents, numbers and bytes; the bytes are laid into its pool."""
    pool = b""
    values = []
    for content in contents:
        if isinstance(content, bytes):
            values.append(Slice(len(pool), len(content)))
            pool += content
        else:
            values.append(content)
    return Entry(mark, tuple(values), pool)


def entry_of(kind, contents):
    return make_entry(kind.mark, [contents[field.start] for field in kind.given])


# Worked fields


@dataclass(frozen=True)
class Tally:
    """What follows from the rows so far, the last one included."""

    book: Book
    place: int = 0
    mark: str = ""
    owner_place: int = 0
    owner: Optional[dict] = None
    followers: int = 0
    total: int = 0
    count: int = 0

    def with_row(self, mark, contents):
        tally = replace(
            self,
            place=self.place + 1,
            mark=mark,
            total=self.total + self.book.added_amount(mark, contents),
            count=self.count + (mark in self.book.counted),
        )
        if self.book.is_owner(mark):
            return replace(tally, owner_place=tally.place, owner=contents, followers=0)
        if self.book.is_follower(mark):
            return replace(tally, followers=self.followers + 1)
        return tally

    def worked(self, sort):
        return {
            Sort.ROW_NUMBER: self.place,
            Sort.OWNER_NUMBER: self.owner_place,
            Sort.TOTAL: self.total,
            Sort.COUNT: self.count,
        }.get(sort)


# Printing


def print_field(field, content):
    if field.sort in (Sort.CONSTANT, Sort.BLANK):
        content = field.content
    if isinstance(content, bytes):
        return content.ljust(field.width)
    # Only a list that a draft refuses (26) has a total that is too wide. It is printed
    # all the same, by its last digits, so that the judge can be shown such a file.
    return (b"%0*d" % (field.width, content))[-field.width :]


def print_row(kind, contents, tally):
    """The row of these contents; the tally is the one that includes the row."""
    row = b""
    for field in kind.fields:
        worked = tally.worked(field.sort)
        content = contents.get(field.start) if worked is None else worked
        row += print_field(field, content)
    return row


def print_rows(book, items):
    """The rows of a list of (mark, contents), legal or not, without judging it."""
    tally = Tally(book)
    rows = []
    for mark, contents in items:
        tally = tally.with_row(mark, contents)
        rows.append(print_row(book.kinds[mark], contents, tally))
    return rows


# Refusing


def _values_of(kind, entry):
    """The contents of an entry's values by their fields' starts, or refusal 31."""
    fields = kind.given
    if len(entry.values) != len(fields):
        raise Refused(31, min(len(entry.values), len(fields)) + 1)
    contents = {}
    for number, (field, value) in enumerate(zip(fields, entry.values), 1):
        as_bytes = isinstance(value, Slice)
        if as_bytes != (field.sort in GIVEN_AS_BYTES):
            raise Refused(31, number)
        if as_bytes:
            end = value.place + value.length
            if end > len(entry.pool):
                raise Refused(31, number)
            value = entry.pool[value.place : end]
        contents[field.start] = value
    return contents


def _has_wrong_size(field, content):
    if field.sort is Sort.LONG_DIGITS:
        return len(content) != field.width
    if field.sort in GIVEN_AS_BYTES:
        return len(content) > field.width
    return content >= 10**field.width


def _first_bad_byte(field, content):
    """The offset of the first byte outside the sort, or None."""
    last = len(content) - 1
    for offset, byte in enumerate(content):
        if field.sort is Sort.LONG_DIGITS:
            good = 48 <= byte <= 57
        else:
            good = 33 <= byte <= 126 or byte == 32 and 0 < offset < last
        if not good:
            return offset
    return None


def refuse_content(field, content, place):
    """Raise the refusal of a content that may not stand in a field."""
    # A content of the wrong size is 13 and nothing else is told of it.
    if _has_wrong_size(field, content):
        raise Refused(13, place, field.start)
    if field.sort in GIVEN_AS_BYTES:
        bad = _first_bad_byte(field, content)
        if bad is not None:
            raise Refused(11, place, field.start + bad)
    if not field.is_filled(content):
        if field.required:
            raise Refused(12, place, field.start)
        return
    if field.choices and content not in field.choices:
        raise Refused(13, place, field.start)
    if field.sort is Sort.DATE and not is_date(content):
        raise Refused(13, place, field.start)


class Carrier:
    """Rows in places. A push is refused when every place is used."""

    def __init__(self, places, rows=()):
        self.places = places
        self.rows = list(rows)

    def push(self, row):
        if len(self.rows) >= self.places:
            raise Refused(2, self.places)
        self.rows.append(row)


class Draft:
    """Writes one file on a carrier. A refused call changes nothing."""

    def __init__(self, book, carrier):
        self.book = book
        self.carrier = carrier
        self.state = "fresh"
        self.tally = Tally(book)

    def start(self, entry):
        self._take(entry, "fresh", self.book.header)
        self.state = "open"

    def add(self, entry):
        ends = (self.book.header, self.book.trailer)
        self._take(entry, "open", [mark for mark in self.book.kinds if mark not in ends])

    def close(self, entry):
        self._take(entry, "open", self.book.trailer)
        self.state = "closed"

    def _take(self, entry, state, marks):
        book, before = self.book, self.tally
        place = before.place + 1
        if self.state != state:
            raise Refused(30, 0, 0)
        if place > LARGEST_ROW:
            raise Refused(27, place, 0)
        kind = book.kinds.get(entry.mark)
        if kind is None:
            raise Refused(10, place, 1)
        contents = _values_of(kind, entry)
        if kind.mark not in marks:
            raise Refused(20, place, 1)
        if state == "open" and before.mark not in book.after[kind.mark]:
            raise Refused(20, place, 1)
        is_follower = book.is_follower(kind.mark)
        if is_follower and before.followers >= book.group.largest:
            raise Refused(21, place, 1)
        for field in kind.given:
            refuse_content(field, contents[field.start], place)
        for condition in kind.conditions:
            if not condition.holds(contents):
                raise Refused(15, place, condition.position)
        if is_follower:
            group, owner = book.group, before.owner
            if owner[group.owner_type] != group.dynamic:
                raise Refused(22, place, 1)
            if owner[group.owner_identifier] != contents[group.follower_identifier]:
                raise Refused(22, place, group.follower_identifier)
        tally = before.with_row(kind.mark, contents)
        if tally.total > LARGEST_SUM:
            raise Refused(26, place, book.summed[1])
        self.carrier.push(print_row(kind, contents, tally))
        self.tally = tally


def draft(book, entries):
    """The rows of a legal list of entries; raises the refusal of the first bad entry.

    The first entry is given by start, the last by close and those between by add.
    """
    carrier = Carrier(LARGEST_ROW)
    writer = Draft(book, carrier)
    last = len(entries) - 1
    for index, entry in enumerate(entries):
        if index == 0:
            writer.start(entry)
        elif index == last:
            writer.close(entry)
        else:
            writer.add(entry)
    return carrier.rows
