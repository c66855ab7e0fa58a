"""Recipes for files with several faults: only the first in the order of the checks counts."""

from random import Random

from books import BOOKS, LARGEST_SUM, Sort
from faults import broken_contents, group_marks, spoilers_of
from forms import some_book
from judge import HEX_LINE, no_line
from legal import around, inner_marks, text_of, walk
from recipes import ANY_BOOK, Case, Recipe, Sheet

FAMILY = "several faults"


def _recipe(book, topic, make, place=""):
    return Recipe(FAMILY, topic, book.letter, place, make)


def _spoil_field(rng, sheet, index, field):
    """Spoils a field in one of the ways it can be; answers the number and the position."""
    number, spoil = rng.choice(list(spoilers_of(field).items()))
    data, offset = spoil(rng, field)
    sheet.put(index, field.start, data)
    return number, field.start + offset


def _kind(sheet, index):
    return sheet.book.kinds[sheet.items[index].mark]


def _wrong_row_number(sheet, index):
    sheet.put_number(index, 745, index + 2)


# The input as a whole; forms.py has 33 before 32 among its lengths


def input_recipes():
    def letter_first(rng):
        return Case(rng.choice((b"X\n", b"P ")) + b"gg\n", no_line(32, 0, 0))

    def form_before_rows(rng):
        book = some_book(rng)
        sheet = Sheet.legal(rng, book, walk(rng, book, rng.randint(2, 4)))
        sheet.put(0, 1, b"?")
        lines = len(sheet.rows)
        return Case(sheet.data[:-1] + b"\r", no_line(1, lines, 0))

    def first_bad_byte(rng):
        book = some_book(rng)
        data = bytearray(Sheet.legal(rng, book, walk(rng, book, 4)).data)
        lines = sorted(rng.sample(range(4), 2))
        for line in lines:
            data[2 + line * HEX_LINE + rng.randrange(HEX_LINE)] = ord("x")
        return Case(bytes(data[:-5]), no_line(1, lines[0] + 1, 0))

    yield Recipe(FAMILY, "32 before 1", ANY_BOOK, "", letter_first)
    yield Recipe(FAMILY, "1 before every row", ANY_BOOK, "", form_before_rows)
    yield Recipe(FAMILY, "the first bad byte", ANY_BOOK, "", first_bad_byte)


# One row


def row_recipes(book):
    def mark_before_kinds(rng):
        """An unknown mark where no row may stand."""
        sheet = Sheet.legal(rng, book, walk(rng, book, 3) + [book.trailer])
        index = rng.choice((0, 3))
        sheet.put(index, 1, b"X")
        return sheet.refused(10, index, 1)

    def mark_before_fields(rng):
        sheet = Sheet.legal(rng, book, walk(rng, book, 3))
        index = rng.randrange(3)
        sheet.put(index, 1, b"X" * rng.randint(2, 750))
        return sheet.refused(10, index, 1)

    def kinds_before_fields(rng):
        sheet = Sheet.legal(rng, book, [book.header, book.header, book.trailer])
        sheet.put(1, 2, b"\x00" * rng.randint(1, 749))
        return sheet.refused(20, 1, 1)

    def first_kind_before_fields(rng):
        mark = rng.choice([*inner_marks(book), book.trailer])
        sheet = Sheet.legal(rng, book, [mark, book.trailer])
        sheet.put(0, 2, b"\x00" * rng.randint(1, 749))
        return sheet.refused(20, 0, 1)

    def fields_by_position(rng):
        marks, index = around(rng, book, rng.choice(list(book.kinds)))
        sheet = Sheet.legal(rng, book, marks)
        some = rng.sample(_kind(sheet, index).fields[1:], 2)
        told = {field.start: _spoil_field(rng, sheet, index, field) for field in some}
        number, position = told[min(told)]
        return sheet.refused(number, index, position)

    def bytes_before_values(rng):
        """One field that is both not filled, or not listed, and not of its sort."""
        marks, index = around(rng, book, rng.choice((book.header, *inner_marks(book))))
        sheet = Sheet.legal(rng, book, marks)
        required = [field for field in _kind(sheet, index).given if field.required]
        field = rng.choice([field for field in required if field.sort is not Sort.WORD])
        if field.sort is Sort.TEXT:
            sheet.put(index, field.start, b" " * (field.width - 1) + b"\x7f")
            return sheet.refused(11, index, field.start)
        sheet.put(index, field.start, b"0" * (field.width - 1) + b" ")
        return sheet.refused(11, index, field.start + field.width - 1)

    def fields_before_numbers(rng):
        """A field's fault, and the wrong row number behind it."""
        marks, index = around(rng, book, rng.choice(list(book.kinds)))
        sheet = Sheet.legal(rng, book, marks)
        _wrong_row_number(sheet, index)
        field = rng.choice(_kind(sheet, index).fields[1:-1])
        number, position = _spoil_field(rng, sheet, index, field)
        return sheet.refused(number, index, position)

    yield _recipe(book, "10 before 20", mark_before_kinds)
    yield _recipe(book, "10 before fields", mark_before_fields)
    yield _recipe(book, "20 before fields", kinds_before_fields, "second row")
    yield _recipe(book, "20 before fields", first_kind_before_fields, "first row")
    yield _recipe(book, "fields by position", fields_by_position)
    yield _recipe(book, "11 before 12 and 13", bytes_before_values)
    yield _recipe(book, "fields before 23", fields_before_numbers)


# Conditions


def _codes(kind, contents):
    return {start: value for start, value in contents.items()
            if kind.field(start).sort is Sort.CODE}


def _breakable_from(book, kind, first):
    """A condition and those behind it that can be broken with it.

    Two cannot where a code would have to be two numbers at once.
    """
    together, codes = [], {}
    for condition in kind.conditions[kind.conditions.index(first) :]:
        wanted = _codes(kind, broken_contents(Random(0), book, kind.mark, condition))
        if all(codes.get(start, value) == value for start, value in wanted.items()):
            together.append(condition)
            codes |= wanted
    return together


def _with_broken(rng, book, kind, *broken):
    """A small file with a row that breaks these conditions, and that row's index.

    Conditions behind the first of them may be broken too; nobody gets to look at them.
    """
    marks, index = around(rng, book, kind.mark)
    contents = {}
    for condition in broken:
        contents |= broken_contents(rng, book, kind.mark, condition, given=contents)
    rest = kind.conditions[kind.conditions.index(broken[0]) :]
    options = {"fixed": {index: contents}, "exempt": {index: rest}}
    return Sheet.legal(rng, book, marks, **options), index


def condition_recipes(book, kind):
    for number, first in enumerate(kind.conditions[:-1], 1):
        yield _many_conditions(book, kind, number, _breakable_from(book, kind, first))

    def fields_first(rng):
        """The condition's fields all stand before the field that counts."""
        condition = rng.choice(kind.conditions)
        sheet, index = _with_broken(rng, book, kind, condition)
        field = rng.choice(kind.fields[-2:])
        number, position = _spoil_field(rng, sheet, index, field)
        return sheet.refused(number, index, position)

    def before_numbers(rng):
        condition = rng.choice(kind.conditions)
        sheet, index = _with_broken(rng, book, kind, condition)
        _wrong_row_number(sheet, index)
        return sheet.refused(15, index, condition.position)

    yield _recipe(book, "fields before 15", fields_first)
    yield _recipe(book, "15 before 23", before_numbers)


def _many_conditions(book, kind, number, broken):
    def make(rng):
        sheet, index = _with_broken(rng, book, kind, *broken)
        return sheet.refused(15, index, broken[0].position)

    return _recipe(book, f"condition {number} before later ones", make)


# Groups and sums


def group_recipes(book):
    group = book.group
    static = {group.owner_type: 1}

    def static_group(rng):
        """A file with a group whose owner is static, and the first follower's index."""
        marks, _ = group_marks(rng, book)
        index = marks.index(group.follower)
        owner = static | {group.owner_identifier: text_of(rng, rng.randint(1, 25))}
        return Sheet.legal(rng, book, marks, fixed={index - 1: owner}), index

    def foreign_group(rng):
        """A file whose last follower names another owner, and that follower's index."""
        marks, index = group_marks(rng, book)
        foreign = {group.follower_identifier: text_of(rng, 35)}
        return Sheet.legal(rng, book, marks, fixed={index: foreign}), index

    def fields_first(rng):
        sheet, index = rng.choice((static_group, foreign_group))(rng)
        field = rng.choice(_kind(sheet, index).fields[2:])
        number, position = _spoil_field(rng, sheet, index, field)
        return sheet.refused(number, index, position)

    def type_first(rng):
        sheet, index = static_group(rng)
        sheet.put(index, group.follower_identifier, text_of(rng, 35))
        return sheet.refused(22, index, 1)

    def before_numbers(rng):
        sheet, index = foreign_group(rng)
        sheet.put_number(index, 739, index + 1)
        _wrong_row_number(sheet, index)
        return sheet.refused(22, index, group.follower_identifier)

    def owner_number_first(rng):
        marks, index = group_marks(rng, book)
        sheet = Sheet.legal(rng, book, marks)
        sheet.put_number(index, 739, index + 1)
        _wrong_row_number(sheet, index)
        return sheet.refused(23, index, 739)

    yield _recipe(book, "fields before 22", fields_first)
    yield _recipe(book, "22 type before identifier", type_first)
    yield _recipe(book, "22 before 23", before_numbers)
    yield _recipe(book, "23 owner number before row number", owner_number_first)


def sum_recipes(book):
    mark, start = book.summed

    def too_much(rng):
        marks = [book.header, mark, mark, book.trailer]
        amounts = {1: {start: LARGEST_SUM}, 2: {start: rng.choice((1, LARGEST_SUM))}}
        return Sheet.legal(rng, book, marks, fixed=amounts)

    def numbers_first(rng):
        sheet = too_much(rng)
        _wrong_row_number(sheet, 2)
        return sheet.refused(23, 2, 745)

    def before_later_rows(rng):
        sheet = too_much(rng)
        sheet.put(3, 1, b"X")
        return sheet.refused(26, 2, start)

    yield _recipe(book, "23 before 26", numbers_first)
    yield _recipe(book, "26 before later rows", before_later_rows)


# The trailer, and rows one after the other


def trailer_recipes(book):
    kind = book.kinds[book.trailer]
    worked = {field.sort: field for field in kind.fields}
    total, count = worked.get(Sort.TOTAL), worked[Sort.COUNT]

    def wrong_trailer(rng):
        """A file whose trailer has everything wrong but its row number."""
        sheet = Sheet.legal(rng, book, walk(rng, book, rng.randint(2, 4)))
        index = len(sheet.rows) - 1
        if total:
            sheet.put_number(index, total.start, sheet.total + 1)
        sheet.put_number(index, count.start, len(sheet.rows) + 1)
        return sheet, index

    def fields_first(rng):
        sheet, index = wrong_trailer(rng)
        blank = worked[Sort.BLANK]
        number, position = _spoil_field(rng, sheet, index, rng.choice((blank, count)))
        return sheet.refused(number, index, position)

    def numbers_first(rng):
        sheet, index = wrong_trailer(rng)
        _wrong_row_number(sheet, index)
        return sheet.refused(23, index, 745)

    def total_first(rng):
        sheet, index = wrong_trailer(rng)
        return sheet.refused(24, index, total.start)

    def before_next_row(rng):
        sheet, index = wrong_trailer(rng)
        sheet.rows.append(sheet.rows[0])
        number, field = (24, total) if total else (25, count)
        return sheet.refused(number, index, field.start)

    yield _recipe(book, "fields before 24 and 25", fields_first)
    yield _recipe(book, "23 before 24 and 25", numbers_first)
    if total:
        yield _recipe(book, "24 before 25", total_first)
    yield _recipe(book, "24 and 25 before the next row", before_next_row)

    def row_by_row(rng):
        """An earlier row's late check counts before a later row's first."""
        sheet = Sheet.legal(rng, book, walk(rng, book, rng.randint(3, 5)))
        early, late = sorted(rng.sample(range(len(sheet.rows)), 2))
        _wrong_row_number(sheet, early)
        sheet.put(late, 1, b"X")
        return sheet.refused(23, early, 745)

    def missing_trailer_last(rng):
        sheet = Sheet.legal(rng, book, walk(rng, book, rng.randint(2, 4))[:-1])
        index = rng.randrange(len(sheet.rows))
        _wrong_row_number(sheet, index)
        return sheet.refused(23, index, 745)

    yield _recipe(book, "row by row", row_by_row)
    yield _recipe(book, "28 last", missing_trailer_last)


# Faults at random


def spoil_somewhere(rng, sheet):
    """Spoils, moves, drops or doubles something; the file may even stay legal."""
    rows = sheet.rows
    way = rng.random()
    index = rng.randrange(len(rows))
    if way < 0.6:
        kind = sheet.book.kinds.get(chr(rows[index][0]))
        if kind:
            field = rng.choice(kind.fields[1:])
            data, _ = rng.choice(list(spoilers_of(field).values()))(rng, field)
            sheet.put(index, field.start, data)
    elif way < 0.7:
        sheet.put(index, rng.randint(1, 750), rng.randbytes(1))
    elif way < 0.75:
        sheet.put(index, 1, rng.choice(list(sheet.book.kinds)).encode())
    elif way < 0.8:
        sheet.put(index, 745, b"%06d" % rng.randint(0, len(rows) + 1))
    elif way < 0.85 and len(rows) > 1:
        del rows[index]
    elif way < 0.9:
        rows.insert(index, rng.choice(rows))
    elif way < 0.95:
        other = rng.randrange(len(rows))
        rows[index], rows[other] = rows[other], rows[index]
    else:
        # Fields of one row in another of its kind: nearly right, and often wrong.
        position, length = rng.randint(2, 750), rng.randint(1, 200)
        donor = rng.choice(rows)[position - 1 : position - 1 + length]
        sheet.put(index, position, donor)


def random_faults(book):
    def make(rng):
        sheet = Sheet.legal(rng, book, walk(rng, book, rng.randint(2, 7)))
        for _ in range(rng.choice((1, 2, 2, 3, 4))):
            spoil_somewhere(rng, sheet)
        return Case(sheet.data, None)

    return Recipe("random faults", "one to four", book.letter, "", make)


def order_recipes():
    yield from input_recipes()
    for book in BOOKS.values():
        yield from row_recipes(book)
        for kind in book.kinds.values():
            if kind.conditions:
                yield from condition_recipes(book, kind)
        if book.group:
            yield from group_recipes(book)
        if book.summed:
            yield from sum_recipes(book)
        yield from trailer_recipes(book)
        yield random_faults(book)
