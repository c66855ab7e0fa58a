"""The judge: what `check` answers for rows, and the line that `conferir` prints.

Run as a program it is a `conferir` of its own: it reads an input on standard input and
prints the line. With `--batch` it reads many inputs, each as its length in decimal digits,
LF, the input itself and LF, and prints one line for each.
"""

import sys
from typing import NamedTuple

from books import BOOKS, LARGEST_ROW, LARGEST_SUM, ROW_BYTES, Sort, is_date
from refusals import Refused

BLANK = 32
DIGITS = frozenset(b"0123456789")
HEX_DIGITS = frozenset(b"0123456789ABCDEF")
LF = 10
HEX_LINE = 2 * ROW_BYTES + 1
LARGEST_INPUT = 2 + 40 * HEX_LINE


class Accepted(NamedTuple):
    rows: int
    total: int


# One field


def _refuse_printed(field, data, place):
    """14: a constant or a blank is exactly what the book prints."""
    for offset, byte in enumerate(field.content.ljust(field.width)):
        if data[offset] != byte:
            raise Refused(14, place, field.start + offset)


def _read_text(field, data, place):
    """The text without the blanks at its end; 11 if it breaks the rule of a text."""
    text = data.rstrip(b" ")
    if text and text[0] == BLANK:
        raise Refused(11, place, field.start)
    for offset, byte in enumerate(text):
        if not 32 <= byte <= 126:
            raise Refused(11, place, field.start + offset)
    return text


def _read_digits(field, data, place):
    for offset, byte in enumerate(data):
        if byte not in DIGITS:
            raise Refused(11, place, field.start + offset)
    return data


def read_field(field, row, place):
    """What a field of a row means, or the field's refusal."""
    data = field.cut(row)
    if field.sort in (Sort.CONSTANT, Sort.BLANK):
        _refuse_printed(field, data, place)
        return None

    if field.sort in (Sort.TEXT, Sort.WORD):
        content = _read_text(field, data, place)
    elif field.sort is Sort.LONG_DIGITS:
        content = _read_digits(field, data, place)
    else:
        content = int(_read_digits(field, data, place))

    filled = field.is_filled(content)
    if field.required and not filled:
        raise Refused(12, place, field.start)
    if filled:
        listed = field.sort in (Sort.WORD, Sort.CODE)
        if listed and content not in field.choices:
            raise Refused(13, place, field.start)
        if field.sort is Sort.DATE and not is_date(content):
            raise Refused(13, place, field.start)
    return content


# One row


def kind_of(book, row, place):
    kind = book.kinds.get(chr(row[0]))
    if kind is None:
        raise Refused(10, place, 1)
    return kind


def read_contents(kind, row, place):
    """The contents of a row whose fields are legal and whose conditions are kept."""
    contents = {field.start: read_field(field, row, place) for field in kind.fields}
    for condition in kind.conditions:
        if not condition.holds(contents):
            raise Refused(15, place, condition.position)
    return contents


def given_values(kind, contents):
    """The values that an entry for this row has, in the order of the fields."""
    return [contents[field.start] for field in kind.given]


# The file


def check(book, rows):
    """Accept a file, or raise its first refusal."""
    place = 0
    before = None  # the mark of the row before
    owner_place, owner, followers = 0, None, 0
    total, count = 0, 0

    for place, row in enumerate(rows, 1):
        if place > LARGEST_ROW:
            raise Refused(27, place, 0)
        kind = kind_of(book, row, place)
        mark = kind.mark

        in_order = mark == book.header if place == 1 else before in book.after[mark]
        if not in_order:
            raise Refused(20, place, 1)
        is_follower = book.is_follower(mark)
        if is_follower and followers >= book.group.largest:
            raise Refused(21, place, 1)

        contents = read_contents(kind, row, place)

        if is_follower:
            _refuse_stranger(book.group, owner, contents, place)
        for field in kind.fields:
            wrong_row = field.sort is Sort.ROW_NUMBER and contents[field.start] != place
            wrong_owner = (
                field.sort is Sort.OWNER_NUMBER and contents[field.start] != owner_place
            )
            if wrong_row or wrong_owner:
                raise Refused(23, place, field.start)

        total += book.added_amount(mark, contents)
        if total > LARGEST_SUM:
            raise Refused(26, place, book.summed[1])
        if mark in book.counted:
            count += 1
        for field in kind.fields:
            if field.sort is Sort.TOTAL and contents[field.start] != total:
                raise Refused(24, place, field.start)
        for field in kind.fields:
            if field.sort is Sort.COUNT and contents[field.start] != count:
                raise Refused(25, place, field.start)

        before = mark
        if book.is_owner(mark):
            owner_place, owner, followers = place, contents, 0
        elif is_follower:
            followers += 1

    if before != book.trailer:
        raise Refused(28, place, 0)
    return Accepted(place, total)


def _refuse_stranger(group, owner, contents, place):
    """22: a follower belongs to a dynamic owner and names it."""
    if owner[group.owner_type] != group.dynamic:
        raise Refused(22, place, 1)
    if owner[group.owner_identifier] != contents[group.follower_identifier]:
        raise Refused(22, place, group.follower_identifier)


# The program


def open_hexadecimal(data):
    """The rows of the hexadecimal form; 1 with the index of the first bad byte."""
    for index, byte in enumerate(data):
        at_end = index % HEX_LINE == HEX_LINE - 1
        if at_end and byte != LF or not at_end and byte not in HEX_DIGITS:
            raise Refused(1, index)
    if len(data) % HEX_LINE:
        raise Refused(1, len(data))
    return [
        bytes.fromhex(data[begin : begin + HEX_LINE - 1].decode("ascii"))
        for begin in range(0, len(data), HEX_LINE)
    ]


def _judge_input(data):
    if len(data) > LARGEST_INPUT:
        raise Refused(33, 0, 0)
    book = BOOKS.get(chr(data[0])) if data[1:2] == b"\n" else None
    if book is None:
        raise Refused(32, 0, 0)
    try:
        rows = open_hexadecimal(data[2:])
    except Refused as refused:
        # The program tells the line of the bad byte, not its index. Where the last
        # line is cut short, the index is the length and so lies in that line.
        raise Refused(1, refused.first // HEX_LINE + 1, 0) from None
    return check(book, rows)


def ok_line(rows, total):
    return f"OK rows={rows:05d} total={total:017d}"


def no_line(number, row, position):
    return f"NO n={number:02d} row={row:05d} pos={position:03d}"


def conferir(data):
    """The line that `conferir` prints for an input."""
    try:
        return ok_line(*_judge_input(data))
    except Refused as refused:
        return no_line(refused.number, refused.first, refused.second)


def read_cases(stream):
    """The inputs of a list of cases."""
    while head := stream.readline():
        data = stream.read(int(head))
        if stream.read(1) != b"\n":
            sys.exit("this is no list of cases")
        yield data


def main():
    if sys.argv[1:] == ["--batch"]:
        for data in read_cases(sys.stdin.buffer):
            print(conferir(data))
    elif not sys.argv[1:]:
        print(conferir(sys.stdin.buffer.read()))
    else:
        sys.exit("usage: judge.py [--batch]")


if __name__ == "__main__":
    main()
