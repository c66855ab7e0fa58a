"""Recipes for what `conferir` finds before it looks at rows: refusals 33, 32 and 1."""

from books import BOOKS
from judge import HEX_LINE, LARGEST_INPUT, no_line
from legal import walk
from recipes import ANY_BOOK, Case, Recipe, Sheet

LINE_END = HEX_LINE - 1  # the index, from 0, of the LF in its line
HEAD = 2  # the letter and its LF


def some_book(rng):
    return rng.choice(list(BOOKS.values()))


def small_sheet(rng):
    book = some_book(rng)
    return Sheet.legal(rng, book, walk(rng, book, rng.choice((2, 2, 3, 4))))


# 1: the form


def _put(data, index, new, replaced=1):
    return data[:index] + new + data[index + replaced :]


def _replaced(name, bytes_of, places_of):
    """One byte of one line is replaced by another."""

    def make(rng):
        data = small_sheet(rng).data
        line = rng.randrange(len(data) // HEX_LINE)
        index = HEAD + line * HEX_LINE + places_of(rng)
        new = rng.choice([byte for byte in bytes_of if byte != data[index]])
        return Case(_put(data, index, bytes([new])), no_line(1, line + 1, 0))

    return Recipe("form (1)", name, ANY_BOOK, "", make)


def _inserted(name, new, place_of, replaced=0):
    """Bytes are put in, or taken out, and the rest of the input moves."""

    def make(rng):
        data = small_sheet(rng).data
        line = rng.randrange(len(data) // HEX_LINE)
        index = HEAD + line * HEX_LINE + place_of(rng)
        return Case(_put(data, index, new, replaced), no_line(1, line + 1, 0))

    return Recipe("form (1)", name, ANY_BOOK, "", make)


def _ended(name, change):
    """The end of the input is changed; `change` answers the input and its bad line."""

    def make(rng):
        data = small_sheet(rng).data
        lines = len(data) // HEX_LINE
        data, line = change(rng, data, lines)
        return Case(data, no_line(1, line, 0))

    return Recipe("form (1)", name, ANY_BOOK, "", make)


def _cut(rng, data, lines):
    """Cuts the last line to between one digit and all but one of its bytes."""
    return data[: -rng.randint(2, LINE_END)], lines


def _in_another_form(end):
    def change(rng, data, lines):
        sheet = small_sheet(rng)
        rows = b"".join(row + end for row in sheet.rows)
        return sheet.data[:HEAD] + rows, 1

    return change


def form_recipes():
    def anywhere(rng):
        return rng.randrange(LINE_END)

    def high(rng):
        return 2 * rng.randrange(LINE_END // 2)

    def low(rng):
        return high(rng) + 1

    def at_end(rng):
        return LINE_END

    def second_to_last(rng):
        return LINE_END - 1

    yield _replaced("small letter for a high digit", b"abcdef", high)
    yield _replaced("small letter for a low digit", b"abcdef", low)
    for byte in b"/:@G`g":
        yield _replaced(f"{chr(byte)} for a digit", bytes([byte]), anywhere)
    yield _replaced("blank for a digit", b" ", anywhere)
    yield _replaced("control or high byte for a digit", b"\x00\x09\x7f\xb0\xff", anywhere)
    yield _replaced("LF for a digit", b"\n", anywhere)
    yield _replaced("first digit of a line", b"\r\nxX", lambda rng: 0)
    yield _replaced("last digit of a line", b"\r\nxX", second_to_last)
    yield _replaced("CR for LF", b"\r", at_end)
    yield _replaced("digit for LF", b"0A", at_end)
    yield _replaced("blank or zero byte for LF", b" \x00", at_end)

    yield _inserted("CR before LF", b"\r", at_end)
    yield _inserted("extra digit in a line", b"0", anywhere)
    yield _inserted("digit missing in a line", b"", anywhere, replaced=1)
    yield _inserted("empty line", b"\n", lambda rng: 0)

    yield _ended("last LF missing", lambda rng, data, lines: (data[:-1], lines))
    yield _ended("last line cut", _cut)
    yield _ended("one digit left of the last line",
                 lambda rng, data, lines: (data[: -LINE_END], lines))
    yield _ended("extra LF at the end", lambda rng, data, lines: (data + b"\n", lines + 1))
    yield _ended("extra digit at the end", lambda rng, data, lines: (data + b"0", lines + 1))
    yield _ended("extra other byte at the end", lambda rng, data, lines: (
        data + bytes([rng.choice(b"\r \x00\x1a\xff")]), lines + 1))
    yield _ended("flat for hexadecimal", _in_another_form(b""))
    yield _ended("lined for hexadecimal", _in_another_form(b"\r\n"))


# 32: the letter


def _headed(name, heads):
    """The two first bytes of a legal input are replaced."""

    def make(rng):
        rows = small_sheet(rng).data[HEAD:]
        return Case(rng.choice(heads) + rows, no_line(32, 0, 0))

    return Recipe("head (32)", name, ANY_BOOK, "", make)


def letter_recipes():
    yield _headed("small letter", (b"p\n", b"q\n", b"s\n"))
    others = b"ORTA0 \x00\xd0"
    yield _headed("another letter", [bytes([byte]) + b"\n" for byte in others])
    yield _headed("CR LF behind the letter", (b"P\r\n", b"Q\r\n", b"S\r\n"))
    yield _headed("no LF behind the letter", (b"P", b"Q", b"S", b"P ", b"Q\r", b"S\x00"))
    yield _headed("no letter", (b"", b"\n", b"\n\n"))
    yield _headed("something before the letter", (b"\xef\xbb\xbfP\n", b" Q\n", b"\nS\n"))
    yield _headed("two letters", (b"PQ\n", b"SS\n", b"QP"))


# Lengths


def _exactly(length, name, inputs):
    """A short input of a fixed length; `inputs` maps the bytes to the refusal's number."""

    def make(rng):
        data, number = rng.choice(list(inputs.items()))
        assert len(data) == length
        row = 1 if number == 1 else 0
        return Case(data, no_line(number, row, 0))

    return Recipe("length (33)", f"{length} bytes: {name}", ANY_BOOK, "", make)


def _huge(length, name, change, number, row):
    """An input made from a legal one of 40 rows, which is the largest that is read."""

    def make(rng):
        book = some_book(rng)
        data = change(rng, Sheet.legal(rng, book, walk(rng, book, 40)).data)
        assert len(data) == length
        return Case(data, no_line(number, row, 0))

    return Recipe("length (33)", f"{length} bytes: {name}", ANY_BOOK, "", make, huge=True)


def _forty_one(rng):
    book = some_book(rng)
    return Case(Sheet.legal(rng, book, walk(rng, book, 41)).data, no_line(33, 0, 0))


def length_recipes():
    heads = {b"P\n": 28, b"Q\n": 28, b"S\n": 28}
    no_heads = {b"PP": 32, b"P\r": 32, b"\nQ": 32, b"p\n": 32, b"\n\n": 32, b"S ": 32}
    yield _exactly(0, "nothing", {b"": 32})
    yield _exactly(1, "a letter", {b"P": 32, b"Q": 32, b"S": 32})
    yield _exactly(1, "another byte", {b"\n": 32, b"p": 32, b"\x00": 32})
    yield _exactly(2, "a head", heads)
    yield _exactly(2, "no head", no_heads)
    yield _exactly(3, "a head and a byte", {b"P\n\n": 1, b"Q\n0": 1, b"S\n\r": 1})

    full = LARGEST_INPUT
    yield _huge(full - 1, "last LF missing", lambda rng, data: data[:-1], 1, 40)
    yield _huge(full, "last LF wrong", lambda rng, data: data[:-1] + b"0", 1, 40)
    yield _huge(full, "wrong letter", lambda rng, data: b"R" + data[1:], 32, 0)
    yield _huge(full + 1, "a digit more", lambda rng, data: data + b"0", 33, 0)
    yield _huge(full + 1, "a byte more and a wrong letter",
                lambda rng, data: b"x" + data[1:] + b"\n", 33, 0)
    yield Recipe("length (33)", "61543 bytes: 41 rows", ANY_BOOK, "", _forty_one, huge=True)
