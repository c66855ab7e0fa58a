"""Recipes for legal files and for files with one fault that `check` finds."""

from books import (
    BOOKS,
    LARGEST_SUM,
    PRINTED,
    AtMost,
    Filled,
    Is,
    LengthAtMost,
    NotFilled,
    Sort,
)
from drafter import print_field
from judge import no_line
from legal import (
    FULL,
    around,
    filled,
    inner_marks,
    lead_to,
    not_filled,
    text_of,
    walk,
)
from recipes import ANY_BOOK, Case, Recipe, Sheet, feed

# Bytes just outside the digits and the texts, and some that parsers like to forgive.
NO_DIGITS = b" /:+-_.Aa\x00\n\x7f\xb2\xff"
NO_TEXT = b"\x00\x09\x0a\x0d\x1f\x7f\x80\xa0\xe7\xff"

DIGIT_SORTS = [sort for sort in Sort if sort not in PRINTED | {Sort.TEXT, Sort.WORD}]

BAD_DATES = {
    "29 February of a common year": (20230229, 19010229, 29990229),
    "29 February of a century": (19000229, 21000229, 22000229, 29000229),
    "30 February": (20240230, 20000230, 24000230),
    "31 April": (20230431, 20240431),
    "31 June": (20230631, 29990631),
    "31 September": (20230931, 19000931),
    "31 November": (20231131, 20001131),
    "day 32": (20230132, 20230332, 20231232),
    "day 0": (20230100, 20230300, 20240200),
    "month 0": (20230015, 20230001, 20000031),
    "month 13": (20231301, 20001331),
    "year 1899": (18991231, 18990101),
    "year 3000": (30000101, 30001231),
    "year far off": (1, 101, 10101, 18000101, 99991231, 20239999, 99999999),
}


def books_with_groups():
    return [book for book in BOOKS.values() if book.group]


def places_of(*sorts):
    """Every field of these sorts: its book, its kind's mark and itself."""
    for book in BOOKS.values():
        for kind in book.kinds.values():
            for field in kind.fields:
                if field.sort in sorts and field.start != 1:
                    yield book, kind.mark, field


# Legal files


def legal_recipes():
    for book in BOOKS.values():
        yield from _legal_shapes(book)
        for mark in book.kinds:
            for before in book.after[mark]:
                yield _legal_pair(book, before, mark)


def _legal_shapes(book):
    every_kind = [book.header, *inner_marks(book), book.trailer]

    def shape(name, make_marks, fill=None, huge=False, place=""):
        def make(rng):
            return Sheet.legal(rng, book, make_marks(rng), fill=fill).accepted()

        return Recipe("legal", name, book.letter, place, make, huge)

    yield shape("header and trailer alone", lambda rng: [book.header, book.trailer])
    yield shape("no optional field filled", lambda rng: every_kind, fill=0)
    yield shape("every field over its whole width", lambda rng: every_kind, fill=FULL)
    yield shape("three rows", lambda rng: walk(rng, book, 3))
    yield shape("four to seven rows", lambda rng: walk(rng, book, rng.randint(4, 7)))
    yield shape("eight to fifteen rows", lambda rng: walk(rng, book, rng.randint(8, 15)))
    yield Recipe("legal", "every code and word", book.letter, "", _every_choice(book))
    if book.group:
        group = book.group

        def one_group(size):
            return lambda rng: [book.header, group.owner, *group.follower * size, book.trailer]

        yield shape("a group of ten", one_group(10))
        yield shape("40 rows", one_group(37), huge=True, place="a group of 37")
    yield shape("40 rows", lambda rng: walk(rng, book, 40), huge=True, place="a walk")


def _every_choice(book):
    """A file in which every code and word of the kinds between the ends stands once."""

    def make(rng):
        marks, fixed = [book.header], {}
        for mark in inner_marks(book):
            kind = book.kinds[mark]
            listed = [field for field in kind.given if field.choices]
            # The charge type is left free: other codes call for one type or the other.
            free = book.group.owner_type if book.is_owner(mark) and kind.conditions else None
            longest = max((len(field.choices) for field in listed), default=0)
            for turn in range(longest):
                fixed[len(marks)] = {
                    field.start: field.choices[turn % len(field.choices)]
                    for field in listed
                    if field.start != free
                }
                marks.append(mark)
        return Sheet.legal(rng, book, marks + [book.trailer], fixed=fixed).accepted()

    return make


def _legal_pair(book, before, mark):
    def make(rng):
        marks = lead_to(book, before) + [mark]
        if mark != book.trailer:
            marks.append(book.trailer)
        return Sheet.legal(rng, book, marks).accepted()

    # One group for each kind before: the walks above meet all pairs too, by chance.
    return Recipe("legal", f"a row after {before}", book.letter, f"kind {mark}", make, own=True)


# 10


def mark_recipes():
    for book in BOOKS.values():
        for mark in book.kinds:
            yield _unknown_mark(book, mark)


def _unknown_mark(book, mark):
    def make(rng):
        marks, index = around(rng, book, mark)
        sheet = Sheet.legal(rng, book, marks)
        near = [b for b in b"0123456789:/ABXa \x00\xff" if chr(b) not in book.kinds]
        sheet.put(index, 1, bytes([rng.choice(near)]))
        return sheet.refused(10, index, 1)

    row = "the first row" if mark == book.header else "a later row"
    return Recipe("mark (10)", f"in {row}", book.letter, f"kind {mark}", make)


# 11 to 14: one field


def spoil_11(rng, field):
    """Bytes for a field that its sort has not, and the offset that is told."""
    width = field.width
    offset = rng.choice((0, width - 1, rng.randrange(width)))
    if field.sort in (Sort.TEXT, Sort.WORD):
        return rng.choice((_bad_byte_in_text, _text_from_second_place))(rng, field, offset)
    digits = bytearray(b"%0*d" % (width, rng.choice((0, rng.randrange(10**width)))))
    if rng.random() < 0.2:
        return b" " * width, 0
    digits[offset] = rng.choice(NO_DIGITS)
    return bytes(digits), offset


def _bad_byte_in_text(rng, field, offset):
    text = rng.choice(field.choices) if field.choices else text_of(rng, rng.randint(1, field.width))
    data = bytearray(text.ljust(field.width))
    data[offset] = rng.choice(NO_TEXT)
    return bytes(data), offset


def _text_from_second_place(rng, field, offset):
    """A field that begins with a blank and is not blank: its first position is told."""
    if field.width == 1:
        return _bad_byte_in_text(rng, field, offset)
    data = bytearray(b" " * field.width)
    offset = max(offset, 1)
    data[offset] = rng.choice(b"A0~" + NO_TEXT)
    return bytes(data), 0


def spoil_12(rng, field):
    return print_field(field, not_filled(field)), 0


def spoil_13(rng, field):
    if field.sort is Sort.CODE:
        top = 10**field.width
        near = [max(field.choices) + 1, min(field.choices) - 1, top - 1, rng.randrange(1, top)]
        near += [10 * choice for choice in field.choices]
        wrong = [n for n in near if 0 < n < top and n not in field.choices]
        return print_field(field, rng.choice(wrong or [top - 1])), 0
    if field.sort is Sort.WORD:
        choice = rng.choice(field.choices)
        near = [choice.lower(), choice[:-1], choice[::-1], b"X", b"0", b"Z" * field.width]
        wrong = [word for word in near if word and word not in field.choices]
        return print_field(field, rng.choice(wrong)), 0
    return print_field(field, rng.choice(BAD_DATES[rng.choice(list(BAD_DATES))])), 0


def spoil_14(rng, field):
    data = bytearray(field.content.ljust(field.width))
    offset = rng.choice((0, field.width - 1, rng.randrange(field.width)))
    others = [byte for byte in b" 0123Xx\x00\x09\xa0" if byte != data[offset]]
    data[offset] = rng.choice(others)
    return bytes(data), offset


def spoilers_of(field):
    """The numbers that a field can be refused by, with what spoils it so."""
    if field.sort in PRINTED:
        return {14: spoil_14}
    spoilers = {11: spoil_11}
    if field.required:
        spoilers[12] = spoil_12
    if field.sort in (Sort.CODE, Sort.WORD, Sort.DATE):
        spoilers[13] = spoil_13
    return spoilers


def field_recipes():
    for book, mark, field in places_of(*Sort):
        for number, spoil in spoilers_of(field).items():
            yield _field_fault(book, mark, field, number, spoil)
    for reason, dates in BAD_DATES.items():
        for book, mark, field in places_of(Sort.DATE):
            yield _bad_date(book, mark, field, reason, dates)
    for book, mark, field in places_of(Sort.TEXT):
        for name, byte in {"31": 31, "127": 127, "128": 128, "255": 255}.items():
            yield _byte_in_text(book, mark, field, name, byte)
    for book, mark, field in places_of(*DIGIT_SORTS):
        for name, byte in {"blank": 32, "slash": 47, "colon": 58, "letter": 65}.items():
            yield _byte_in_digits(book, mark, field, name, byte)


def _field_fault(book, mark, field, number, spoil):
    def make(rng):
        marks, index = around(rng, book, mark)
        sheet = Sheet.legal(rng, book, marks)
        data, offset = spoil(rng, field)
        sheet.put(index, field.start, data)
        return sheet.refused(number, index, field.start + offset)

    # For 11 the sort alone counts; the others depend on what the book says of the field.
    topic, place = f"{number} {field.sort.value}", f"kind {mark} at {field.start}"
    return Recipe("field (11 to 14)", topic, book.letter, place, make, own=number != 11)


def _bad_date(book, mark, field, reason, dates):
    def make(rng):
        marks, index = around(rng, book, mark)
        sheet = Sheet.legal(rng, book, marks)
        sheet.put_number(index, field.start, rng.choice(dates))
        return sheet.refused(13, index, field.start)

    place = f"book {book.letter}, kind {mark} at {field.start}"
    return Recipe("date (13)", reason, ANY_BOOK, place, make)


def _byte_in_text(book, mark, field, name, byte):
    """A text with one bad byte that is not its first."""

    def make(rng):
        marks, index = around(rng, book, mark)
        sheet = Sheet.legal(rng, book, marks)
        offset = rng.randrange(1, field.width)
        text = text_of(rng, rng.randint(1, field.width)).ljust(field.width)
        sheet.put(index, field.start, text)
        sheet.put(index, field.start + offset, bytes([byte]))
        return sheet.refused(11, index, field.start + offset)

    place = f"book {book.letter}, kind {mark} at {field.start}"
    return Recipe("byte (11)", f"{name} in a text", ANY_BOOK, place, make)


def _byte_in_digits(book, mark, field, name, byte):
    def make(rng):
        marks, index = around(rng, book, mark)
        sheet = Sheet.legal(rng, book, marks)
        offset = rng.randrange(field.width)
        sheet.put(index, field.start + offset, bytes([byte]))
        return sheet.refused(11, index, field.start + offset)

    place = f"book {book.letter}, kind {mark} at {field.start}"
    return Recipe("byte (11)", f"{name} in digits", ANY_BOOK, place, make)


# 15: conditions


def premise_contents(rng, book, mark, condition):
    """Contents that make the premise hold."""
    premise = condition.premise
    if premise is None:
        return {}
    if isinstance(premise, Is):
        return {premise.start: premise.value}
    return {premise.start: filled(rng, book, mark, book.kinds[mark].field(premise.start))}


def claim_contents(rng, book, mark, claim, kept, given=()):
    """Contents that only just keep or only just break a claim.

    Contents in `given` are fixed already; what is answered agrees with them where it can.
    """
    kind = book.kinds[mark]
    if isinstance(claim, (Filled, NotFilled)):
        field = kind.field(claim.start)
        if kept == isinstance(claim, NotFilled):
            return {claim.start: not_filled(field)}
        least = text_of(rng, 1) if field.sort is Sort.TEXT else 1
        if field.sort is Sort.DATE:
            least = filled(rng, book, mark, field)
        return {claim.start: least}
    if isinstance(claim, Is):
        others = [value for value in kind.field(claim.start).choices if value != claim.value]
        return {claim.start: claim.value if kept else rng.choice(others)}
    if isinstance(claim, AtMost):
        some = rng.choice((0, 1, 99, 125000, rng.randint(1, 10**15)))
        other = given[claim.other] if claim.other in given else some
        return {claim.other: other, claim.start: other if kept else other + 1}
    assert isinstance(claim, LengthAtMost)
    widths = [kind.field(start).width for start in claim.starts]
    length = claim.limit if kept else claim.limit + 1
    if len(widths) == 1:
        return {claim.starts[0]: text_of(rng, length)}
    first = rng.choice((1, 9, widths[0], rng.randint(1, widths[0])))
    return dict(zip(claim.starts, (text_of(rng, first), text_of(rng, length - first))))


def broken_contents(rng, book, mark, condition, given=()):
    """Contents that only just break a condition."""
    broken = claim_contents(rng, book, mark, condition.claim, False, given)
    return broken | premise_contents(rng, book, mark, condition)


def condition_recipes():
    for book in BOOKS.values():
        for kind in book.kinds.values():
            for number, condition in enumerate(kind.conditions, 1):
                for state in ("kept", "broken", "idle"):
                    if state != "idle" or condition.premise:
                        yield _condition(book, kind.mark, number, condition, state)


def _condition(book, mark, number, condition, state):
    """A condition just kept, just broken, or idle: its premise and its claim both false."""

    def make(rng):
        marks, index = around(rng, book, mark)
        if state == "broken":
            fixed = {index: broken_contents(rng, book, mark, condition)}
            sheet = Sheet.legal(rng, book, marks, fixed=fixed, exempt={index: (condition,)})
            return sheet.refused(15, index, condition.position)
        contents = claim_contents(rng, book, mark, condition.claim, state == "kept")
        if state == "kept":
            contents |= premise_contents(rng, book, mark, condition)
        return Sheet.legal(rng, book, marks, fixed={index: contents}).accepted()

    return Recipe("condition (15)", f"{number} {state}", book.letter, "", make)


# 20 and 28: the order of kinds


def order_recipes():
    for book in BOOKS.values():
        for mark in book.kinds:
            if mark != book.header:
                yield _wrong_first(book, mark)
            for before in book.kinds:
                if before not in book.after[mark]:
                    yield _wrong_pair(book, before, mark)
            if mark != book.trailer:
                yield _no_trailer(book, mark)
        yield _no_rows(book)


def _wrong_first(book, mark):
    def make(rng):
        marks = [mark] + [book.trailer] * rng.randint(0, 1)
        return Sheet.legal(rng, book, marks).refused(20, 0, 1)

    return Recipe("order of kinds (20)", f"{mark} first", book.letter, "", make)


def _wrong_pair(book, before, mark):
    def make(rng):
        lead = lead_to(book, before)
        marks = lead + [mark] + [book.trailer] * rng.randint(0, 1)
        return Sheet.legal(rng, book, marks).refused(20, len(lead), 1)

    return Recipe("order of kinds (20)", f"{mark} after {before}", book.letter, "", make)


def _no_trailer(book, last):
    def make(rng):
        marks, index = around(rng, book, last)
        sheet = Sheet.legal(rng, book, marks[: index + 1])
        return sheet.refused(28, len(sheet.rows) - 1, 0)

    return Recipe("end (28)", f"after {last}", book.letter, "", make)


def _no_rows(book):
    def make(rng):
        return Case(feed(book, []), no_line(28, 0, 0))

    return Recipe("end (28)", "no rows", book.letter, "", make)


# 22: followers


def follower_recipes():
    for book in books_with_groups():
        group = book.group
        for charge_type in book.kinds[group.owner].field(group.owner_type).choices:
            if charge_type != group.dynamic:
                yield _static_owner(book, charge_type)
        for way in ("longer", "shorter", "in another case", "of another"):
            yield _foreign_identifier(book, way)
        if not book.kinds[group.follower].field(group.follower_identifier).required:
            yield _foreign_identifier(book, "empty")


def group_marks(rng, book, after_others=True):
    """Marks of a small file with one group, and the index of the group's last row."""
    group = book.group
    extras = [mark for mark in inner_marks(book) if mark != group.follower]
    marks = [book.header]
    if after_others:
        marks += rng.choices(extras, k=rng.choice((0, 0, 1)))
    marks += [group.owner] + [group.follower] * rng.choice((1, 1, 2, 3))
    return marks + [book.trailer], len(marks) - 1


def _static_owner(book, charge_type):
    group = book.group

    def make(rng):
        marks, last = group_marks(rng, book)
        owner = marks.index(group.follower) - 1
        identifier = text_of(rng, rng.randint(1, 25))
        fixed = {owner: {group.owner_type: charge_type, group.owner_identifier: identifier}}
        return Sheet.legal(rng, book, marks, fixed=fixed).refused(22, owner + 1, 1)

    return Recipe("follower (22)", f"owner of type {charge_type}", book.letter, "", make)


def _foreign_identifier(book, way):
    group = book.group

    def make(rng):
        marks, last = group_marks(rng, book)
        owner = marks.index(group.follower) - 1
        identifier = text_of(rng, rng.randint(1, 32)) + b"kQ"
        foreign = {
            "longer": identifier + b"0",
            "shorter": identifier[:-1],
            "in another case": identifier[:-2] + b"Kq",
            "of another": rng.choice((identifier[:-1] + b"R", text_of(rng, 35))),
            "empty": b"",
        }[way]
        fixed = {
            owner: {group.owner_identifier: identifier},
            last: {group.follower_identifier: foreign},
        }
        sheet = Sheet.legal(rng, book, marks, fixed=fixed)
        return sheet.refused(22, last, group.follower_identifier)

    return Recipe("follower (22)", f"identifier {way}", book.letter, "", make)


# 23 to 25: worked fields


def worked_recipes():
    for book, mark, field in places_of(Sort.ROW_NUMBER, Sort.OWNER_NUMBER):
        yield _wrong_number(book, mark, field)
    for book, mark, field in places_of(Sort.TOTAL):
        yield _wrong_total(book, mark, field, near=True)
        yield _wrong_total(book, mark, field, near=False)
    for book, mark, field in places_of(Sort.COUNT):
        yield _wrong_count(book, mark, field, near=True)
        yield _wrong_count(book, mark, field, near=False)


def _wrong_number(book, mark, field):
    def make(rng):
        marks, index = around(rng, book, mark)
        sheet = Sheet.legal(rng, book, marks)
        right = int(field.cut(sheet.rows[index]))
        near = (right - 1, right + 1, right + 10, right + 100000, 0, index, 999999, 65536 + right)
        sheet.put_number(index, field.start, rng.choice([n for n in near if 0 <= n != right]))
        return sheet.refused(23, index, field.start)

    topic = f"23 {field.sort.value}, kind {mark}"
    return Recipe("worked (23 to 25)", topic, book.letter, "", make)


def _wrong_total(book, mark, field, near):
    def make(rng):
        marks, index = around(rng, book, mark)
        sheet = Sheet.legal(rng, book, marks)
        right = sheet.total
        wrong = (right + 1, right - 1) if near else (0, LARGEST_SUM, right + 10**16, right // 100)
        sheet.put_number(index, field.start, rng.choice([n for n in wrong if 0 <= n != right]))
        return sheet.refused(24, index, field.start)

    topic = "24 by one cent" if near else "24 far off"
    return Recipe("worked (23 to 25)", topic, book.letter, "", make)


def _wrong_count(book, mark, field, near):
    def make(rng):
        marks, index = around(rng, book, mark)
        sheet = Sheet.legal(rng, book, marks)
        right = int(field.cut(sheet.rows[index]))
        # Near: by one, or by the two rows that the books P and S count and Q does not.
        wrong = (right - 2, right - 1, right + 1, right + 2)
        if not near:
            wrong = (0, 10**15 - 1, right + 10**14, right + 65536, right + 2**32)
        sheet.put_number(index, field.start, rng.choice([n for n in wrong if 0 <= n != right]))
        return sheet.refused(25, index, field.start)

    topic = "25 by one or two" if near else "25 far off"
    return Recipe("worked (23 to 25)", topic, book.letter, "", make)


# 26: the sum


def sum_recipes():
    for book in books_with_groups():
        for parts in ("all in one row", "a cent first", "a cent last", "three parts"):
            yield _sum_edge(book, parts, excess=0)
            yield _sum_edge(book, parts, excess=1)
        yield _sum_edge(book, "twice the largest amount", excess=LARGEST_SUM)


def _sum_edge(book, parts, excess):
    """A sum at the largest, or above it by the excess."""
    mark, start = book.summed

    def make(rng):
        amounts = {
            "all in one row": [LARGEST_SUM],
            "a cent first": [1, LARGEST_SUM - 1],
            "a cent last": [LARGEST_SUM - 1, 1],
            "twice the largest amount": [LARGEST_SUM, 0],
        }.get(parts)
        if amounts is None:
            first = rng.randint(1, LARGEST_SUM - 2)
            second = rng.randint(1, LARGEST_SUM - 1 - first)
            amounts = [first, second, LARGEST_SUM - first - second]
        if excess and len(amounts) == 1:
            amounts.append(0)
        amounts[-1] += excess
        marks = [book.header, *mark * len(amounts), book.trailer]
        fixed = {index: {start: amount} for index, amount in enumerate(amounts, 1)}
        sheet = Sheet.legal(rng, book, marks, fixed=fixed)
        return sheet.refused(26, len(amounts), start) if excess else sheet.accepted()

    state = "broken" if excess else "kept"
    return Recipe("sum (26)", state, book.letter, parts, make)


def fault_recipes():
    yield from mark_recipes()
    yield from field_recipes()
    yield from condition_recipes()
    yield from order_recipes()
    yield from follower_recipes()
    yield from worked_recipes()
    yield from sum_recipes()
