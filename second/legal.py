"""Random legal contents, and random legal files of a wanted shape."""

from dataclasses import dataclass

from books import AtMost, Filled, Is, LengthAtMost, NotFilled, Sort, is_date

# Forty rows of this amount still sum to less than the largest sum.
LARGEST_SUMMED = 10**15

FULL = "every field over its whole width"

EDGE_DATES = (
    19000101, 19000228, 19991231, 20000229, 20040229, 20230228, 20240229, 21000228,
    23000228, 24000229, 29961231, 29991231,
    20230131, 20230331, 20230430, 20230531, 20230630, 20230731, 20230831, 20230930,
    20231031, 20231130, 20231231,
)

# Maps random bytes to the bytes of a text, blanks among them.
_TO_TEXT = bytes(32 + byte % 95 for byte in range(256))


@dataclass
class Item:
    """A row to be: its kind and its contents, before anything is worked out."""

    mark: str
    contents: dict

    def __iter__(self):
        return iter((self.mark, self.contents))


def text_of(rng, length):
    """A text of this many bytes that neither begins nor ends with a blank."""
    shape = rng.random()
    if shape < 0.15:
        middle = b" " * length
    elif shape < 0.3:
        middle = b"%0*d" % (length, rng.randrange(10**length)) if length else b""
    else:
        middle = rng.randbytes(length).translate(_TO_TEXT)
    if length == 0:
        return b""
    first, last = rng.randint(33, 126), rng.randint(33, 126)
    if length == 1:
        return bytes([first])
    return bytes([first]) + middle[1:-1] + bytes([last])


def some_length(rng, width):
    return rng.choice((1, width, rng.randint(1, width), rng.randint(1, width)))


def some_number(rng, most):
    """A number from 1 to the most, of any number of digits."""
    ends = (1, most, rng.randint(1, most))
    few_digits = min(most, rng.randint(1, 10 ** rng.randint(1, len(str(most)))))
    return rng.choice(ends + (few_digits, few_digits))


def some_date(rng):
    if rng.random() < 0.5:
        return rng.choice(EDGE_DATES)
    while True:
        number = rng.randint(1900, 2999) * 10000 + rng.randint(1, 12) * 100 + rng.randint(1, 31)
        if is_date(number):
            return number


def some_long_digits(rng):
    return rng.choice((
        b"9" * 20,
        b"0" * 19 + b"1",
        b"1" + b"0" * 19,
        b"%020d" % rng.randrange(1, 10**20),
    ))


def filled(rng, book, mark, field):
    """A legal content that fills the field."""
    if field.sort is Sort.TEXT:
        return text_of(rng, some_length(rng, field.width))
    if field.sort in (Sort.WORD, Sort.CODE):
        return rng.choice(field.choices)
    if field.sort is Sort.DATE:
        return some_date(rng)
    if field.sort is Sort.LONG_DIGITS:
        return some_long_digits(rng)
    if (mark, field.start) == book.summed:
        return some_number(rng, LARGEST_SUMMED)
    return some_number(rng, 10**field.width - 1)


def not_filled(field):
    if field.sort is Sort.LONG_DIGITS:
        return b"0" * field.width
    return b"" if field.sort in (Sort.TEXT, Sort.WORD) else 0


def _mends(rng, book, kind, contents, condition):
    """The ways to make a broken condition hold: pairs of a start and a content."""
    claim, premise = condition.claim, condition.premise
    if isinstance(claim, Filled):
        yield claim.start, filled(rng, book, kind.mark, kind.field(claim.start))
    elif isinstance(claim, NotFilled):
        yield claim.start, not_filled(kind.field(claim.start))
    elif isinstance(claim, Is):
        yield claim.start, claim.value
    elif isinstance(claim, AtMost):
        other = contents[claim.other]
        yield claim.start, rng.choice((0, other, rng.randint(0, other)))
    elif isinstance(claim, LengthAtMost):
        for start in claim.starts:
            rest = sum(len(contents[other]) for other in claim.starts if other != start)
            room = max(0, claim.limit - rest)
            yield start, text_of(rng, rng.choice((room, rng.randint(0, room))))
    if isinstance(premise, Is):
        others = [value for value in kind.field(premise.start).choices if value != premise.value]
        yield premise.start, rng.choice(others)
    elif isinstance(premise, Filled):
        yield premise.start, not_filled(kind.field(premise.start))


def fullest(rng, book, mark, field):
    """A legal content that uses the field's whole width."""
    if field.sort is Sort.TEXT:
        return text_of(rng, field.width)
    if (mark, field.start) == book.summed:
        return LARGEST_SUMMED
    if field.sort in (Sort.NUMBER, Sort.AMOUNT):
        return 10**field.width - 1
    return filled(rng, book, mark, field)


def legal_contents(rng, book, mark, fixed=None, exempt=(), fill=None):
    """Random contents of a kind with every condition kept.

    The contents in `fixed` stay whatever the conditions say; the conditions in `exempt`
    need not hold; `fill` is the chance that an optional field is filled, or FULL.
    """
    kind = book.kinds[mark]
    fixed = fixed or {}
    if fill is None:
        fill = rng.choice((0, 0.3, 0.7, 1))
    contents = {}
    for field in kind.given:
        if fill is FULL:
            contents[field.start] = fullest(rng, book, mark, field)
        elif field.required or rng.random() < fill:
            contents[field.start] = filled(rng, book, mark, field)
        else:
            contents[field.start] = not_filled(field)
    contents.update(fixed)
    while True:
        broken = [c for c in kind.conditions if c not in exempt and not c.holds(contents)]
        if not broken:
            return contents
        mends = [
            (start, content)
            for start, content in _mends(rng, book, kind, contents, broken[0])
            # A required text may be made shorter, but never empty.
            if start not in fixed and (content or not kind.field(start).required)
        ]
        start, content = rng.choice(mends)
        contents[start] = content


def legal_items(rng, book, marks, fixed=None, exempt=None, fill=None):
    """Legal contents for rows of these kinds.

    `fixed` and `exempt` are for the rows whose index, from 0, they name.
    """
    fixed = fixed or {}
    exempt = exempt or {}
    items = []
    owner = None
    for index, mark in enumerate(marks):
        keep = dict(fixed.get(index, {}))
        if book.is_owner(mark) and book.is_follower("".join(marks[index + 1 : index + 2])):
            keep.setdefault(book.group.owner_type, book.group.dynamic)
        if book.is_follower(mark) and owner:
            keep.setdefault(book.group.follower_identifier, owner[book.group.owner_identifier])
        contents = legal_contents(rng, book, mark, keep, exempt.get(index, ()), fill)
        items.append(Item(mark, contents))
        if book.is_owner(mark):
            owner = contents
    return items


def inner_marks(book):
    """The kinds that stand between header and trailer."""
    return [mark for mark in book.kinds if mark not in (book.header, book.trailer)]


def walk(rng, book, length):
    """Marks of a legal file of this many rows."""
    marks = [book.header]
    # Some files love followers, so that long groups come up.
    follow = rng.choice((0.2, 0.9))
    while len(marks) < length - 1:
        able = [mark for mark in inner_marks(book) if marks[-1] in book.after[mark]]
        followers = [mark for mark in able if book.is_follower(mark)]
        if followers and rng.random() < follow and _group_size(book, marks) < book.group.largest:
            marks += followers
        else:
            marks.append(rng.choice([mark for mark in able if mark not in followers]))
    return marks + [book.trailer]


def _group_size(book, marks):
    size = 0
    while book.is_follower(marks[-1 - size]):
        size += 1
    return size


def lead_to(book, mark):
    """The shortest legal marks, from the header on, that end with this kind."""
    if mark == book.header:
        return [mark]
    if book.is_follower(mark):
        return [book.header, book.group.owner, mark]
    return [book.header, mark]


def around(rng, book, mark):
    """Marks of a small legal file with a row of this kind, and that row's index."""
    extras = [other for other in inner_marks(book) if not book.is_follower(other)]
    some = rng.choices(extras, k=rng.choice((0, 0, 0, 0, 1, 2)))
    lead = lead_to(book, mark)
    if mark == book.header:
        return lead + some + [book.trailer], 0
    marks = lead[:1] + some + lead[1:]
    index = len(marks) - 1
    if mark != book.trailer:
        marks += rng.choices(extras, k=rng.choice((0, 0, 0, 1))) + [book.trailer]
    return marks, index
