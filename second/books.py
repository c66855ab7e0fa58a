"""The three books P, Q and S as data.

Positions count from 1 and fields are written with their first and last position, so
that a table here can be held against its table in BOOKS.md line by line.

A row's *contents* are a dictionary from a field's start to what the field means: a
number, or bytes for a text, a word and long digits.
"""

from dataclasses import dataclass
from enum import Enum
from typing import Optional

ROW_BYTES = 750
LARGEST_ROW = 65_535
LARGEST_SUM = 10**17 - 1


class Sort(Enum):
    CONSTANT = "constant"
    BLANK = "blank"
    TEXT = "text"
    WORD = "word"
    NUMBER = "number"
    CODE = "code"
    DATE = "date"
    AMOUNT = "amount"
    LONG_DIGITS = "long digits"
    ROW_NUMBER = "row number"
    OWNER_NUMBER = "owner number"
    TOTAL = "total"
    COUNT = "count"


PRINTED = {Sort.CONSTANT, Sort.BLANK}
WORKED = {Sort.ROW_NUMBER, Sort.OWNER_NUMBER, Sort.TOTAL, Sort.COUNT}
# The sorts whose value in an entry is bytes; every other given value is a number.
GIVEN_AS_BYTES = {Sort.TEXT, Sort.WORD, Sort.LONG_DIGITS}


@dataclass(frozen=True)
class Field:
    start: int
    width: int
    sort: Sort
    name: str
    required: bool = False
    content: bytes = b""  # what a constant prints
    choices: tuple = ()  # the numbers of a code, the texts of a word

    @property
    def end(self):
        """The index, from 0, behind the field's last byte."""
        return self.start - 1 + self.width

    def cut(self, row):
        return row[self.start - 1 : self.end]

    def is_filled(self, content):
        if self.sort is Sort.LONG_DIGITS:
            return content.strip(b"0") != b""
        return bool(content)


def is_date(number):
    """Whether AAAAMMDD is a day of the Gregorian calendar, years 1900 to 2999."""
    year, month, day = number // 10000, number // 100 % 100, number % 100
    if not (1900 <= year <= 2999 and 1 <= month <= 12):
        return False
    leap = year % 4 == 0 and year % 100 != 0 or year % 400 == 0
    days = (31, 29 if leap else 28, 31, 30, 31, 30, 31, 31, 30, 31, 30, 31)
    return 1 <= day <= days[month - 1]


# Conditions. No condition speaks of long digits, so a content is filled when it is
# true: neither 0 nor the empty text.


@dataclass(frozen=True)
class Is:
    start: int
    value: int

    @property
    def starts(self):
        return (self.start,)

    def holds(self, contents):
        return contents[self.start] == self.value


@dataclass(frozen=True)
class Filled:
    start: int

    @property
    def starts(self):
        return (self.start,)

    def holds(self, contents):
        return bool(contents[self.start])


@dataclass(frozen=True)
class NotFilled:
    start: int

    @property
    def starts(self):
        return (self.start,)

    def holds(self, contents):
        return not contents[self.start]


@dataclass(frozen=True)
class AtMost:
    """One amount is at most the other."""

    start: int
    other: int

    @property
    def starts(self):
        return (self.start, self.other)

    def holds(self, contents):
        return contents[self.start] <= contents[self.other]


@dataclass(frozen=True)
class LengthAtMost:
    """Some texts have together at most so many bytes."""

    starts: tuple
    limit: int

    def holds(self, contents):
        return sum(len(contents[start]) for start in self.starts) <= self.limit


@dataclass(frozen=True)
class Condition:
    premise: Optional[object]  # None: always
    claim: object

    @property
    def position(self):
        """The position told: the highest start in premise and claim together."""
        premise = self.premise.starts if self.premise else ()
        return max(premise + self.claim.starts)

    def holds(self, contents):
        if self.premise is not None and not self.premise.holds(contents):
            return True
        return self.claim.holds(contents)


@dataclass(frozen=True)
class Kind:
    mark: str
    name: str
    fields: tuple
    conditions: tuple = ()

    @property
    def given(self):
        """The fields that an entry has a value for."""
        return [f for f in self.fields if f.sort not in PRINTED and f.sort not in WORKED]

    def field(self, start):
        return next(f for f in self.fields if f.start == start)


@dataclass(frozen=True)
class Group:
    """Followers stand behind their owner and name it by its identifier."""

    owner: str
    follower: str
    largest: int
    owner_type: int  # where the owner has its charge type
    dynamic: int  # the charge type that may have followers
    owner_identifier: int
    follower_identifier: int


@dataclass(frozen=True)
class Book:
    letter: str
    kinds: dict
    after: dict  # for each mark the marks that it may directly follow
    counted: str  # the marks of the rows that the trailer counts
    group: Optional[Group] = None
    summed: Optional[tuple] = None  # the mark and the start of the summed amount
    header: str = "0"
    trailer: str = "9"

    def is_follower(self, mark):
        return self.group is not None and mark == self.group.follower

    def is_owner(self, mark):
        return self.group is not None and mark == self.group.owner

    def added_amount(self, mark, contents):
        """What a row adds to the sum."""
        if self.summed is None or mark != self.summed[0]:
            return 0
        return contents[self.summed[1]]


# Short makers, so that the tables below read like the document's.


def constant(first, last, content, name):
    return Field(first, last - first + 1, Sort.CONSTANT, name, content=content.encode())


def blank(first, last):
    return Field(first, last - first + 1, Sort.BLANK, "blanks")


def given(sort):
    def make(first, last, name, required=False, choices=()):
        return Field(first, last - first + 1, sort, name, required, choices=choices)

    return make


text = given(Sort.TEXT)
number = given(Sort.NUMBER)
date = given(Sort.DATE)
amount = given(Sort.AMOUNT)
long_digits = given(Sort.LONG_DIGITS)


def code(first, last, choices, name, required=False):
    return Field(first, last - first + 1, Sort.CODE, name, required, choices=choices)


def word(first, last, choices, name, required=False):
    return Field(first, last - first + 1, Sort.WORD, name, required, choices=choices)


def owner_number(first, last):
    return Field(first, last - first + 1, Sort.OWNER_NUMBER, "owner number")


def row_number():
    return Field(745, 6, Sort.ROW_NUMBER, "row number")


def total(first, last):
    return Field(first, last - first + 1, Sort.TOTAL, "total")


def count(first, last):
    return Field(first, last - first + 1, Sort.COUNT, "count")


REQUIRED = True
REGISTRATIONS = (1, 2)
ACCOUNTS = (b"CACC", b"SVGS")
YES_OR_NO = (b"S", b"N")
MOVEMENTS = (2, 3, 4, 5, 6, 7, 8, 9)


P = Book(
    letter="P",
    kinds={
        "0": Kind("0", "header", (
            constant(1, 1, "0", "kind of row"),
            constant(2, 2, "1", "operation"),
            constant(3, 9, "REMESSA", "operation in words"),
            constant(10, 11, "02", "service code"),
            constant(12, 26, "PIX", "service in words"),
            text(27, 34, "bank of the receiver", REQUIRED),
            code(35, 36, REGISTRATIONS, "receiver's registration type", REQUIRED),
            number(37, 50, "receiver's CPF or CNPJ", REQUIRED),
            text(51, 54, "receiver's branch"),
            text(55, 74, "receiver's account"),
            word(75, 78, ACCOUNTS, "receiver's account type"),
            text(79, 155, "Pix key"),
            date(156, 163, "date the file was made", REQUIRED),
            text(164, 193, "agreement code"),
            text(194, 253, "for the receiver's bank only"),
            blank(254, 741),
            constant(742, 744, "001", "layout version"),
            row_number(),
        )),
        "1": Kind("1", "charge", (
            constant(1, 1, "1", "kind of row"),
            code(2, 3, REGISTRATIONS, "receiver's registration type", REQUIRED),
            number(4, 17, "receiver's CPF or CNPJ", REQUIRED),
            number(18, 21, "receiver's branch"),
            long_digits(22, 41, "receiver's account"),
            word(42, 45, ACCOUNTS, "receiver's account type"),
            text(46, 122, "Pix key", REQUIRED),
            code(123, 123, (1, 2), "charge type", REQUIRED),
            code(124, 125, (1, 2, 4), "occurrence", REQUIRED),
            text(126, 160, "identifier"),
            number(161, 175, "expiry"),
            date(176, 183, "due date"),
            word(184, 184, YES_OR_NO, "may be paid after the due date"),
            amount(185, 201, "original value"),
            amount(202, 218, "interest"),
            amount(219, 235, "fine"),
            amount(236, 252, "discount or rebate"),
            word(253, 253, YES_OR_NO, "payer may change the value"),
            code(254, 255, REGISTRATIONS, "debtor's registration type"),
            number(256, 269, "debtor's CPF or CNPJ"),
            text(270, 409, "debtor's name"),
            text(410, 549, "question to the payer or free text"),
            word(550, 550, YES_OR_NO, "QR code may be paid several times"),
            text(551, 610, "for the receiver's bank only"),
            blank(611, 744),
            row_number(),
        ), conditions=(
            Condition(Is(123, 2), Filled(126)),
            Condition(Is(123, 2), Filled(185)),
            Condition(Is(124, 2), Is(123, 2)),
            Condition(Is(124, 4), Is(123, 2)),
            Condition(None, AtMost(202, 185)),
            Condition(None, AtMost(219, 185)),
            Condition(None, AtMost(236, 185)),
            Condition(Filled(256), Filled(270)),
            Condition(Is(123, 1), LengthAtMost((126,), 25)),
            Condition(Is(123, 1), LengthAtMost((46, 410), 77)),
        )),
        "2": Kind("2", "additional information", (
            constant(1, 1, "2", "kind of row"),
            text(2, 36, "identifier"),
            text(37, 86, "first name", REQUIRED),
            text(87, 286, "first value", REQUIRED),
            text(287, 336, "second name"),
            text(337, 536, "second value"),
            text(537, 566, "error codes"),
            blank(567, 738),
            owner_number(739, 744),
            row_number(),
        )),
        "9": Kind("9", "trailer", (
            constant(1, 1, "9", "kind of row"),
            blank(2, 712),
            total(713, 729),
            count(730, 744),
            row_number(),
        )),
    },
    after={"0": "", "1": "012", "2": "12", "9": "012"},
    counted="0129",
    group=Group("1", "2", 50, owner_type=123, dynamic=2, owner_identifier=126,
                follower_identifier=2),
    summed=("1", 185),
)

Q = Book(
    letter="Q",
    kinds={
        "0": Kind("0", "header", (
            constant(1, 1, "0", "kind of row"),
            constant(2, 2, "2", "operation"),
            constant(3, 9, "RETORNO", "operation in words"),
            constant(10, 11, "02", "service code"),
            constant(12, 26, "PIX", "service in words"),
            text(27, 34, "bank of the receiver", REQUIRED),
            code(35, 36, REGISTRATIONS, "receiver's registration type", REQUIRED),
            number(37, 50, "receiver's CPF or CNPJ", REQUIRED),
            number(51, 54, "receiver's branch"),
            long_digits(55, 74, "receiver's account"),
            word(75, 78, ACCOUNTS, "receiver's account type"),
            text(79, 155, "Pix key"),
            date(156, 163, "date the file was made", REQUIRED),
            text(164, 193, "agreement code"),
            text(194, 253, "for the receiver's bank only"),
            text(254, 283, "error codes"),
            blank(284, 741),
            constant(742, 744, "001", "layout version"),
            row_number(),
        )),
        "1": Kind("1", "transaction", (
            constant(1, 1, "1", "kind of row"),
            text(2, 9, "bank of the receiver", REQUIRED),
            code(10, 11, REGISTRATIONS, "receiver's registration type", REQUIRED),
            number(12, 25, "receiver's CPF or CNPJ", REQUIRED),
            text(26, 29, "receiver's branch", REQUIRED),
            text(30, 49, "receiver's account", REQUIRED),
            word(50, 53, ACCOUNTS, "receiver's account type", REQUIRED),
            text(54, 130, "Pix key", REQUIRED),
            code(131, 131, (1, 2, 3), "charge type", REQUIRED),
            code(132, 133, MOVEMENTS, "movement", REQUIRED),
            date(134, 141, "date of the movement", REQUIRED),
            text(142, 176, "identifier", REQUIRED),
            number(177, 191, "expiry"),
            date(192, 199, "due date"),
            amount(200, 216, "original value"),
            amount(217, 233, "interest paid"),
            amount(234, 250, "fine paid"),
            amount(251, 267, "discount or rebate given"),
            amount(268, 284, "final value"),
            amount(285, 301, "amount paid"),
            amount(302, 318, "bank's fee"),
            code(319, 320, REGISTRATIONS, "debtor's registration type"),
            number(321, 334, "debtor's CPF or CNPJ"),
            text(335, 474, "message of the payer"),
            code(475, 476, REGISTRATIONS, "payer's registration type"),
            number(477, 490, "payer's CPF or CNPJ"),
            text(491, 630, "payer's name"),
            word(631, 632, (b"01", b"02", b"03", b"04", b"05"), "settlement"),
            text(633, 667, "end-to-end ID"),
            text(668, 697, "error codes"),
            blank(698, 744),
            row_number(),
        )),
        "2": Kind("2", "additional information", (
            constant(1, 1, "2", "kind of row"),
            text(2, 36, "identifier", REQUIRED),
            text(37, 86, "first name", REQUIRED),
            text(87, 286, "first value", REQUIRED),
            text(287, 336, "second name"),
            text(337, 536, "second value"),
            blank(537, 738),
            owner_number(739, 744),
            row_number(),
        )),
        "3": Kind("3", "Pix link", (
            constant(1, 1, "3", "kind of row"),
            text(2, 78, "Pix key", REQUIRED),
            code(79, 80, MOVEMENTS, "movement", REQUIRED),
            date(81, 88, "date of the movement", REQUIRED),
            text(89, 123, "identifier", REQUIRED),
            text(124, 623, "Pix link", REQUIRED),
            text(624, 700, "location"),
            blank(701, 744),
            row_number(),
        )),
        "4": Kind("4", "QR code", (
            constant(1, 1, "4", "kind of row"),
            text(2, 78, "Pix key", REQUIRED),
            code(79, 80, MOVEMENTS, "movement", REQUIRED),
            date(81, 88, "date of the movement", REQUIRED),
            text(89, 123, "identifier", REQUIRED),
            text(124, 623, "content of the QR code", REQUIRED),
            text(624, 700, "location"),
            blank(701, 744),
            row_number(),
        )),
        "9": Kind("9", "trailer", (
            constant(1, 1, "9", "kind of row"),
            constant(2, 2, "2", "operation"),
            constant(3, 4, "02", "service code"),
            text(5, 12, "bank of the receiver", REQUIRED),
            text(13, 42, "error codes"),
            blank(43, 729),
            count(730, 744),
            row_number(),
        )),
    },
    after={"0": "", "1": "01234", "2": "12", "3": "01234", "4": "01234", "9": "01234"},
    counted="1234",
    group=Group("1", "2", 50, owner_type=131, dynamic=2, owner_identifier=142,
                follower_identifier=2),
    summed=("1", 285),
)

S = Book(
    letter="S",
    kinds={
        "0": Kind("0", "header", (
            constant(1, 1, "0", "kind of row"),
            constant(2, 2, "1", "operation"),
            constant(3, 9, "REMESSA", "operation in words"),
            constant(10, 11, "02", "service code"),
            constant(12, 26, "PIX", "service in words"),
            text(27, 34, "bank of the receiver", REQUIRED),
            code(35, 36, (2,), "receiver's registration type", REQUIRED),
            number(37, 50, "receiver's CNPJ", REQUIRED),
            number(51, 54, "receiver's branch"),
            long_digits(55, 74, "receiver's account"),
            word(75, 78, (b"CACC", b"SVGS", b"TRAN"), "receiver's account type"),
            text(79, 155, "Pix key"),
            date(156, 163, "date the file was made", REQUIRED),
            text(164, 193, "agreement code", REQUIRED),
            text(194, 253, "for the receiver's bank only"),
            text(254, 353, "receiver's name"),
            blank(354, 731),
            number(732, 741, "number of the file", REQUIRED),
            constant(742, 744, "3CX", "layout version"),
            row_number(),
        )),
        "A": Kind("A", "recurrence", (
            constant(1, 1, "A", "kind of row"),
            code(2, 3, (1, 2, 3), "occurrence", REQUIRED),
            code(4, 4, (1, 2, 3, 4), "journey", REQUIRED),
            code(5, 6, REGISTRATIONS, "debtor's registration type"),
            number(7, 20, "debtor's CPF or CNPJ"),
            text(21, 160, "debtor's name"),
            text(161, 195, "TXID"),
            text(196, 230, "contract", REQUIRED),
            text(231, 265, "object"),
            code(266, 266, (1, 2, 3, 4, 5), "frequency", REQUIRED),
            code(267, 267, (1, 2), "term", REQUIRED),
            date(268, 275, "first date", REQUIRED),
            date(276, 283, "final date"),
            code(284, 284, (1, 2), "value type", REQUIRED),
            amount(285, 301, "value of the recurrence"),
            code(302, 302, (1, 2), "minimum indicator", REQUIRED),
            amount(303, 319, "receiver's minimum value"),
            code(320, 320, (1, 2), "new attempts after the due date", REQUIRED),
            text(321, 349, "recurrence ID"),
            text(350, 426, "location"),
            text(427, 642, "for the receiver's bank only"),
            blank(643, 744),
            row_number(),
        ), conditions=(
            Condition(Is(2, 2), Filled(321)),
            Condition(Is(2, 3), Filled(321)),
            Condition(Is(4, 3), Filled(161)),
            Condition(Is(267, 1), Filled(276)),
            Condition(Is(267, 2), NotFilled(276)),
            Condition(Is(284, 1), Filled(285)),
            Condition(Is(302, 1), Filled(303)),
        )),
        "9": Kind("9", "trailer", (
            constant(1, 1, "9", "kind of row"),
            blank(2, 712),
            total(713, 729),
            count(730, 744),
            row_number(),
        )),
    },
    after={"0": "", "A": "0A", "9": "0A"},
    counted="0A9",
)

BOOKS = {book.letter: book for book in (P, Q, S)}
