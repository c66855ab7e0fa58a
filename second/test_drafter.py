import unittest
from dataclasses import replace
from random import Random

from books import BOOKS, LARGEST_ROW, P, Q, S, Sort
from drafter import Carrier, Draft, Entry, Slice, draft, entry_of, make_entry
from drafter import print_rows
from judge import check, given_values, kind_of, open_hexadecimal, read_contents
from legal import FULL, inner_marks, legal_items, text_of, walk
from orders import random_faults
from refusals import Refused
from samples import item


def entries_of(book, items):
    return [entry_of(book.kinds[mark], contents) for mark, contents in items]


def entry(book, mark, **changes):
    return entries_of(book, [item(book, mark, **changes)])[0]


def refusal_of(call, *arguments):
    """The numbers of a call's refusal, or None."""
    try:
        call(*arguments)
    except Refused as refused:
        return refused.number, refused.first, refused.second
    return None


def legal_lists(rng, count):
    """Books and legal lists of entries as items, of many shapes."""
    for turn in range(count):
        book = list(BOOKS.values())[turn % 3]
        length = rng.choice((2, 3, 4, 5, 8, 20)) if turn % 50 else 60
        fill = rng.choice((None, None, 0, 1, FULL))
        yield book, legal_items(rng, book, walk(rng, book, length), fill=fill)


class AgainstTheJudge(unittest.TestCase):
    def test_every_drafted_list_is_accepted(self):
        for book, items in legal_lists(Random(1), 600):
            rows = draft(book, entries_of(book, items))
            total = sum(book.added_amount(*each) for each in items)
            self.assertEqual(check(book, rows), (len(items), total))

    def test_drafting_what_was_read_gives_the_same_rows(self):
        for book, items in legal_lists(Random(2), 300):
            self.assert_drafts_again(book, print_rows(book, items))

    def test_accepted_files_among_spoilt_ones_draft_again(self):
        rng = Random(3)
        accepted = 0
        for turn in range(3000):
            book = list(BOOKS.values())[turn % 3]
            rows = open_hexadecimal(random_faults(book).make(rng).data[2:])
            if refusal_of(check, book, rows) is None:
                self.assert_drafts_again(book, rows)
                accepted += 1
        self.assertGreater(accepted, 20)

    def assert_drafts_again(self, book, rows):
        entries = []
        for place, row in enumerate(rows, 1):
            kind = kind_of(book, row, place)
            values = given_values(kind, read_contents(kind, row, place))
            entries.append(make_entry(kind.mark, values))
        self.assertEqual(draft(book, entries), rows)

    def test_both_refuse_bad_contents_alike(self):
        """A list with bad contents is refused as its printed rows are."""
        rng = Random(4)
        seen = set()
        for book, items in legal_lists(rng, 3000):
            for _ in range(rng.choice((1, 1, 2))):
                spoil_contents(rng, book, rng.choice(items))
            refusal = refusal_of(draft, book, entries_of(book, items))
            self.assertEqual(refusal, refusal_of(check, book, print_rows(book, items)))
            seen.add(refusal and refusal[0])
        self.assertLessEqual({11, 12, 13, 15, 22, 26}, seen)

    def test_both_refuse_kinds_alike(self):
        rng = Random(5)
        seen = set()
        for turn in range(600):
            book = list(BOOKS.values())[turn % 3]
            between = rng.choices([book.header, *inner_marks(book)], k=rng.randint(0, 4))
            marks = [rng.choice((book.header, *inner_marks(book))), *between, book.trailer]
            items = legal_items(rng, book, marks)
            refusal = refusal_of(draft, book, entries_of(book, items))
            self.assertEqual(refusal, refusal_of(check, book, print_rows(book, items)))
            seen.add(refusal and refusal[0])
        self.assertLessEqual({None, 20}, seen)


def spoil_contents(rng, book, spoilt):
    """Puts a content of the right size, but perhaps a bad one, into a random field."""
    kind = book.kinds[spoilt.mark]
    if not kind.given:
        return
    field = rng.choice(kind.given)
    most = 10**field.width - 1
    if field.sort in (Sort.TEXT, Sort.WORD):
        # A text may not end with a blank in an entry; in a row no text can.
        text = text_of(rng, rng.randint(0, field.width))
        bad = bytearray(text)
        if bad:
            bad[rng.randrange(len(bad))] = rng.choice(b"\x00\x1f\x7f\xff")
        content = rng.choice((b"", text, bytes(bad), b" " + text_of(rng, field.width - 1)))
        if content == b" ":
            content = b""
    elif field.sort is Sort.LONG_DIGITS:
        content = rng.choice((b"0" * 20, b"0" * 19 + b"x", b" " * 20))
    elif field.sort is Sort.AMOUNT:
        content = rng.choice((0, 1, most, most - 1))
    else:
        content = rng.choice((0, 1, 3, 9, 20230229, 19000101, most)) % (most + 1)
    spoilt.contents[field.start] = content


class Printing(unittest.TestCase):
    def test_a_constant_is_followed_by_blanks(self):
        for book in BOOKS.values():
            row = draft(book, [entry(book, "0"), entry(book, "9")])[0]
            self.assertEqual(row[11:26], b"PIX" + b" " * 12)

    def test_a_charge(self):
        rows = draft(P, [entry(P, "0"), entry(P, "1"), entry(P, "9")])
        charge = rows[1]
        self.assertEqual(len(charge), 750)
        self.assertEqual(charge[:41], b"1" + b"02" + b"12345678000195" + b"0000" + b"0" * 20)
        self.assertEqual(charge[45:125], b"+55119999".ljust(77) + b"201")
        self.assertEqual(charge[184:201], b"00000000000125000")
        self.assertEqual(charge[744:], b"000002")
        trailer = b"9" + b" " * 711 + b"00000000000125000" + b"000000000000003" + b"000003"
        self.assertEqual(rows[2], trailer)

    def test_owner_numbers(self):
        group = [entry(P, "1"), entry(P, "2"), entry(P, "2")]
        rows = draft(P, [entry(P, "0"), *group, *group, entry(P, "9")])
        self.assertEqual([int(row[738:744]) for row in (rows[2], rows[3], rows[5], rows[6])],
                         [2, 2, 5, 5])


class Refusing(unittest.TestCase):
    def setUp(self):
        self.carrier = Carrier(100)
        self.draft = Draft(P, self.carrier)

    def open(self, *entries):
        self.draft.start(entry(P, "0"))
        for each in entries:
            self.draft.add(each)

    def assert_refused(self, call, given, *numbers):
        """The call is refused and leaves everything as it was."""
        before = (self.draft.state, self.draft.tally, list(self.carrier.rows))
        self.assertEqual(refusal_of(call, given), numbers)
        self.assertEqual((self.draft.state, self.draft.tally, self.carrier.rows), before)

    def test_states(self):
        self.assert_refused(self.draft.add, entry(P, "1"), 30, 0, 0)
        self.assert_refused(self.draft.close, Entry("?", ()), 30, 0, 0)
        self.open()
        self.assert_refused(self.draft.start, entry(P, "0"), 30, 0, 0)
        self.draft.close(entry(P, "9"))
        self.assert_refused(self.draft.add, entry(P, "1"), 30, 0, 0)
        self.assert_refused(self.draft.close, entry(P, "9"), 30, 0, 0)
        self.assertEqual(len(self.carrier.rows), 2)

    def test_row_numbers(self):
        self.open()
        self.draft.tally = replace(self.draft.tally, place=LARGEST_ROW)
        self.assert_refused(self.draft.add, Entry("?", ()), 27, LARGEST_ROW + 1, 0)
        self.draft.tally = replace(self.draft.tally, place=LARGEST_ROW - 1)
        self.draft.close(entry(P, "9"))
        self.assertEqual(self.carrier.rows[-1][744:], b"065535")

    def test_marks_and_values(self):
        self.open()
        self.assert_refused(self.draft.add, Entry("A", (1,)), 10, 2, 1)
        # 31 comes before 20: this header may not be added, but has too few values.
        header = entry(P, "0")
        short = replace(header, values=header.values[:-1])
        long = replace(header, values=header.values + (0,))
        self.assert_refused(self.draft.add, short, 31, 10, 0)
        self.assert_refused(self.draft.add, long, 31, 11, 0)
        self.assert_refused(self.draft.add, header, 20, 2, 1)

        charge = entry(P, "1")
        end = len(charge.pool)
        wrong = ((1, Slice(0, 1)), (4, 7), (6, Slice(end, 1)), (6, Slice(end + 1, 0)))
        for number, value in wrong:
            values = (*charge.values[: number - 1], value, *charge.values[number:])
            self.assert_refused(self.draft.add, replace(charge, values=values), 31, number, 0)

    def test_kinds(self):
        self.assert_refused(self.draft.start, entry(P, "1"), 20, 1, 1)
        self.open()
        self.assert_refused(self.draft.add, entry(P, "9"), 20, 2, 1)
        self.assert_refused(self.draft.add, entry(P, "2"), 20, 2, 1)
        self.assert_refused(self.draft.close, entry(P, "1"), 20, 2, 1)

    def test_groups(self):
        self.open(entry(P, "1"), *[entry(P, "2")] * 50)
        self.assert_refused(self.draft.add, entry(P, "2", s37=b""), 21, 53, 1)
        self.draft.add(entry(P, "1", s123=1))
        self.assert_refused(self.draft.add, entry(P, "2", s37=b""), 12, 54, 37)
        self.assert_refused(self.draft.add, entry(P, "2", s2=b"OTHER"), 22, 54, 1)
        self.draft.add(entry(P, "1"))
        self.assert_refused(self.draft.add, entry(P, "2", s2=b"OTHER"), 22, 55, 2)

    def test_contents(self):
        self.open()
        wrong = (
            ({"s46": b"x" * 78}, 13, 46),
            ({"s46": b" " * 78}, 13, 46),
            ({"s46": b""}, 12, 46),
            ({"s46": b" "}, 11, 46),
            ({"s46": b" x"}, 11, 46),
            ({"s46": b"x "}, 11, 47),
            ({"s46": b"x\x7f "}, 11, 47),
            ({"s22": b"0" * 19}, 13, 22),
            ({"s22": b"x" * 21}, 13, 22),
            ({"s22": b"0" * 19 + b"x"}, 11, 41),
            ({"s42": b"CACCX"}, 13, 42),
            ({"s42": b"CAC\x00"}, 11, 45),
            ({"s42": b"CACX"}, 13, 42),
            ({"s4": 10**14}, 13, 4),
            ({"s4": 0}, 12, 4),
            ({"s123": 10}, 13, 123),
            ({"s123": 3}, 13, 123),
            ({"s123": 0}, 12, 123),
            ({"s176": 20230229}, 13, 176),
            ({"s176": 10**8}, 13, 176),
            ({"s185": 10**17}, 13, 185),
            ({"s202": 125001}, 15, 202),
            # Fields go by position, and all of them before the conditions.
            ({"s4": 0, "s2": 3}, 13, 2),
            ({"s126": b"", "s551": b"\n"}, 11, 551),
        )
        for changes, number, position in wrong:
            self.assert_refused(self.draft.add, entry(P, "1", **changes), number, 2, position)

    def test_sum_and_places(self):
        self.open(entry(P, "1", s185=10**17 - 1))
        self.assert_refused(self.draft.add, entry(P, "1", s185=1), 26, 3, 185)
        self.carrier.places = 2
        self.assert_refused(self.draft.add, entry(P, "1", s185=1), 26, 3, 185)
        self.assert_refused(self.draft.add, entry(P, "1", s123=1, s185=0), 2, 2, 0)
        self.assert_refused(self.draft.close, entry(P, "9"), 2, 2, 0)

    def test_a_draft_counts_its_own_rows(self):
        self.carrier.rows = [b"-" * 750] * 7
        self.open()
        self.draft.close(entry(P, "9"))
        self.assertEqual([row[744:] for row in self.carrier.rows[7:]], [b"000001", b"000002"])

    def test_other_books(self):
        for book, mark in ((Q, "1"), (S, "A")):
            rows = draft(book, [entry(book, "0"), entry(book, mark), entry(book, "9")])
            self.assertEqual(len(rows), 3)


if __name__ == "__main__":
    unittest.main()
