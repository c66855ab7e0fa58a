import unittest
from unittest import mock

from books import BOOKS, P, Q, S
from drafter import print_rows
from judge import LARGEST_INPUT, Accepted, check, conferir
from recipes import feed
from refusals import Refused
from samples import item


def answer(book, items, *changes):
    """What check answers; changes are triples of a row, a position and bytes."""
    return answer_of_rows(book, changed(print_rows(book, items), *changes))


def changed(rows, *changes):
    rows = list(rows)
    for row, position, data in changes:
        old = rows[row - 1]
        rows[row - 1] = old[: position - 1] + data + old[position - 1 + len(data) :]
    return rows


def answer_of_rows(book, rows):
    try:
        return check(book, rows)
    except Refused as refused:
        return refused.number, refused.first, refused.second


def p_file(**changes):
    """Header, one charge, trailer; the changes are the charge's."""
    return [item(P, "0"), item(P, "1", **changes), item(P, "9")]


def p_group(followers):
    return [item(P, "0"), item(P, "1"), *[item(P, "2")] * followers, item(P, "9")]


class Program(unittest.TestCase):
    def test_a_letter_alone(self):
        for letter in "PQS":
            line = conferir(f"{letter}\n".encode())
            self.assertEqual(line, "NO n=28 row=00000 pos=000")

    def test_one_charge_of_1250(self):
        line = conferir(feed(P, print_rows(P, p_file())))
        self.assertEqual(line, "OK rows=00003 total=00000000000125000")

    def test_q_tells_a_sum_and_s_tells_none(self):
        q = print_rows(Q, [item(Q, "0"), item(Q, "1"), item(Q, "9")])
        s = print_rows(S, [item(S, "0"), item(S, "A", s285=500), item(S, "9")])
        self.assertEqual(conferir(feed(Q, q)), "OK rows=00003 total=00000000000125000")
        self.assertEqual(conferir(feed(S, s)), "OK rows=00003 total=00000000000000000")

    def test_heads(self):
        for data in (b"", b"P", b"\n", b"p\n", b"P\r\n", b"R\n", b"PP", b"\nP"):
            self.assertEqual(conferir(data), "NO n=32 row=00000 pos=000", data)

    def test_lengths(self):
        full = b"P\n" + (b"0" * 1500 + b"\n") * 40
        self.assertEqual(len(full), LARGEST_INPUT)
        self.assertEqual(LARGEST_INPUT, 60_042)
        self.assertEqual(conferir(full), "NO n=10 row=00001 pos=001")
        self.assertEqual(conferir(full + b"\n"), "NO n=33 row=00000 pos=000")
        self.assertEqual(conferir(b"?" + full), "NO n=33 row=00000 pos=000")
        self.assertEqual(conferir(full[:-1]), "NO n=01 row=00040 pos=000")

    def test_the_line_of_a_bad_byte(self):
        good = feed(P, print_rows(P, p_file()))
        for index, row in ((2, 1), (1501, 1), (1502, 1), (1503, 2), (3003, 2), (3004, 3)):
            bad = good[:index] + b"x" + good[index + 1 :]
            self.assertEqual(conferir(bad), f"NO n=01 row={row:05d} pos=000", index)
        self.assertEqual(conferir(good[:-1]), "NO n=01 row=00003 pos=000")
        self.assertEqual(conferir(good + b"0"), "NO n=01 row=00004 pos=000")
        self.assertEqual(conferir(good + b"\n"), "NO n=01 row=00004 pos=000")
        # The + of the Pix key is 2B, the only letter among the digits.
        self.assertEqual(conferir(good.replace(b"B", b"b")), "NO n=01 row=00002 pos=000")


class Fields(unittest.TestCase):
    def test_constants_and_blanks(self):
        self.assertEqual(answer(P, p_file(), (1, 15, b"X")), (14, 1, 15))
        self.assertEqual(answer(P, p_file(), (1, 26, b"\x00")), (14, 1, 26))
        self.assertEqual(answer(P, p_file(), (2, 744, b"0")), (14, 2, 744))

    def test_texts(self):
        self.assertEqual(answer(P, p_file(s46=b"a  b")), Accepted(3, 125000))
        self.assertEqual(answer(P, p_file(), (2, 46, b" ")), (11, 2, 46))
        self.assertEqual(answer(P, p_file(), (2, 48, b"\x7f")), (11, 2, 48))
        self.assertEqual(answer(P, p_file(), (2, 122, b"\x1f")), (11, 2, 122))
        self.assertEqual(answer(P, p_file(), (2, 549, b"\xff")), (11, 2, 410))
        self.assertEqual(answer(P, p_file(), (2, 46, b" " * 77)), (12, 2, 46))

    def test_words(self):
        self.assertEqual(answer(P, p_file(s42=b"SVGS")), Accepted(3, 125000))
        self.assertEqual(answer(P, p_file(s42=b"svgs")), (13, 2, 42))
        self.assertEqual(answer(P, p_file(s42=b"SVG")), (13, 2, 42))
        self.assertEqual(answer(P, p_file(), (2, 43, b"S")), (11, 2, 42))
        items = [item(Q, "0"), item(Q, "1", s50=b""), item(Q, "9")]
        self.assertEqual(answer(Q, items), (12, 2, 50))

    def test_numbers(self):
        self.assertEqual(answer(P, p_file(), (2, 4, b" ")), (11, 2, 4))
        self.assertEqual(answer(P, p_file(), (2, 18, b"    ")), (11, 2, 18))
        self.assertEqual(answer(P, p_file(), (2, 161, b"+")), (11, 2, 161))
        self.assertEqual(answer(P, p_file(), (2, 41, b"/")), (11, 2, 41))
        self.assertEqual(answer(P, p_file(), (2, 201, b":")), (11, 2, 201))
        self.assertEqual(answer(P, p_file(), (2, 750, b" ")), (11, 2, 750))
        self.assertEqual(answer(P, p_file(s4=0)), (12, 2, 4))

    def test_codes(self):
        self.assertEqual(answer(P, p_file(s124=3)), (13, 2, 124))
        self.assertEqual(answer(P, p_file(s124=0)), (12, 2, 124))
        self.assertEqual(answer(P, p_file(s254=0)), Accepted(3, 125000))
        self.assertEqual(answer(P, p_file(s254=3)), (13, 2, 254))

    def test_dates(self):
        for date in (0, 19000101, 20000229, 20240229, 20240430, 29991231):
            self.assertEqual(answer(P, p_file(s176=date)), Accepted(3, 125000), date)
        for date in (20230229, 21000229, 20240431, 18991231, 30000101, 20241301, 20240100, 1):
            self.assertEqual(answer(P, p_file(s176=date)), (13, 2, 176), date)
        header_without_date = [item(P, "0", s156=0), item(P, "9")]
        self.assertEqual(answer(P, header_without_date), (12, 1, 156))


class Conditions(unittest.TestCase):
    def test_key_and_text_of_a_static_charge(self):
        charge = {"s123": 1, "s46": b"123456789"}
        self.assertEqual(answer(P, p_file(**charge, s410=b"x" * 68)), Accepted(3, 125000))
        self.assertEqual(answer(P, p_file(**charge, s410=b"x" * 69)), (15, 2, 410))
        charge["s123"] = 2
        self.assertEqual(answer(P, p_file(**charge, s410=b"x" * 140)), Accepted(3, 125000))

    def test_interest_fine_and_discount(self):
        for start in (202, 219, 236):
            kept, broken = {f"s{start}": 125000}, {f"s{start}": 125001}
            self.assertEqual(answer(P, p_file(**kept)), Accepted(3, 125000))
            self.assertEqual(answer(P, p_file(**broken)), (15, 2, start))

    def test_dynamic_and_static(self):
        self.assertEqual(answer(P, p_file(s126=b"")), (15, 2, 126))
        self.assertEqual(answer(P, p_file(s185=0)), (15, 2, 185))
        self.assertEqual(answer(P, p_file(s123=1, s185=0)), Accepted(3, 0))
        self.assertEqual(answer(P, p_file(s123=1, s124=2)), (15, 2, 124))
        self.assertEqual(answer(P, p_file(s123=1, s124=4)), (15, 2, 124))
        self.assertEqual(answer(P, p_file(s123=1, s126=b"x" * 25)), Accepted(3, 125000))
        self.assertEqual(answer(P, p_file(s123=1, s126=b"x" * 26)), (15, 2, 126))
        self.assertEqual(answer(P, p_file(s126=b"x" * 35)), Accepted(3, 125000))

    def test_debtor(self):
        self.assertEqual(answer(P, p_file(s256=1)), (15, 2, 270))
        self.assertEqual(answer(P, p_file(s256=1, s270=b"N")), Accepted(3, 125000))
        self.assertEqual(answer(P, p_file(s270=b"N")), Accepted(3, 125000))

    def test_recurrences(self):
        def recurrence(**changes):
            return answer(S, [item(S, "0"), item(S, "A", **changes), item(S, "9")])

        legal = Accepted(3, 0)
        self.assertEqual(recurrence(), legal)
        for occurrence in (2, 3):
            self.assertEqual(recurrence(s2=occurrence), (15, 2, 321))
            self.assertEqual(recurrence(s2=occurrence, s321=b"R"), legal)
        self.assertEqual(recurrence(s4=3), (15, 2, 161))
        self.assertEqual(recurrence(s4=3, s161=b"T"), legal)
        self.assertEqual(recurrence(s267=1), (15, 2, 276))
        self.assertEqual(recurrence(s267=1, s276=20250101), legal)
        self.assertEqual(recurrence(s276=20250101), (15, 2, 276))
        self.assertEqual(recurrence(s284=1), (15, 2, 285))
        self.assertEqual(recurrence(s284=1, s285=1), legal)
        self.assertEqual(recurrence(s285=1, s303=1), legal)
        self.assertEqual(recurrence(s302=1), (15, 2, 303))
        self.assertEqual(recurrence(s302=1, s303=1), legal)

    def test_the_first_broken_condition_counts_not_the_lowest_position(self):
        self.assertEqual(answer(P, p_file(s123=1, s126=b"x" * 26, s256=1)), (15, 2, 270))


class Files(unittest.TestCase):
    def test_a_header_and_a_trailer_are_a_file(self):
        for book in BOOKS.values():
            self.assertEqual(answer(book, [item(book, "0"), item(book, "9")]), Accepted(2, 0))

    def test_counts(self):
        p = print_rows(P, p_file())
        q = print_rows(Q, [item(Q, "0"), item(Q, "1"), item(Q, "9")])
        self.assertEqual(p[2][729:744], b"%015d" % 3)
        self.assertEqual(q[2][729:744], b"%015d" % 1)
        self.assertEqual(answer_of_rows(P, changed(p, (3, 730, b"%015d" % 1))), (25, 3, 730))
        self.assertEqual(answer_of_rows(Q, changed(q, (3, 730, b"%015d" % 3))), (25, 3, 730))

    def test_order_of_kinds(self):
        self.assertEqual(answer(P, [item(P, "1"), item(P, "9")]), (20, 1, 1))
        self.assertEqual(answer(P, [item(P, "0"), item(P, "0")]), (20, 2, 1))
        self.assertEqual(answer(P, [item(P, "0"), item(P, "2")]), (20, 2, 1))
        self.assertEqual(answer(P, p_file() + [item(P, "9")]), (20, 4, 1))
        self.assertEqual(answer(P, p_file(), (2, 1, b"3")), (10, 2, 1))
        self.assertEqual(answer(P, p_file()[:2]), (28, 2, 0))
        self.assertEqual(answer(P, []), (28, 0, 0))

    def test_largest_group(self):
        self.assertEqual(answer(P, p_group(50)), Accepted(53, 125000))
        self.assertEqual(answer(P, p_group(51)), (21, 53, 1))
        # 21 comes before the fields of the row, and a new owner begins a new group.
        self.assertEqual(answer(P, p_group(51), (53, 2, b"\x00" * 749)), (21, 53, 1))
        two_groups = p_group(50)[:-1] + p_group(50)[1:]
        self.assertEqual(answer(P, two_groups), Accepted(104, 250000))

    def test_followers(self):
        static = [item(P, "0"), item(P, "1", s123=1), item(P, "2"), item(P, "9")]
        self.assertEqual(answer(P, static), (22, 3, 1))
        self.assertEqual(answer(P, p_group(2), (4, 4, b"2")), (22, 4, 2))
        self.assertEqual(answer(P, p_group(2), (4, 2, b" " * 35)), (22, 4, 2))
        transfer = [item(Q, "0"), item(Q, "1", s131=3), item(Q, "2"), item(Q, "9")]
        self.assertEqual(answer(Q, transfer), (22, 3, 1))

    def test_worked_numbers(self):
        self.assertEqual(answer(P, p_group(1), (3, 739, b"000003")), (23, 3, 739))
        self.assertEqual(answer(P, p_group(1), (3, 745, b"000002")), (23, 3, 745))
        both = (3, 739, b"000009000009")
        self.assertEqual(answer(P, p_group(1), both), (23, 3, 739))
        self.assertEqual(answer(P, p_file(), (1, 745, b"000000")), (23, 1, 745))
        self.assertEqual(answer(P, p_file(), (3, 713, b"%017d" % 125001)), (24, 3, 713))
        in_s = [item(S, "0"), item(S, "A", s285=1), item(S, "9")]
        self.assertEqual(answer(S, in_s, (3, 729, b"1")), (24, 3, 713))

    def test_largest_sum(self):
        most = 10**17 - 1
        fits = [item(P, "0"), item(P, "1", s185=most - 1), item(P, "1", s185=1), item(P, "9")]
        self.assertEqual(answer(P, fits), Accepted(4, most))
        passes = [item(P, "0"), item(P, "1", s185=most), item(P, "1", s185=1), item(P, "9")]
        self.assertEqual(answer(P, passes), (26, 3, 185))

    def test_largest_row_number(self):
        # With a smaller limit: a file of 65,536 rows would take too long.
        with mock.patch("judge.LARGEST_ROW", 3):
            self.assertEqual(answer(P, p_group(0)), Accepted(3, 125000))
            self.assertEqual(answer(P, p_group(1), (4, 1, b"X")), (27, 4, 0))


if __name__ == "__main__":
    unittest.main()
