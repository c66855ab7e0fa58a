import unittest
from datetime import date, timedelta

from books import BOOKS, PRINTED, ROW_BYTES, Sort, is_date

WIDTHS = {
    Sort.NUMBER: range(1, 19),
    Sort.CODE: range(1, 19),
    Sort.DATE: (8,),
    Sort.LONG_DIGITS: (20,),
    Sort.AMOUNT: (17,),
    Sort.TOTAL: (17,),
    Sort.ROW_NUMBER: (6,),
    Sort.OWNER_NUMBER: (6,),
    Sort.COUNT: range(6, 19),
}


def all_kinds():
    return [(book, kind) for book in BOOKS.values() for kind in book.kinds.values()]


class Books(unittest.TestCase):
    def test_fields_cover_the_row_without_a_gap(self):
        for book, kind in all_kinds():
            position = 1
            for field in kind.fields:
                self.assertEqual(field.start, position, (book.letter, kind.mark))
                position += field.width
            self.assertEqual(position, ROW_BYTES + 1, (book.letter, kind.mark))

    def test_each_kind_begins_with_its_mark_and_ends_with_the_row_number(self):
        for _, kind in all_kinds():
            self.assertEqual(kind.fields[0].content, kind.mark.encode())
            self.assertEqual(kind.fields[-1].sort, Sort.ROW_NUMBER)
            self.assertEqual(kind.fields[-1].start, 745)

    def test_numbers_of_fields(self):
        counts = {"P": (18, 26, 10, 5), "Q": (19, 32, 9, 9, 9, 8), "S": (20, 23, 5)}
        for letter, expected in counts.items():
            kinds = BOOKS[letter].kinds.values()
            self.assertEqual(tuple(len(kind.fields) for kind in kinds), expected)

    def test_widths_fit_the_sorts(self):
        for _, kind in all_kinds():
            for field in kind.fields:
                self.assertIn(field.width, WIDTHS.get(field.sort, [field.width]))
                self.assertLessEqual(len(field.content), field.width)
                for choice in field.choices:
                    length = len(choice if isinstance(choice, bytes) else str(choice))
                    self.assertLessEqual(length, field.width)
                if field.sort in PRINTED:
                    self.assertFalse(field.required)

    def test_positions_that_conditions_tell(self):
        told = {
            ("P", "1"): [126, 185, 124, 124, 202, 219, 236, 270, 126, 410],
            ("S", "A"): [321, 321, 161, 276, 276, 285, 303],
        }
        for book, kind in all_kinds():
            positions = [condition.position for condition in kind.conditions]
            self.assertEqual(positions, told.get((book.letter, kind.mark), []))


class Dates(unittest.TestCase):
    def test_the_calendar_is_the_library_s(self):
        day, last = date(1900, 1, 1), date(2999, 12, 31)
        real = set()
        while day <= last:
            real.add(day.year * 10000 + day.month * 100 + day.day)
            day += timedelta(days=1)
        ours = {
            number
            for year in range(1899, 3002)
            for month in range(0, 14)
            for number in range(year * 10000 + month * 100, year * 10000 + month * 100 + 34)
            if is_date(number)
        }
        self.assertEqual(ours, real)


if __name__ == "__main__":
    unittest.main()
