import unittest
from collections import defaultdict
from random import Random

from books import BOOKS
from cases import NUMBERS, answer_of, book_of, make_cases
from generate import RandomCases, all_recipes
from judge import conferir

# Where a refusal can come up: 24 needs a total that can be wrong in the trailer, 15
# conditions, 22 groups and 26 a sum. 21 needs 51 followers, and 27 65,536 rows.
BOOKS_OF_NUMBER = defaultdict(lambda: {"P", "Q", "S"}, {
    15: {"P", "S"}, 22: {"P", "Q"}, 24: {"P", "S"}, 26: {"P", "Q"}, 32: {"-"},
})


class Recipes(unittest.TestCase):
    def test_the_judge_answers_what_each_case_was_made_for(self):
        for seed in range(2):
            rng = Random(seed)
            for recipe in all_recipes():
                case = recipe.make(rng)
                if case.line is not None:
                    self.assertEqual(conferir(case.data), case.line, (recipe.group, recipe.place))

    def test_names_are_unique(self):
        names = [(recipe.group, recipe.place) for recipe in all_recipes()]
        self.assertEqual(len(names), len(set(names)))

    def test_the_same_seed_makes_the_same_cases(self):
        one, two = RandomCases(Random(9)), RandomCases(Random(9))
        for _ in range(50):
            self.assertEqual(one.next()[1], two.next()[1])


class Cases(unittest.TestCase):
    @classmethod
    def setUpClass(cls):
        cls.answered = make_cases(360, 750)

    def test_every_refusal_comes_up_in_every_book_that_has_it(self):
        seen = defaultdict(set)
        for _, data, line in self.answered:
            seen[answer_of(line)].add(book_of(data))
        self.assertEqual(seen["accepted"], {"P", "Q", "S"})
        for number in NUMBERS:
            if number != 33:
                self.assertEqual(seen[f"refused by {number}"], BOOKS_OF_NUMBER[number], number)
        self.assertIn("refused by 33", seen)

    def test_every_group_has_a_case(self):
        groups = {recipe.group for recipe in all_recipes()}
        self.assertEqual({recipe.group for recipe, _, _ in self.answered}, groups)

    def test_every_condition_is_kept_and_broken(self):
        topics = {(recipe.book, recipe.topic) for recipe, _, _ in self.answered}
        for book in BOOKS.values():
            for kind in book.kinds.values():
                for number in range(1, len(kind.conditions) + 1):
                    self.assertIn((book.letter, f"{number} kept"), topics)
                    self.assertIn((book.letter, f"{number} broken"), topics)

    def test_lengths_and_size(self):
        lengths = {len(data) for _, data, _ in self.answered}
        self.assertLessEqual({0, 1, 2, 60_041, 60_042, 60_043}, lengths)
        self.assertLess(sum(2 * len(data) + 1 for _, data, _ in self.answered), 6_000_000)

    def test_as_many_cases_as_wanted(self):
        self.assertGreaterEqual(len(self.answered), 360)
        self.assertEqual(len(make_cases(600, 1)), 600)


if __name__ == "__main__":
    unittest.main()
