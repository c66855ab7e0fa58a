"""All recipes together, and random cases of every sort from a seed.

legal.py makes legal contents and files; faults.py, forms.py and orders.py spoil them.
"""

from collections import defaultdict

from faults import fault_recipes, legal_recipes
from forms import form_recipes, length_recipes, letter_recipes
from orders import order_recipes

# How often a random case is one of the few that have tens of thousands of bytes.
HUGE_CHANCE = 0.005

VARIED = ("legal", "random faults")


def all_recipes():
    return [
        *legal_recipes(),
        *fault_recipes(),
        *form_recipes(),
        *letter_recipes(),
        *length_recipes(),
        *order_recipes(),
    ]


def by_group(recipes):
    groups = defaultdict(list)
    for recipe in recipes:
        groups[recipe.group].append(recipe)
    return groups


class RandomCases:
    """An endless source of cases. Each is made from a random recipe of a random group.

    Legal files and files with several random faults come up more often than their
    groups' number says, since they differ more among themselves.
    """

    def __init__(self, rng):
        self.rng = rng
        recipes = all_recipes()
        self.huge = [recipe for recipe in recipes if recipe.huge]
        small = by_group(recipe for recipe in recipes if not recipe.huge)
        self.groups = list(small.values())
        self.varied = [
            group for (family, _, _), group in small.items() if family in VARIED
        ]

    def next(self):
        """A recipe and its case."""
        if self.rng.random() < HUGE_CHANCE:
            recipe = self.rng.choice(self.huge)
        else:
            groups = self.varied if self.rng.random() < 0.3 else self.groups
            recipe = self.rng.choice(self.rng.choice(groups))
        return recipe, recipe.make(self.rng)
