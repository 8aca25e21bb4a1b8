"""Chance that depends on a seed alone."""

import random


class Dice:
    """Numbers and choices drawn from one seed. Only `random()` is drawn from the library, since only that is
    promised to stay the same from one version of Python to the next."""

    def __init__(self, seed):
        self.source = random.Random(seed)

    def below(self, bound):
        """A whole number from 0 to bound - 1."""
        return int(self.source.random() * bound)

    def between(self, low, high):
        """A whole number from low to high."""
        return low + self.below(high - low + 1)

    def chance(self, part):
        """Yes in this part of all cases."""
        return self.source.random() < part

    def pick(self, choices):
        """One of the choices, each as likely."""
        return choices[self.below(len(choices))]

    def weighed(self, choices):
        """One of the pairs' first parts, as likely as its second part says."""
        place = self.source.random() * sum(weight for _, weight in choices)
        for choice, weight in choices:
            place -= weight
            if place < 0:
                return choice
        return choices[-1][0]
