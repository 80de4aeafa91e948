"""Chance that every Python repeats, for the tools that draw cases."""
import random


class Draw:
    """Uses `random()` alone: the one method whose numbers every Python repeats."""

    def __init__(self, seed):
        self.random = random.Random(seed).random

    def between(self, a, b):
        return a + int(self.random() * (b - a + 1))

    def chance(self, p):
        return self.random() < p

    def one_of(self, xs):
        return xs[self.between(0, len(xs) - 1)]

    def shuffled(self, xs):
        xs = list(xs)
        for k in range(len(xs) - 1, 0, -1):
            other = self.between(0, k)
            xs[k], xs[other] = xs[other], xs[k]
        return xs
