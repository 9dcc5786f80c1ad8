"""Choices that all drawing shares."""

import random


def source_of(seed, number):
    """The source of all choices of a case."""
    return random.Random(f"{seed}/{number}")


class Drawing:
    """Draws from a source of choices."""

    def __init__(self, source):
        self.source = source

    def chance(self, share):
        return self.source.random() < share

    def one(self, of):
        return self.source.choice(of)

    def weighted(self, weights):
        """One of the keys, by their weights."""
        return self.source.choices(list(weights), list(weights.values()))[0]

    def some(self, of, least, most):
        """A list of least to most of them, any of which may stand there twice."""
        return [self.one(of) for _ in range(self.source.randint(least, most))]
