"""What the tests draw at random: the same every time."""
import random


class Draw:
    """Numbers that depend on the seed alone: `random` is the one method whose sequence Python keeps from version to version."""

    def __init__(self, seed):
        self.random = random.Random(seed).random

    def below(self, n):
        return int(self.random() * n)

    def one_of(self, things):
        return things[self.below(len(things))]

    def bytes(self, n):
        return bytes(self.below(256) for _ in range(n))
