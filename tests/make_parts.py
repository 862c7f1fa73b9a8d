"""Numbers by chance, and the parts of a sheet that are made of them."""

from random import Random

from second import limits
from second.sheet import Claim, Transition


def random_transition(chance: Random, n: int) -> Transition:
    return Transition(several(chance, n, 0, limits.MOST_WEIGHT), several(chance, n, 0, limits.MOST_WEIGHT))


def random_claim(chance: Random, n: int) -> Claim:
    """One in ten has a single coefficient other than zero: a reader that looks at some of them alone may miss it."""
    coefficients = several(chance, n, -limits.MOST_COEFFICIENT, limits.MOST_COEFFICIENT)
    coefficients = not_all_zero(chance, n * (0,) if chance.random() < 0.1 else coefficients)
    return Claim(coefficients, near_ends(chance, -limits.MOST_CONSTANT, limits.MOST_CONSTANT))


def not_all_zero(chance: Random, coefficients: tuple[int, ...]) -> tuple[int, ...]:
    """Coefficients that a claim may have, by 02: where all are zero, one of them becomes 1 or -1."""
    if any(coefficients):
        return coefficients
    place = chance.randrange(len(coefficients))
    return (*coefficients[:place], chance.choice([-1, 1]), *coefficients[place + 1 :])


def several(chance: Random, count: int, low: int, high: int) -> tuple[int, ...]:
    return tuple(near_ends(chance, low, high) for _ in range(count))


def near_ends(chance: Random, low: int, high: int) -> int:
    """Any number of the range, but its ends more often: that is where readers go wrong."""
    return chance.choice([low, high]) if chance.random() < 0.5 else chance.randint(low, high)
