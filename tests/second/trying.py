"""Decides from the definitions alone, by trying all markings up to a size that is enough. Quoted sentences are 01's."""

from collections.abc import Iterator
from math import comb
from operator import add

from second.pairs import Pair, Vector, is_bad, value
from second.sheet import Claim, Sheet


def breaks(pair: Pair) -> bool:
    """Whether some marking is enabled and inside, and outside once fired."""
    return any(is_bad(pair, marking) for marking in at_or_above(pair.transition.taken, enough_to_break(pair)))


def enough_to_break(pair: Pair) -> int:
    """So many tokens beside the weights taken are enough: where a marking is bad, one with at most these is.

    A bad marking is enabled, so it is the weights taken plus some tokens. Let s be the value of those tokens. Being
    inside says that s is at least one of the two numbers below, and outside once fired that it is at most the other;
    so its size is at most the larger of their sizes. Now take tokens of value s, as few as can be, and lay them
    down one by one: below s always one that raises the value, above s one that lowers it. There is one, since
    what is left has to bring the value to s. So no value on the way is further beyond s than one coefficient, and
    none comes twice, or the tokens laid down between could be left out. The values on the way are thus at most
    as many as there are numbers from 0 to s, and a largest coefficient's size beyond s on either side.
    """
    (coefficients, constant), (taken, put) = pair
    size = max(abs(constant - value(coefficients, taken)), abs(constant - value(coefficients, put) - 1))
    return size + max(0, *coefficients) + max(0, *(-coefficient for coefficient in coefficients))


def target_inside(sheet: Sheet, claim: Claim) -> bool:
    """Whether "some target marking is inside": "one exact marking" or "every marking at or above it"."""
    markings = at_or_above(sheet.target, enough_to_enter(sheet, claim))
    return any(value(claim.coefficients, marking) >= claim.constant for marking in markings)


def enough_to_enter(sheet: Sheet, claim: Claim) -> int:
    """So many tokens beside the written target are enough: each one that raises the value raises it by at least 1,
    and those that don't can be left out.
    """
    missing = claim.constant - value(claim.coefficients, sheet.target)
    return max(0, missing) if sheet.kind == 1 else 0


def at_or_above(marking: Vector, most: int) -> Iterator[Vector]:
    """The markings at or above this one in each place with at most so many tokens more in all."""
    return (tuple(map(add, marking, more)) for more in vectors(len(marking), most))


def vectors(places: int, most: int) -> Iterator[Vector]:
    """Every vector of whole numbers, zero or more, with at most this total."""
    if places == 0:
        yield ()
        return
    for first in range(most + 1):
        for others in vectors(places - 1, most - first):
            yield first, *others


def most_tried(sheet: Sheet, claim: Claim) -> int:
    """How many markings a question about this claim may take."""
    totals = [enough_to_break(Pair(claim, transition)) for transition in sheet.transitions]
    return comb(max(enough_to_enter(sheet, claim), *totals, 0) + sheet.n, sheet.n)
