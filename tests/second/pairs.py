"""Decides whether a transition keeps a half space: by trying markings, and exactly. Quoted sentences are 01's."""

from collections.abc import Sequence
from functools import lru_cache
from heapq import heappop, heappush
from itertools import product
from operator import add, ge, mul
from typing import NamedTuple

from second.limits import AREA_SIZE, MOST_SHOWN
from second.sheet import Claim, Refusal, Transition, outside, read

Vector = tuple[int, ...]


class Pair(NamedTuple):
    claim: Claim
    transition: Transition


def pair_asked(data: bytes, claim: int, transition: int, area_sizes: Sequence[int]) -> Pair | Refusal:
    """The pair that a question is about: "each call on a sheet reads it all first; then 11, 12, 13"."""
    sheet = read(data)
    if isinstance(sheet, Refusal):
        return sheet
    refused = outside(claim, len(sheet.claims), 11) or outside(transition, sheet.T, 12)
    if refused:
        return refused
    if min(area_sizes) < AREA_SIZE:
        return Refusal(13, 0)
    return Pair(sheet.claims[claim - 1], sheet.transitions[transition - 1])


def value(coefficients: Sequence[int], tokens: Sequence[int]) -> int:
    """ "The sum of k(p) times tokens(p)"."""
    return sum(map(mul, coefficients, tokens))


def is_bad(pair: Pair, marking: Sequence[int]) -> bool:
    """Inside, enabled, and outside once fired."""
    (coefficients, constant), (taken, put) = pair
    if value(coefficients, marking) < constant or not all(map(ge, marking, taken)):
        return False
    fired = [tokens - less + more for tokens, less, more in zip(marking, taken, put)]
    return value(coefficients, fired) < constant


def may_be_shown(pair: Pair, tokens: Sequence[int]) -> bool:
    """One number for each place, bad, and "at most 20,000 tokens in any place"."""
    return len(tokens) == len(pair.claim.coefficients) and max(tokens) <= MOST_SHOWN and is_bad(pair, tokens)


def is_shown(pair: Pair, numbers: Sequence[int]) -> bool:
    """May be shown, and is "held as 16 numbers, zero beyond place n"."""
    n = len(pair.claim.coefficients)
    return not any(numbers[n:]) and may_be_shown(pair, numbers[:n])


def window(pair: Pair) -> tuple[int, int]:
    """The ends of 01's Theorem 1: the bad markings are the weights taken plus the vectors with a value from
    the first to the second. Where the first is above the second there is none.
    """
    (coefficients, constant), (taken, put) = pair
    return constant - value(coefficients, taken), constant - value(coefficients, put) - 1


def small_bad_markings(pair: Pair, most: int) -> list[Vector]:
    """Every bad marking with at most so many tokens in each place, by trying them all."""
    markings = product(range(most + 1), repeat=len(pair.claim.coefficients))
    return [marking for marking in markings if is_bad(pair, marking)]


def bad_marking(pair: Pair) -> Vector | None:
    """A bad marking, or None exactly if there is none of any size."""
    coefficients, taken = pair.claim.coefficients, pair.transition.taken
    low, high = window(pair)
    if low > high:
        return None
    # The values of taken and put differ here, so some coefficient isn't zero.
    if max(coefficients) > 0:
        vector = _vector_between(coefficients, low, high)
    else:
        vector = _vector_between(tuple(-coefficient for coefficient in coefficients), -high, -low)
    return None if vector is None else tuple(map(add, taken, vector))


def _vector_between(coefficients: Vector, low: int, high: int) -> Vector | None:
    """A vector with a value from low to high, or None if there is none; some coefficient is above zero.

    More tokens in the place of the base raise a value and leave its residue. So without a coefficient below
    zero a residue's values are its least one and all above that. With one, as many tokens there as the base
    is large leave the residue too and lower the value, so all numbers of that residue are values.
    """
    base = min(coefficient for coefficient in coefficients if coefficient > 0)
    deepest = min(coefficients)
    for residue, vector in _least_of_each_residue(coefficients, base).items():
        wanted = high - (high - residue) % base  # the largest number of this residue up to high
        above = value(coefficients, vector) - wanted
        if above > 0 and deepest < 0:
            rounds = -(above // (base * deepest))
            vector = _with_more(vector, coefficients.index(deepest), rounds * base)
        missing = wanted - value(coefficients, vector)
        if wanted >= low and missing >= 0:
            return _with_more(vector, coefficients.index(base), missing // base)
    return None


@lru_cache(maxsize=64)  # a claim is asked about with one transition after the other
def _least_of_each_residue(coefficients: Vector, base: int) -> dict[int, Vector]:
    """For each residue modulo the base that a value can have, the vector that has it at the least cost.

    A token costs the size of its coefficient, so the cost is the value where none is below zero. No step costs
    less than nothing, so Dijkstra's way finds the least.
    """
    found = {0: (0, len(coefficients) * (0,))}
    waiting = [(0, 0)]
    while waiting:
        cost, residue = heappop(waiting)
        least, vector = found[residue]
        if cost > least:
            continue  # a cheaper way was found while this one waited
        for place, coefficient in enumerate(coefficients):
            after, cost_after = (residue + coefficient) % base, cost + abs(coefficient)
            if after not in found or cost_after < found[after][0]:
                found[after] = cost_after, _with_more(vector, place, 1)
                heappush(waiting, (cost_after, after))
    return {residue: vector for residue, (_, vector) in found.items()}


def _with_more(vector: Vector, place: int, tokens: int) -> Vector:
    return (*vector[:place], vector[place] + tokens, *vector[place + 1 :])
