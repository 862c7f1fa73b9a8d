"""Decides exactly whether a transition breaks a half space, from the numbers that are values of any vector.

A second way beside the residues of `pairs`, and a quicker one; it finds no bad marking. Quoted sentences are 01's.
"""

from collections.abc import Sequence
from functools import lru_cache
from math import gcd

from second.limits import MOST_CONSTANT
from second.pairs import Pair, window


def breaks(pair: Pair) -> bool:
    """By Theorem 1: "exactly if some vector x of whole numbers, zero or more, has value s" in the window."""
    low, high = window(pair)
    coefficients = pair.claim.coefficients
    if low > high:
        return False
    if min(coefficients) < 0 < max(coefficients):
        return some_multiple(gcd(*coefficients), low, high)
    if max(coefficients) <= 0:
        low, high = -high, -low
    return some_sum(coefficients, max(low, 0), high)


def some_multiple(divisor: int, low: int, high: int) -> bool:
    """With coefficients p above zero and -q below, the values are all multiples of the greatest common divisor.

    q - 1 tokens at p and p tokens at -q have the value (q - 1)p - pq = -p, and likewise for -q; so what a token
    adds can be taken off again. Hence the values are all sums and differences of the coefficients, which are the
    multiples of the divisor.
    """
    return high // divisor * divisor >= low


def some_sum(coefficients: Sequence[int], low: int, high: int) -> bool:
    """Whether some sum of the coefficients' sizes lies between two numbers, the first of them zero or more.

    Where no coefficient is below zero the weights put have no value below zero, so the window's upper end is
    below the constant. Where none is above zero the weights taken have no value above zero, so the lower end is
    at least the constant, and is the upper one once signs are turned. So no end passes the largest constant.
    """
    return low <= high and sums(frozenset(map(abs, coefficients))) >> low & (1 << high - low + 1) - 1 != 0


@lru_cache(maxsize=4_096)
def sums(sizes: frozenset[int]) -> int:
    """Bit s is set exactly if s is a sum of sizes, each taken any number of times, for s up to the largest constant.

    A size is added up to 1 time, then up to 3 times, up to 7 times and so on, till that passes the constant.
    """
    found = 1
    for size in sizes - {0}:
        step = size
        while step <= MOST_CONSTANT:
            found |= found << step & (2 << MOST_CONSTANT) - 1
            step *= 2
    return found
