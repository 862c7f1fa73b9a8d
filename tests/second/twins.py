"""Claims that are twins. Quoted sentences are 01's."""

from collections.abc import Sequence
from math import gcd

from second.sheet import Claim


def reduced(claim: Claim) -> Claim:
    """ "Divides all coefficients and the constant by the greatest common divisor of their sizes"."""
    coefficients, constant = claim
    divisor = gcd(*coefficients, constant)  # of their sizes: math.gcd leaves signs aside; by Req 02 not all are zero
    return Claim(tuple(coefficient // divisor for coefficient in coefficients), constant // divisor)


def first_twins(claims: Sequence[Claim]) -> list[int | None]:
    """For each claim the lowest number of an earlier twin, if it has one."""
    first: dict[Claim, int] = {}
    twins = []
    for number, claim in enumerate(claims, start=1):
        lowest = first.setdefault(reduced(claim), number)
        twins.append(lowest if lowest < number else None)
    return twins
