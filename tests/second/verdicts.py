"""The verdict on a claim, with several ways to decide its two harder questions. Quoted sentences are 01's."""

from collections.abc import Callable
from typing import NamedTuple

from second import sums, trying
from second.pairs import Pair, bad_marking, value
from second.sheet import Claim, Sheet


class Verdict(NamedTuple):
    word: str
    transition: int | None = None  # for broken "the lowest such number"


class Ways(NamedTuple):
    target_inside: Callable[[Sheet, Claim], bool]
    breaks: Callable[[Pair], bool]


def verdict(sheet: Sheet, claim: Claim, ways: Ways) -> Verdict:
    """ "The first of these that holds"."""
    if not is_inside(claim, sheet.start):
        return Verdict("start-outside")
    if ways.target_inside(sheet, claim):
        return Verdict("target-inside")
    for number, transition in enumerate(sheet.transitions, start=1):
        if ways.breaks(Pair(claim, transition)):
            return Verdict("broken", number)
    return Verdict("proof")


def is_inside(claim: Claim, marking: tuple[int, ...]) -> bool:
    """ "A marking is inside (k, c) if its value is at least c"."""
    return value(claim.coefficients, marking) >= claim.constant


def target_inside_by_theorem_7(sheet: Sheet, claim: Claim) -> bool:
    """ "For kind 1 this is so exactly if the written target is inside or some coefficient is above zero"."""
    return is_inside(claim, sheet.target) or sheet.kind == 1 and max(claim.coefficients) > 0


def breaks_by_residues(pair: Pair) -> bool:
    return bad_marking(pair) is not None


# The first two are exact for every sheet, each for reasons of its own; the third too, but only small nets can be
# decided by trying, as `trying.most_tried` tells.
BY_SUMS = Ways(target_inside_by_theorem_7, sums.breaks)
BY_RESIDUES = Ways(target_inside_by_theorem_7, breaks_by_residues)
BY_TRYING = Ways(trying.target_inside, trying.breaks)
