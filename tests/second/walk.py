"""Walks a net one firing at a time, or by a list. Quoted sentences are 01's, and of a list 02's."""

from collections.abc import Sequence
from typing import NamedTuple

from second.limits import MOST_FIRINGS, MOST_PLACES, MOST_TOKENS
from second.pairs import Vector
from second.sheet import Refusal, Sheet, outside


def begun(sheet: Sheet | Refusal) -> Vector | Refusal:
    """ "A walk begins at the sheet's start, with zeros beyond n"."""
    return sheet if isinstance(sheet, Refusal) else sheet.start + (MOST_PLACES - sheet.n) * (0,)


def stepped(sheet: Sheet | Refusal, marking: Vector, number: int) -> Vector | Refusal:
    """The sixteen numbers after a step, or the refusal that leaves them as they are: the sheet's, 12, 15, 16."""
    if isinstance(sheet, Refusal):
        return sheet
    refused = outside(number, sheet.T, 12)
    if refused:
        return refused
    taken, put = sheet.transitions[number - 1]
    # zip ends with the weights: "a step neither reads nor alters those beyond n".
    left = [tokens - less for tokens, less in zip(marking, taken)]
    after = [tokens + more for tokens, more in zip(left, put)]
    short = [place for place, tokens in enumerate(left, start=1) if tokens < 0]
    if short:
        return Refusal(15, short[0])
    full = [place for place, tokens in enumerate(after, start=1) if tokens > MOST_TOKENS]
    if full:
        return Refusal(16, full[0])
    return (*after, *marking[sheet.n :])


class Fired(NamedTuple):
    refused: Refusal | None
    position: int  # of the step that is refused, "counted from 1 (0 if no step was tried)"; 0 where none is refused
    marking: Vector  # after the call


def fired(sheet: Sheet | Refusal, marking: Vector, numbers: Sequence[int]) -> Fired:
    """ "Moves the marking as single steps would"; 17 comes "after all sheet checks and before any step"."""
    if isinstance(sheet, Refusal):
        return Fired(sheet, 0, marking)
    if len(numbers) > MOST_FIRINGS:
        return Fired(Refusal(17, len(numbers)), 0, marking)
    reached = marking
    for position, number in enumerate(numbers, start=1):
        after = stepped(sheet, reached, number)
        if isinstance(after, Refusal):
            return Fired(after, position, marking)  # "the marking is that before the call"
        reached = after
    return Fired(None, 0, reached)
