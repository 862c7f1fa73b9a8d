"""What the second program says of a pair, and the request to the library for it."""

from typing import NamedTuple

from checks import Failure
from comparison import Request
from second.calls import pair_answer
from second.limits import MOST_PLACES
from second.pairs import Pair, Vector, bad_marking, is_shown, pair_asked, small_bad_markings, value
from second.sheet import Refusal

# Entries of the two areas, by the number of a question that says which.
AREA_SIZES = [(20_000, 20_000), (19_999, 20_000), (20_000, 19_999), (20_008, 20_008), (0, 0)]

# By the number of places, up to how many tokens in each all markings are tried: some hundred markings.
MOST_TRIED = {1: 40, 2: 14, 3: 6, 4: 3}


class Question(NamedTuple):
    name: str
    data: bytes  # the sheet
    claim: int
    transition: int
    areas: int  # which of AREA_SIZES

    def __str__(self) -> str:
        sizes = "{} and {}".format(*AREA_SIZES[self.areas])
        return f"{self.name}, claim {self.claim}, transition {self.transition}, areas of {sizes}"


class Answer(NamedTuple):
    """What the second program says of a question."""

    asked: Pair | Refusal
    bad: Vector | None  # a bad marking, if the pair has any
    small: list[Vector]  # those found by trying


def request(question: Question, answer: Answer) -> Request:
    """Any bad marking will do."""
    _, data, claim, transition, areas = question
    refused = answer.asked if isinstance(answer.asked, Refusal) else None
    sizes = AREA_SIZES[areas]
    line = pair_answer(refused, answer.asked if answer.bad else None, claim, transition, sizes)
    return Request(str(question), data, "P", [line], [claim, transition, *sizes])


def second_answer(question: Question) -> Answer:
    asked = pair_asked(question.data, question.claim, question.transition, AREA_SIZES[question.areas])
    if isinstance(asked, Refusal):
        return Answer(asked, None, [])
    most_tried = MOST_TRIED.get(len(asked.claim.coefficients))
    small = [] if most_tried is None else small_bad_markings(asked, most_tried)
    return Answer(asked, bad_marking(asked), small)


def words(answer: Answer) -> str:
    if isinstance(answer.asked, Refusal):
        return answer.asked.words()
    return "broken" if answer.bad else "kept"


def shown_marking(actual: str) -> Vector:
    """The numbers of an answer's marking, if it has one."""
    numbers = actual.partition(", tokens ")[2].partition(",")[0].split()
    return tuple(map(int, numbers)) if all(map(str.isdecimal, numbers)) else ()


def second_faults(question: Question, answer: Answer) -> list[Failure]:
    """What the second program can't have right, by the definitions alone or by the theorems of 004."""
    if isinstance(answer.asked, Refusal):
        return []
    faults = []
    if answer.bad and not is_shown(answer.asked, padded(answer.bad)):
        faults.append(("a bad marking of at most 20,000 tokens", answer.bad))
    if answer.small and not answer.bad:
        faults.append((f"broken at {answer.small[0]}", "kept"))
    kinds = kinds_of(answer.asked)
    if answer.bad and not {"oriented", "monotone", "antitone"}.isdisjoint(kinds):
        faults.append(("kept by Theorem 2 of 004", answer.bad))
    if not answer.bad and "mixed signs" in kinds and "oriented" not in kinds:
        faults.append(("broken by Theorem 3 of 004", "kept"))
    return [Failure(f"{question}, second program", question.data, *fault) for fault in faults]


def padded(marking: Vector) -> Vector:
    """Held as sixteen numbers."""
    return marking + (MOST_PLACES - len(marking)) * (0,)


def kinds_of(pair: Pair) -> list[str]:
    """The kinds of 004 that a pair is of, and some that bear on how it is decided; a pair is of several."""
    (coefficients, constant), (taken, put) = pair
    lowest, highest = min(coefficients), max(coefficients)
    before, after = value(coefficients, taken), value(coefficients, put)
    low, high = constant - before, constant - after - 1
    trivial = {
        "oriented": before <= after,
        "monotone": lowest >= 0 and after >= constant,
        "antitone": highest <= 0 and before < constant,
    }
    holding = {
        "all at or above zero": lowest >= 0,
        "all at or below zero": highest <= 0,
        "mixed signs": lowest < 0 < highest,
        "with zeros": 0 in coefficients,
        **trivial,
        "non-trivial, one sign": not any(trivial.values()) and not lowest < 0 < highest,
        "window of one value": low == high,
        "window beyond 10,000": low <= high and (low > 10_000 or high < -10_000),
    }
    return [kind for kind, holds in holding.items() if holds]
