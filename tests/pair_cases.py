"""Every question about a pair: 01's cases and refusals, written by hand, and many made by chance."""

from collections.abc import Iterable
from itertools import chain, product
from random import Random

from checks import Checks
from make_pairs import random_pairs, sheet_with
from make_sheets import damaged_sheets
from named_cases import FIRST, HEAD, LARGEST, MIDDLE, SMALLEST, ZERO_CLAIM, patched
from pair_questions import AREA_SIZES, Question, padded, second_answer, words
from second.pairs import Pair, is_shown
from second.sheet import Claim, Sheet, Transition, write

ENOUGH, FIRST_SHORT, SECOND_SHORT, MORE, EMPTY = range(len(AREA_SIZES))

T_OF_004 = Transition(taken=(2, 1), put=(1, 2))
K = Transition(taken=(0, 1), put=(1, 0))

# The cases of 01; a broken one with the bad marking that 01 gives it, which need not be the one shown.
CASES = [
    ("a", Pair(Claim((3, 2), 9), T_OF_004), None),
    ("b", Pair(Claim((3, 2), 10), T_OF_004), (2, 2)),
    ("c", Pair(Claim((8, 5), 22), T_OF_004), None),
    ("d", Pair(Claim((53, 52), 209), T_OF_004), None),
    ("e", Pair(Claim((53, 52), 210), T_OF_004), (2, 2)),
    ("f", Pair(Claim((-2, -3), -6), T_OF_004), None),
    ("g", Pair(Claim((-2, -3), -7), T_OF_004), (2, 1)),
    ("h", Pair(Claim((-2, -3), -8), T_OF_004), None),
    ("i", Pair(Claim((-2, -3), -9), T_OF_004), (3, 1)),
    ("j", Pair(Claim((2, -3), 0), T_OF_004), (2, 1)),
    ("k with 8", Pair(Claim((4, 6), 8), K), None),
    ("k with 9", Pair(Claim((4, 6), 9), K), (1, 1)),
    # Not 01's, but its ranges' ends: every bad marking has at least 18,500 tokens in the first place. Against
    # its mirror the last place needs as many.
    (
        "far window",
        Pair(
            Claim((1, *15 * (-100,)), 5_000),
            Transition(taken=(1, *15 * (9,)), put=(0, *15 * (9,))),
        ),
        (18_500, *15 * (9,)),
    ),
    (
        "far window below zero",
        Pair(
            Claim((*15 * (100,), -1), -5_000),
            Transition(taken=(*15 * (9,), 0), put=(*15 * (9,), 1)),
        ),
        (*15 * (9,), 18_500),
    ),
]

# Sheet, claim, transition, areas and 01's words. FIRST has 1 transition and 5 claims, SMALLEST 0 and 1,
# MIDDLE 2 and 2, LARGEST 64 and 32.
ANSWERS = [
    # Start and target play no part: the start of FIRST is outside claim 2, its target inside claim 3.
    (FIRST, 1, 1, ENOUGH, "kept"),
    (FIRST, 2, 1, ENOUGH, "kept"),
    (FIRST, 3, 1, ENOUGH, "kept"),
    (FIRST, 4, 1, ENOUGH, "broken"),
    (FIRST, 5, 1, ENOUGH, "kept"),
    (FIRST, 4, 1, MORE, "broken"),
    (FIRST, 5, 1, MORE, "kept"),
    (FIRST, 0, 1, ENOUGH, "refused 11 at 0"),
    (FIRST, 6, 1, ENOUGH, "refused 11 at 6"),
    (FIRST, 257, 1, ENOUGH, "refused 11 at 257"),
    (FIRST, 65_535, 1, ENOUGH, "refused 11 at 65535"),
    (FIRST, 1, 0, ENOUGH, "refused 12 at 0"),
    (FIRST, 1, 2, ENOUGH, "refused 12 at 2"),
    (FIRST, 1, 257, ENOUGH, "refused 12 at 257"),
    (FIRST, 1, 65_535, ENOUGH, "refused 12 at 65535"),
    (FIRST, 1, 1, FIRST_SHORT, "refused 13 at 0"),
    (FIRST, 1, 1, SECOND_SHORT, "refused 13 at 0"),
    (FIRST, 1, 1, EMPTY, "refused 13 at 0"),
    (FIRST, 4, 1, FIRST_SHORT, "refused 13 at 0"),
    (FIRST, 4, 1, SECOND_SHORT, "refused 13 at 0"),
    # 11 before 12 before 13, and the sheet's own before all.
    (FIRST, 6, 2, ENOUGH, "refused 11 at 6"),
    (FIRST, 6, 1, EMPTY, "refused 11 at 6"),
    (FIRST, 0, 0, SECOND_SHORT, "refused 11 at 0"),
    (FIRST, 1, 2, FIRST_SHORT, "refused 12 at 2"),
    (FIRST, 5, 0, EMPTY, "refused 12 at 0"),
    (HEAD, 0, 0, EMPTY, "refused 9 at 23"),
    (HEAD, 1, 1, ENOUGH, "refused 9 at 23"),
    (FIRST[:-1], 1, 1, ENOUGH, "refused 1 at 47"),
    (FIRST[:-1], 6, 2, FIRST_SHORT, "refused 1 at 47"),
    (ZERO_CLAIM, 1, 1, ENOUGH, "refused 18 at 29"),
    (ZERO_CLAIM, 2, 1, ENOUGH, "refused 18 at 29"),
    (ZERO_CLAIM, 6, 2, EMPTY, "refused 18 at 29"),
    # No transition at all; the last ones there are, and one more.
    (SMALLEST, 1, 0, ENOUGH, "refused 12 at 0"),
    (SMALLEST, 1, 1, ENOUGH, "refused 12 at 1"),
    (SMALLEST, 2, 1, ENOUGH, "refused 11 at 2"),
    (MIDDLE, 2, 3, ENOUGH, "refused 12 at 3"),
    (MIDDLE, 3, 2, ENOUGH, "refused 11 at 3"),
    (LARGEST, 33, 64, MORE, "refused 11 at 33"),
    (LARGEST, 32, 65, MORE, "refused 12 at 65"),
]

# One sheet for each refusal that a sheet may meet by itself.
BAD_SHEETS = [
    b"",
    FIRST + b"H",
    FIRST + b"NP",
    patched(FIRST, 3, "41"),
    patched(FIRST, 9, "0A"),
    patched(FIRST, 18, "02"),
    patched(FIRST, 50, "65"),
    patched(FIRST, 51, "89 13"),
    ZERO_CLAIM,
    LARGEST + b"HS",
    HEAD,
]

SIZES = [(FIRST, 5, 1), (SMALLEST, 1, 0), (MIDDLE, 2, 2), (LARGEST, 32, 64)]  # claims and transitions

DAMAGED = 500

# How often each size of the areas comes with a pair made by chance: most pairs are to be decided.
AREA_WEIGHTS = [80, 1, 1, 17, 1]


def make_questions(checks: Checks) -> list[Question]:
    return list(chain(cases_of_01(checks), answers_of_01(checks), refusals(), damaged(), pairs()))


def cases_of_01(checks: Checks) -> Iterable[Question]:
    for name, pair, bad in CASES:
        question = Question(f"case {name}", write(sheet_of(pair)), 1, 1, ENOUGH)
        check_second(checks, question, "broken" if bad else "kept")
        if bad:
            checks.equal(f"case {name}, 01's marking is bad", question.data, True, is_shown(pair, padded(bad)))
        yield question


def sheet_of(pair: Pair) -> Sheet:
    n = len(pair.claim.coefficients)
    return Sheet(n, 1, (pair.transition,), start=n * (0,), kind=0, target=n * (0,), claims=(pair.claim,))


def answers_of_01(checks: Checks) -> Iterable[Question]:
    for data, claim, transition, areas, expected in ANSWERS:
        question = Question("answer by hand", data, claim, transition, areas)
        check_second(checks, question, expected)
        yield question


def check_second(checks: Checks, question: Question, expected: str) -> None:
    actual = words(second_answer(question))
    checks.equal(f"{question.name}, second program against 01", question.data, expected, actual)


def refusals() -> Iterable[Question]:
    """Right and wrong numbers and areas of every size with one another, for sound sheets and for bad ones."""
    areas = range(len(AREA_SIZES))
    for data, claims, transitions in SIZES:
        for numbers in product(numbers_around(claims), numbers_around(transitions), areas):
            yield Question("sound sheet, any numbers", data, *numbers)
    for data in BAD_SHEETS:
        for numbers in product([0, 1, 65_535], [0, 1, 65_535], areas):
            yield Question("bad sheet, any numbers", data, *numbers)


def numbers_around(count: int) -> list[int]:
    """The ends of the range and what is beyond; 256 and 257 are 0 and 1 in one byte."""
    return sorted({0, 1, count, count + 1, 256, 257, 65_535})


def damaged() -> Iterable[Question]:
    chance = Random("damaged pairs")
    for data in damaged_sheets(DAMAGED):
        yield Question("damaged sheet", data, chance.randint(0, 3), chance.randint(0, 3), some_areas(chance))


def pairs() -> Iterable[Question]:
    chance = Random("pairs")
    for name, pair in random_pairs():
        sheet, claim, transition = sheet_with(chance, pair)
        yield Question(name, write(sheet), claim, transition, some_areas(chance))


def some_areas(chance: Random) -> int:
    (areas,) = chance.choices(range(len(AREA_SIZES)), AREA_WEIGHTS)
    return areas
