"""The sheets and pair questions that the programs are measured on, the same at every run."""

import sys
from collections.abc import Callable
from pathlib import Path
from random import Random
from typing import NamedTuple

sys.path.insert(0, str(Path(__file__).resolve().parent.parent / "tests"))

from second.pairs import Pair, bad_marking, value
from second.sheet import Claim, Sheet, Transition, write

PLACES, TRANSITIONS, CLAIMS = 16, 64, 32
MOST_TOKENS = 65_535
LARGEST_CONSTANT = 5_000
HALF = PLACES // 2


class Case(NamedTuple):
    name: str
    data: bytes  # a sheet, or a framed question


def listing_cases() -> list[Case]:
    sheets = {
        "one sign, widest windows": one_sign_wide(),
        "one sign, windows near 5,000": one_sign_far(),
        "both signs, 18,500 tokens": both_signs(1),
        "both signs, eleven ones": both_signs(11),
        "typical": typical(),
    }
    return [Case(name, write(sheet)) for name, sheet in sheets.items()]


def pair_cases() -> list[Case]:
    return [Case(name, question(sheet, claim, transition)) for name, (sheet, claim, transition) in PAIRS.items()]


# What is subtracted.

EMPTY = b""

# A listing's start-up and the clearing of its areas: the smallest sheet whose only claim has the start outside.
CLEARING = write(Sheet(1, 0, (), start=(0,), kind=0, target=(0,), claims=(Claim((1,), 1),)))


def empty_window() -> bytes:
    """A question's start-up, the filling and clearing of its areas and the look through them afterwards."""
    return question(sheet_of(Pair(Claim((1,), 1), Transition((1,), (1,)))), 1, 1)


# Listings.


def sheet_with(transitions: list[Transition], claims: list[Claim]) -> Sheet:
    """The start has all tokens in the first place and the target has none, so a verdict goes on to the transitions."""
    n = len(claims[0].coefficients)
    start = (MOST_TOKENS, *(n - 1) * [0])
    assert all(value(k, start) >= c > 0 for k, c in claims)
    return Sheet(n, len(transitions), tuple(transitions), start, 0, n * (0,), tuple(claims))


def one_sign_wide() -> Sheet:
    """All proofs, each pair after a look at some 70 values, and no coefficient is a sum of others.

    The coefficients are 93 to 100 in the first half of the places and 85 to 92 in the second, in any order. All
    transitions take the same nine tokens from the first half and put nine into the second, and no x has a
    value from 1 to 84.
    """
    chance = Random("one sign, widest windows")
    high, low = range(93, 101), range(85, 93)
    rows = [(*chance.sample(high, HALF), *chance.sample(low, HALF)) for _ in range(CLAIMS)]
    taken = (2, *(HALF - 1) * [1], *HALF * [0])
    claims = [Claim(row, value(row, taken) + 1) for row in rows]

    def width_fits(put: tuple[int, ...]) -> bool:
        return all(0 < value(row, taken) - value(row, put) <= 84 for row in rows)

    transitions = different(lambda: Transition(taken, dropped(chance, HALF, 9)), lambda made: width_fits(made.put))
    return sheet_with(transitions, claims)


def one_sign_far() -> Sheet:
    """All proofs, with windows from 4,001 to 4,850. Coefficients of 99 and 100, with the first half all 100.

    A transition moves up to nine tokens from the first half to the second, at least one of them to the last place,
    where a token counts 99. So many tokens of x have a value from 99 to 100 times their number, and c is just above
    such a stretch.
    """
    chance = Random("one sign, windows near 5,000")
    patterns = chance.sample(range(2 ** (HALF - 1)), CLAIMS)
    rows = [(*HALF * [100], *(99 + (pattern >> bit & 1) for bit in range(HALF - 1)), 99) for pattern in patterns]
    claims = [Claim(row, chance.randint(4_901, 4_940)) for row in rows]

    def moving() -> Transition:
        count = chance.randint(1, 9)
        taken = tuple(reversed(dropped(chance, HALF, count)))
        put = dropped(chance, HALF, count - 1)
        return Transition(taken, (*put[:-1], put[-1] + 1))

    return sheet_with(different(moving, lambda made: max(made.taken + made.put) <= 9), claims)


def dropped(chance: Random, among: int, count: int) -> tuple[int, ...]:
    """So many tokens, by chance among that many places at the end."""
    weights = PLACES * [0]
    for _ in range(count):
        weights[PLACES - 1 - chance.randrange(among)] += 1
    return tuple(weights)


def different(make: Callable[[], Transition], fits: Callable[[Transition], bool]) -> list[Transition]:
    made: list[Transition] = []
    while len(made) < TRANSITIONS:
        transition = make()
        if transition not in made and fits(transition):
            made.append(transition)
    return made


def both_signs(ones: int) -> Sheet:
    """Every claim is broken by the last transition alone, where the window is as far away as can be.

    So many coefficients of 1 bring a value there, and those of -100 or -99 in the other places move it away.
    """
    chance = Random(f"both signs, {ones}")
    others = PLACES - ones
    rows = [(*ones * [1], *(-99 if place == near else -100 for place in range(others))) for near in range(-1, others)]
    numbers = [(row, LARGEST_CONSTANT - less) for less in range(CLAIMS) for row in rows]
    breaking = Transition((1, *(ones - 1) * [0], *others * [9]), (0, *(ones - 1) * [0], *others * [9]))

    def rising() -> Transition:
        ups = [sorted(chance.choices(range(10), k=2)) for _ in range(ones)]
        downs = [sorted(chance.choices(range(10), k=2), reverse=True) for _ in range(others)]
        return Transition(*zip(*ups, *downs))

    transitions = different(rising, lambda made: True)[:-1] + [breaking]
    return sheet_with(transitions, [Claim(*number) for number in numbers[:CLAIMS]])


# Each kind of verdict that the typical sheet has, in its order; a twin of the first claim follows.
TYPICAL = ["proof", "broken, both signs", "start-outside", "broken, one sign", "target-inside"]


def typical() -> Sheet:
    """8 places, 12 transitions that keep one weighted sum of tokens, and 6 claims."""
    chance = Random("typical")
    n, kept_sum = 8, (1, 2, 1, 1, 2, 1, 2, 1)
    transitions: list[Transition] = []
    while len(transitions) < 12:
        taken, put = (tuple(chance.choice([0, 0, 0, 0, 1, 1, 2]) for _ in range(n)) for _ in range(2))
        if taken != put and value(kept_sum, taken) == value(kept_sum, put) > 0:
            transitions.append(Transition(taken, put))
    start, target = (3, 1, 0, 2, 0, 0, 1, 0), (1, 1, 0, 0, 1, 0, 1, 1)
    sheet = Sheet(n, len(transitions), tuple(transitions), start, 0, target, ())
    first = Claim(kept_sum, value(kept_sum, start))
    claims = [first]
    for kind in TYPICAL[1:]:
        claims.append(some_claim(chance, sheet, kind))
    claims.append(Claim(tuple(2 * k for k in first.coefficients), 2 * first.constant))
    return Sheet(n, len(transitions), tuple(transitions), start, 0, target, tuple(claims))


def some_claim(chance: Random, sheet: Sheet, kind: str) -> Claim:
    while True:
        lowest = 0 if kind.endswith("one sign") else -3
        claim = Claim(tuple(chance.randint(lowest, 5) for _ in range(sheet.n)), chance.randint(1, 12))
        if kind_of(sheet, claim) == kind:
            return claim


def kind_of(sheet: Sheet, claim: Claim) -> str:
    """The verdict for a target of kind 0, and for broken the signs."""
    if value(claim.coefficients, sheet.start) < claim.constant:
        return "start-outside"
    if value(claim.coefficients, sheet.target) >= claim.constant:
        return "target-inside"
    if all(bad_marking(Pair(claim, transition)) is None for transition in sheet.transitions):
        return "proof"
    return "broken, both signs" if min(claim.coefficients) < 0 < max(claim.coefficients) else "broken, one sign"


# Pairs.


def question(sheet: Sheet, claim: int, transition: int) -> bytes:
    """As pair_program.h takes it, with areas of 20,000."""
    data = write(sheet)
    numbers = [(claim, 2), (transition, 2), (0, 1), (len(data), 2)]
    return b"".join(number.to_bytes(size, "little") for number, size in numbers) + data


def sheet_of(pair: Pair) -> Sheet:
    n = len(pair.claim.coefficients)
    return Sheet(n, 1, (pair.transition,), n * (0,), 0, n * (0,), (pair.claim,))


def alone(coefficients: list[int], constant: int, taken: list[int], put: list[int]) -> tuple[Sheet, int, int]:
    """The pair as the only one of its sheet, with no weights beyond those given."""
    weights = [(*row, *(len(coefficients) - len(row)) * [0]) for row in (taken, put)]
    return sheet_of(Pair(Claim(tuple(coefficients), constant), Transition(*weights))), 1, 1


# Sums of 70 and 71 are every number but 2,415, of which the largest is 4,829: half of all below are reached.
HALVES = HALF * [71, 70]
GAP = 4_829

PAIRS = {
    "rising, kept after a full search": alone(HALVES, GAP + 71, [1, 0], [0, 1]),
    "falling, kept after a full search": alone([-k for k in HALVES], 1 - GAP - 71, [0, 1], [1, 0]),
    "rising, broken at 4,999 tokens": alone(PLACES * [1], LARGEST_CONSTANT, [1], [0]),
    "rising, sixteen sizes": alone(list(range(1, PLACES + 1)), LARGEST_CONSTANT, [1], [0]),
    "zeros, kept after a full search": alone([71, 70] + (PLACES - 2) * [0], GAP + 71, [1, 0], [0, 1]),
    "both signs, 18,500 tokens": alone([1] + (PLACES - 1) * [-100], LARGEST_CONSTANT, [1, *15 * [9]], [0, *15 * [9]]),
    "both signs, sixteen sizes": alone([1, *range(-100, -85)], LARGEST_CONSTANT, [1, *15 * [9]], [0, *15 * [9]]),
    "largest sheet, empty window": (both_signs(1), 1, 1),
    "typical, kept": (typical(), 1, 1),
    "typical, broken, both signs": (typical(), 2, 1),
    "typical, broken, one sign": (typical(), 4, 1),
}
