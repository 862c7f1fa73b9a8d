"""Sheets for the whole listing, made by chance from fixed seeds: most have a claim that start and target both fit.

By chance alone most starts are outside and most targets inside, so broken and proof would hardly be reached.
"""

from collections.abc import Callable
from random import Random
from typing import NamedTuple

from make_pairs import (
    all_above_zero,
    all_below_zero,
    between_multiples,
    far_window,
    in_range,
    margin,
    mixed_signs,
    negated,
    rising,
    some_transition,
    with_zeros,
)
from make_parts import near_ends, not_all_zero, random_claim, several
from make_sheets import damaged_sheets, random_bytes, random_sheet
from second import limits
from second.pairs import Pair, Vector, value
from second.sheet import Claim, Sheet, Transition, write


class Made(NamedTuple):
    kind: str
    data: bytes


def made_listings() -> list[Made]:
    sheets = []
    for kind, (make, count) in MAKERS.items():
        chance = Random(kind)
        sheets += [Made(kind, write(make(chance))) for _ in range(count)]
    sheets += [Made("damaged", data) for data in damaged_sheets(1_500)]
    return sheets + [Made("random bytes", data) for data in random_bytes(500)]


# A start and a target that fit a claim.


def sheet_for(chance: Random, main: Claim, transitions: list[Transition], claims: list[Claim]) -> Sheet:
    """A sheet whose start is inside the main claim and whose target is outside, if the claim has such markings.

    With kind 1 a coefficient above zero lets the target in all the same, so that kind is then rare.
    """
    outside = Claim(negated(main.coefficients), 1 - main.constant)  # inside this is outside the main claim
    return Sheet(
        n=len(main.coefficients),
        T=len(transitions),
        transitions=tuple(transitions),
        start=marking_inside(chance, main),
        kind=int(chance.random() < (0.15 if max(main.coefficients) > 0 else 0.5)),
        target=marking_inside(chance, outside),
        claims=tuple(claims),
    )


def marking_inside(chance: Random, claim: Claim) -> Vector:
    """Often just inside; if few tokens by chance are outside, more are put where they raise the value, if any do."""
    coefficients, constant = claim
    tokens = [chance.choice([0, 0, 1, 3]) for _ in coefficients]
    raising = [place for place, coefficient in enumerate(coefficients) if coefficient > 0]
    missing = constant - value(coefficients, tokens)
    if missing > 0 and not raising:
        return len(tokens) * (0,)
    if missing > 0:
        place = chance.choice(raising)
        tokens[place] += -(-missing // coefficients[place]) + margin(chance)
    return tuple(tokens)


# Claims that start and target may fit too.


def relatives(chance: Random, main: Claim, most: int) -> list[Claim]:
    """The main claim among some that are much like it."""
    claims = [relative(chance, main) for _ in range(chance.randrange(most))]
    claims.insert(chance.randint(0, len(claims)), main)
    return claims


def relative(chance: Random, claim: Claim) -> Claim:
    coefficients, constant = claim
    match chance.randrange(8):
        case 0 | 1:
            return scaled(claim, chance.randint(2, 5))
        case 2 | 3:
            return Claim(coefficients, in_range(constant + chance.choice([-2, -1, 1, 2])))
        case 4:
            return Claim(coefficients, in_range(constant + chance.randint(-40, 40)))
        case 5:
            return nudged(chance, claim)
        case 6:
            return claim
        case _:
            return random_claim(chance, len(coefficients))


def scaled(claim: Claim, factor: int) -> Claim:
    """A twin, or the claim itself where a number would leave its range."""
    coefficients, constant = tuple(factor * number for number in claim.coefficients), factor * claim.constant
    fits = max(map(abs, coefficients)) <= limits.MOST_COEFFICIENT and abs(constant) <= limits.MOST_CONSTANT
    return Claim(coefficients, constant) if fits else claim


def nudged(chance: Random, claim: Claim) -> Claim:
    """One coefficient is one more or one less."""
    place, change = chance.randrange(len(claim.coefficients)), chance.choice([-1, 1])
    coefficients = list(claim.coefficients)
    coefficients[place] = max(-limits.MOST_COEFFICIENT, min(limits.MOST_COEFFICIENT, coefficients[place] + change))
    return Claim(not_all_zero(chance, tuple(coefficients)), claim.constant)


# Sheets of each kind.


def around(make_pair: Callable[[Random], Pair]) -> Callable[[Random], Sheet]:
    """Makes sheets with such a pair; its transition stands among some that don't lower the value."""

    def make(chance: Random) -> Sheet:
        main, transition = make_pair(chance)
        transitions = rising_ones(chance, main, chance.randrange(3))
        transitions.insert(chance.randint(0, len(transitions)), transition)
        return sheet_for(chance, main, transitions, relatives(chance, main, 5))

    return make


def rising_ones(chance: Random, claim: Claim, count: int) -> list[Transition]:
    n = len(claim.coefficients)
    return [rising(claim.coefficients, some_transition(chance, n)) for _ in range(count)]


def any_signs(chance: Random) -> Pair:
    return chance.choice([all_above_zero, all_below_zero, mixed_signs, with_zeros])(chance)


def small(chance: Random) -> Sheet:
    """So small that every claim can be decided by trying."""
    n = chance.choice([1, 2, 2])
    claims = [some_small_claim(chance, n) for _ in range(chance.randint(1, 4))]
    transitions = [some_small_transition(chance, n) for _ in range(chance.randrange(4))]
    return sheet_for(chance, chance.choice(claims), transitions, claims)


def some_small_claim(chance: Random, n: int) -> Claim:
    coefficients = not_all_zero(chance, tuple(chance.randint(-3, 3) for _ in range(n)))
    return Claim(coefficients, chance.randint(-7, 7))


def some_small_transition(chance: Random, n: int) -> Transition:
    taken, put = (tuple(chance.randint(0, 2) for _ in range(n)) for _ in range(2))
    return Transition(taken, put)


def zero_claims(chance: Random) -> Sheet:
    """Among claims that start and target fit, one or two with every coefficient zero: 02 refuses the sheet, whatever the constant."""
    main, transition = any_signs(chance)
    claims = relatives(chance, main, chance.choice([1, 4, 8, limits.MOST_CLAIMS - 2]))
    for _ in range(chance.choice([1, 1, 2])):
        constant = chance.choice([-limits.MOST_CONSTANT, -1, 0, 0, 1, limits.MOST_CONSTANT])
        claims.insert(chance.randint(0, len(claims)), Claim(len(main.coefficients) * (0,), constant))
    return sheet_for(chance, main, [transition], claims)


def many_proofs(chance: Random) -> Sheet:
    """No transition lowers the main claim's value, so its twins and most others like it are proofs too."""
    main = any_signs(chance).claim
    return sheet_for(chance, main, rising_ones(chance, main, chance.randint(1, 6)), relatives(chance, main, 8))


def late_break(chance: Random) -> Sheet:
    """The first transitions don't lower the value; the last or the last few may break the main claim."""
    main, transition = any_signs(chance)
    last = [transition, *(some_transition(chance, len(main.coefficients)) for _ in range(chance.randrange(3)))]
    first = rising_ones(chance, main, chance.choice([1, 2, 5, 20, limits.MOST_TRANSITIONS - len(last)]))
    return sheet_for(chance, main, first + last, relatives(chance, main, 3))


def twins(chance: Random) -> Sheet:
    """Claims from a few roots: scaled, negated, with another constant, with zeros but for one coefficient."""
    main, transition = any_signs(chance)
    single = not_all_zero(chance, len(main.coefficients) * (0,))
    roots = [main, Claim(single, chance.choice([0, 0, main.constant])), relative(chance, main)]
    claims = [twin_of(chance, chance.choice(roots)) for _ in range(chance.randint(3, 9))]
    return sheet_for(chance, main, [transition], claims)


def twin_of(chance: Random, root: Claim) -> Claim:
    """A twin, or with one sign turned or one number changed something that is nearly one."""
    coefficients, constant = root
    signs = [root, root, root, Claim(negated(coefficients), -constant), Claim(negated(coefficients), constant)]
    near = [Claim(coefficients, -constant), Claim(coefficients, in_range(constant + 1)), nudged(chance, root)]
    return scaled(chance.choice(signs + near), chance.choice([1, 1, 2, 3, 4, 6, 10]))


def no_transition(chance: Random) -> Sheet:
    main = any_signs(chance).claim
    return sheet_for(chance, main, [], relatives(chance, main, 5))


def at_the_edge(chance: Random) -> Sheet:
    """Many tokens whose values nearly cancel out, and constants right at the value of the start or the target."""
    n = chance.randint(1, 8)
    size = chance.randint(1, limits.MOST_COEFFICIENT)
    coefficients = n * (size, -size) if chance.random() < 0.7 else not_all_zero(chance, several(chance, 2 * n, -1, 1))
    start, target = (tuple(nearly_even(chance) for _ in range(2 * n)) for _ in range(2))
    ends = [value(coefficients, start), value(coefficients, target)]
    constants = [in_range(chance.choice(ends) + chance.randint(-1, 1)) for _ in range(chance.randint(1, 4))]
    transitions = tuple(some_transition(chance, 2 * n) for _ in range(chance.randrange(2)))
    claims = tuple(Claim(coefficients, constant) for constant in constants)
    return Sheet(2 * n, len(transitions), transitions, start, chance.randint(0, 1), target, claims)


def nearly_even(chance: Random) -> int:
    return limits.MOST_TOKENS - near_ends(chance, 0, 4)


def largest(chance: Random) -> Sheet:
    """Sixteen places, 64 transitions and 32 claims."""
    n = limits.MOST_PLACES
    signs = chance.choice([[1], [-1], [-1, 1], [0, 1], [0, -1]])
    coefficients = tuple(chance.choice(signs) * chance.randint(1, 30) for _ in range(n))
    main = Claim(not_all_zero(chance, coefficients), chance.choice([1, -1]) * chance.randint(0, 300))
    transitions = rising_ones(chance, main, limits.MOST_TRANSITIONS)
    for place in chance.sample(range(limits.MOST_TRANSITIONS), chance.randrange(3)):
        transitions[place] = some_transition(chance, n)
    claims = [main, *(relative(chance, main) for _ in range(limits.MOST_CLAIMS - 1))]
    return sheet_for(chance, main, transitions, claims)


MAKERS: dict[str, tuple[Callable[[Random], Sheet], int]] = {
    "random": (random_sheet, 2_500),
    "small": (small, 5_000),
    "all above zero": (around(all_above_zero), 2_500),
    "all below zero": (around(all_below_zero), 2_500),
    "mixed signs": (around(mixed_signs), 2_500),
    "with zeros": (around(with_zeros), 1_500),
    "zero claims": (zero_claims, 1_000),
    "between multiples": (around(between_multiples), 2_500),
    "far window": (around(far_window), 400),
    "many proofs": (many_proofs, 2_500),
    "late break": (late_break, 1_500),
    "twins": (twins, 2_500),
    "no transition": (no_transition, 1_000),
    "at the edge": (at_the_edge, 2_000),
    "largest": (largest, 24),
}
