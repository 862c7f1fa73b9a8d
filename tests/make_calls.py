"""Sheets for every call of the library, made by chance from fixed seeds: most have claims with much in common."""

from collections.abc import Callable
from random import Random

from make_listings import (
    Made,
    any_signs,
    around,
    at_the_edge,
    largest,
    late_break,
    many_proofs,
    no_transition,
    sheet_for,
    small,
    twins,
    zero_claims,
)
from make_pairs import all_below_zero, between_multiples, mixed_signs, some_transition, with_zeros
from make_parts import near_ends, not_all_zero
from make_sheets import damaged_sheets, random_bytes, random_sheet
from second import limits
from second.sheet import Claim, Sheet, write

MOST_BYTES = 4_096  # of a sheet that the program takes


def made_calls() -> list[Made]:
    sheets = []
    for kind, (make, count) in MAKERS.items():
        chance = Random(f"{kind}, every call")
        sheets += [Made(kind, write(make(chance))) for _ in range(count)]
    sheets += [Made("damaged", data) for data in damaged_sheets(600) if len(data) <= MOST_BYTES]
    return sheets + [Made("random bytes", data) for data in random_bytes(200) if len(data) <= MOST_BYTES]


def common_divisors(chance: Random) -> Sheet:
    """Claims from a few reduced ones, each times any number that leaves it in its range."""
    transition = any_signs(chance).transition
    n = len(transition.taken)
    roots = [small_root(chance, n) for _ in range(chance.randint(1, 3))]
    claims = [multiple(chance, chance.choice(roots)) for _ in range(chance.randint(2, 8))]
    return sheet_for(chance, claims[0], [transition, some_transition(chance, n)], claims)


def small_root(chance: Random, n: int) -> Claim:
    most = chance.choice([1, 2, 3, 7])
    coefficients = tuple(chance.choice([0, 1, 1]) * chance.randint(-most, most) for _ in range(n))
    return Claim(not_all_zero(chance, coefficients), chance.choice([0, 1, -1, chance.randint(-50, 50)]))


def multiple(chance: Random, root: Claim) -> Claim:
    """Times a number from 1 to the largest that fits; one in six then gets another constant, and so another divisor."""
    coefficients, constant = root
    fits = [limits.MOST_COEFFICIENT // size for size in map(abs, coefficients) if size]
    fits += [limits.MOST_CONSTANT // abs(constant)] if constant else []
    factor = near_ends(chance, 1, min(fits))
    change = chance.choice([-1, 1]) if chance.random() < 1 / 6 else 0
    constant = max(-limits.MOST_CONSTANT, min(limits.MOST_CONSTANT, factor * constant + change))
    return Claim(tuple(factor * coefficient for coefficient in coefficients), constant)


MAKERS: dict[str, tuple[Callable[[Random], Sheet], int]] = {
    "random": (random_sheet, 250),
    "small": (small, 400),
    "common divisors": (common_divisors, 900),
    "twins": (twins, 500),
    "zero claims": (zero_claims, 300),
    "all below zero": (around(all_below_zero), 250),
    "mixed signs": (around(mixed_signs), 250),
    "with zeros": (around(with_zeros), 150),
    "between multiples": (around(between_multiples), 150),
    "many proofs": (many_proofs, 150),
    "late break": (late_break, 60),
    "no transition": (no_transition, 100),
    "at the edge": (at_the_edge, 100),
    "largest": (largest, 4),
}
