"""Walks made by chance from fixed seeds: a sheet, the marking that the walk is at, and the transitions to fire."""

from collections.abc import Callable, Sequence
from dataclasses import replace
from random import Random
from typing import NamedTuple

from make_pairs import some_transition
from make_parts import near_ends, random_claim, several
from make_sheets import damaged_sheets, sheet_of_size
from second import limits
from second.pairs import Vector
from second.sheet import Sheet, Transition, write

MOST_STEPS = 255  # that tests/c/requests.c takes


class Walk(NamedTuple):
    kind: str
    data: bytes  # the sheet
    marking: Vector  # sixteen numbers
    steps: tuple[int, ...]

    def numbers(self) -> list[int]:
        """What a request needs besides the sheet."""
        return [*self.marking, len(self.steps), *self.steps]

    def __str__(self) -> str:
        return f"{self.kind}, at {self.marking}, steps {self.steps}"


def made_walks() -> list[Walk]:
    walks = []
    for kind, (make, count) in MAKERS.items():
        chance = Random(kind)
        walks += [Walk(kind, *make(chance)) for _ in range(count)]
    return walks + on_damaged_sheets(1_000)


Made = tuple[bytes, Vector, tuple[int, ...]]


# Parts of a walk.


def some_net(chance: Random) -> Sheet:
    """Mostly a few places and transitions, because that is quickly read."""
    n = chance.randint(1, 4) if chance.random() < 0.9 else chance.randint(5, limits.MOST_PLACES)
    return net_with(chance, [some_transition(chance, n) for _ in range(chance.randint(1, 4))])


def net_with(chance: Random, transitions: Sequence[Transition]) -> Sheet:
    n = len(transitions[0].taken)
    start, target = (tuple(near_zero(chance) for _ in range(n)) for _ in range(2))
    return Sheet(n, len(transitions), tuple(transitions), start, 0, target, claims=(random_claim(chance, n),))


def near_zero(chance: Random) -> int:
    return chance.randint(0, 10)


def near_top(chance: Random) -> int:
    return limits.MOST_TOKENS - chance.choice([0, 0, 1, chance.randint(0, 12)])


def at_either_end(chance: Random) -> int:
    return chance.choice([near_zero, near_zero, near_top])(chance)


def anywhere(chance: Random) -> int:
    return near_ends(chance, 0, limits.MOST_TOKENS)


def marking_of(chance: Random, n: int, some_tokens: Callable[[Random], int]) -> Vector:
    """Sixteen numbers; those beyond place n are zeros or, every other time, anything."""
    beyond = chance.choice([lambda _: 0, at_either_end])
    return tuple((some_tokens if place < n else beyond)(chance) for place in range(limits.MOST_PLACES))


def some_steps(chance: Random, T: int, most: int = 12) -> tuple[int, ...]:
    return tuple(chance.randint(1, T) for _ in range(chance.randint(1, most)))


# Walks of each kind.


def from_the_start(chance: Random) -> Made:
    sheet = some_net(chance)
    marking = sheet.start + (limits.MOST_PLACES - sheet.n) * (0,)
    return write(sheet), marking, some_steps(chance, sheet.T)


def at(some_tokens: Callable[[Random], int]) -> Callable[[Random], Made]:
    """Makes walks that are at such tokens."""

    def make(chance: Random) -> Made:
        sheet = some_net(chance)
        return write(sheet), marking_of(chance, sheet.n, some_tokens), some_steps(chance, sheet.T)

    return make


def loops_at_the_top(chance: Random) -> Made:
    """What is taken is put back, or nearly so: a full place may only be put into once tokens have left it."""
    n = chance.randint(1, 4)
    transitions = [nearly_a_loop(chance, n) for _ in range(chance.randint(1, 4))]
    marking = marking_of(chance, n, near_top)
    return write(net_with(chance, transitions)), marking, some_steps(chance, len(transitions))


def nearly_a_loop(chance: Random, n: int) -> Transition:
    taken = several(chance, n, 0, limits.MOST_WEIGHT)
    put = tuple(max(0, min(limits.MOST_WEIGHT, weight - chance.choice([0, 0, 0, -1, 1]))) for weight in taken)
    return Transition(taken, put)


def wrong_numbers(chance: Random) -> Made:
    """Transitions that there aren't between some that there are; 256 and 257 are 0 and 1 in one byte."""
    sheet = some_net(chance)
    if chance.random() < 0.1:
        sheet = replace(sheet, T=0, transitions=())
    numbers = [*range(sheet.T + 2), 0, sheet.T + 1, 256, 257, near_ends(chance, sheet.T + 1, 65_535)]
    steps = tuple(chance.choices(numbers, k=chance.randint(1, 12)))
    return write(sheet), marking_of(chance, sheet.n, at_either_end), steps


def no_step(chance: Random) -> Made:
    """Only the start is asked for."""
    sheet = sheet_of_size(chance, chance.randint(1, limits.MOST_PLACES), chance.randint(0, 3), 1)
    return write(sheet), marking_of(chance, sheet.n, anywhere), ()


def many_steps(chance: Random) -> Made:
    sheet = some_net(chance)
    steps = tuple(chance.randint(1, sheet.T) for _ in range(MOST_STEPS))
    return write(sheet), marking_of(chance, sheet.n, at_either_end), steps


def largest(chance: Random) -> Made:
    """Sixteen places, 64 transitions and 32 claims."""
    sheet = sheet_of_size(chance, limits.MOST_PLACES, limits.MOST_TRANSITIONS, limits.MOST_CLAIMS)
    few = tuple(some_transition(chance, sheet.n) for _ in range(sheet.T))
    marking = marking_of(chance, sheet.n, chance.choice([near_zero, at_either_end, anywhere]))
    return write(replace(sheet, transitions=few)), marking, some_steps(chance, sheet.T, 20)


def on_damaged_sheets(count: int) -> list[Walk]:
    """Wrong numbers too: "each call on a sheet reads it all first"."""
    chance = Random("damaged walks")
    return [
        Walk("damaged", data, marking_of(chance, 2, anywhere), tuple(chance.choices([0, 1, 2, 65], k=3)))
        for data in damaged_sheets(count)
    ]


MAKERS: dict[str, tuple[Callable[[Random], Made], int]] = {
    "from the start": (from_the_start, 3_000),
    "near zero": (at(near_zero), 3_000),
    "near 65,535": (at(near_top), 3_000),
    "at either end": (at(at_either_end), 3_000),
    "anywhere": (at(anywhere), 2_000),
    "loops at the top": (loops_at_the_top, 3_000),
    "wrong numbers": (wrong_numbers, 2_500),
    "no step": (no_step, 300),
    "many steps": (many_steps, 100),
    "largest": (largest, 100),
}
