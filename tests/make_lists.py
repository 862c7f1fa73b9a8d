"""Lists of transitions that one call fires, made by chance from fixed seeds: walks, and lists about as long as one may be."""

from collections.abc import Callable
from random import Random

from make_pairs import some_transition
from make_parts import several
from make_sheets import damaged_sheets
from make_walks import Made, Walk, anywhere, made_walks, marking_of, near_top, near_zero, net_with
from second import limits
from second.sheet import Transition, write

LONGEST = 255  # what a frame can say


def made_lists() -> list[Walk]:
    """A list is made as a walk is; here its steps are one call's."""
    lists = made_walks()
    for kind, (make, count) in MAKERS.items():
        chance = Random(f"{kind}, lists")
        lists += [Walk(kind, *make(chance)) for _ in range(count)]
    return lists + long_on_damaged_sheets(200)


def some_length(chance: Random) -> int:
    longest = limits.MOST_FIRINGS
    return chance.choice([chance.randint(0, longest), longest - 1, longest, longest, longest + 1, longest + 2, LONGEST])


def a_loop(chance: Random, n: int) -> Transition:
    taken = several(chance, n, 0, limits.MOST_WEIGHT)
    return Transition(taken, taken)


def loops(chance: Random) -> Made:
    """Every step is fine, and none moves a token: only the length counts."""
    n = chance.randint(1, 4)
    transitions = [a_loop(chance, n) for _ in range(chance.randint(1, 4))]
    steps = tuple(chance.randint(1, len(transitions)) for _ in range(some_length(chance)))
    return write(net_with(chance, transitions)), marking_of(chance, n, near_top), steps


def to_and_fro(chance: Random) -> Made:
    """One transition takes what the other puts, in turn, so that tokens move at every step and the list is fine."""
    n = chance.randint(1, 4)
    there = Transition(several(chance, n, 0, limits.MOST_WEIGHT), several(chance, n, 0, limits.MOST_WEIGHT))
    marking = marking_of(chance, n, lambda chance: near_zero(chance) + limits.MOST_WEIGHT)
    steps = tuple(1 + step % 2 for step in range(some_length(chance)))
    return write(net_with(chance, [there, Transition(there.put, there.taken)])), marking, steps


def one_wrong(chance: Random) -> Made:
    """Among loops one step that there isn't, that isn't enabled or that passes the top, at any position."""
    n = chance.randint(1, 4)
    marking = marking_of(chance, n, lambda chance: chance.choice([limits.MOST_WEIGHT - 1, limits.MOST_TOKENS]))
    nothing = n * (0,)
    most = n * (limits.MOST_WEIGHT,)
    transitions = [Transition(nothing, nothing), Transition(most, nothing), Transition(nothing, most)]
    before = chance.randrange(limits.MOST_FIRINGS)
    behind = chance.randrange(limits.MOST_FIRINGS - before)
    steps = (*before * (1,), chance.choice([0, 2, 2, 3, 3, 4, 65_535]), *behind * (1,))
    return write(net_with(chance, transitions)), marking, steps


def until_none_is_left(chance: Random) -> Made:
    """The first place has a few tokens, and each step takes one of them or puts one back."""
    n = chance.randint(1, 3)
    first, none = (1, *(n - 1) * (0,)), n * (0,)
    transitions = [Transition(first, none), Transition(none, first), some_transition(chance, n)]
    steps = tuple(chance.choices([1, 2, 3], [12, 6, 1], k=chance.randint(1, limits.MOST_FIRINGS)))
    return write(net_with(chance, transitions)), marking_of(chance, n, near_zero), steps


def long_on_damaged_sheets(count: int) -> list[Walk]:
    """17 comes "after all sheet checks"."""
    chance = Random("damaged, lists")
    steps = (limits.MOST_FIRINGS + 1) * (1,)
    return [Walk("damaged, long", data, marking_of(chance, 2, anywhere), steps) for data in damaged_sheets(count)]


MAKERS: dict[str, tuple[Callable[[Random], Made], int]] = {
    "loops": (loops, 1_500),
    "to and fro": (to_and_fro, 1_500),
    "one wrong": (one_wrong, 3_000),
    "until none is left": (until_none_is_left, 1_500),
}
