"""Pairs of a half space and a transition, made by chance from fixed seeds, and the sheets that hold them."""

from collections.abc import Callable, Sequence
from itertools import product
from random import Random

from make_parts import near_ends, not_all_zero, random_claim, random_transition, several
from second import limits
from second.pairs import Pair, value
from second.sheet import Claim, Sheet, Transition


def random_pairs() -> list[tuple[str, Pair]]:
    """Each pair with the name of the way that it was made."""
    pairs = [("every small pair of one place", pair) for pair in every_small_pair()]
    for name, (make, count) in MAKERS.items():
        chance = Random(name)
        pairs += [(name, make(chance)) for _ in range(count)]
    return pairs


def sheet_with(chance: Random, pair: Pair) -> tuple[Sheet, int, int]:
    """A sheet that has the pair among others, and the numbers of its claim and of its transition there."""
    n = len(pair.claim.coefficients)
    claims = [random_claim(chance, n) for _ in range(some(chance, limits.MOST_CLAIMS))]
    transitions = [random_transition(chance, n) for _ in range(some(chance, limits.MOST_TRANSITIONS))]
    claim, transition = chance.randint(0, len(claims)), chance.randint(0, len(transitions))
    claims.insert(claim, pair.claim)
    transitions.insert(transition, pair.transition)
    sheet = Sheet(
        n=n,
        T=len(transitions),
        transitions=tuple(transitions),
        start=several(chance, n, 0, limits.MOST_TOKENS),
        kind=chance.randint(0, limits.MOST_KIND),
        target=several(chance, n, 0, limits.MOST_TOKENS),
        claims=tuple(claims),
    )
    return sheet, claim + 1, transition + 1


def some(chance: Random, most: int) -> int:
    """How many others stand beside the one asked about: mostly few, because that is quickly read."""
    return chance.randint(0, 3) if chance.random() < 0.95 else chance.randrange(most)


# Parts of a pair.


def some_places(chance: Random) -> int:
    """Mostly so few that markings can be tried."""
    return chance.choice([1, 2, 2, 3, 3, 4]) if chance.random() < 0.85 else chance.randint(5, limits.MOST_PLACES)


def above_zero(chance: Random, n: int) -> tuple[int, ...]:
    most = chance.choice([3, 10, 30, limits.MOST_COEFFICIENT])
    return tuple(chance.randint(1, most) for _ in range(n))


def negated(values: Sequence[int]) -> tuple[int, ...]:
    return tuple(-value for value in values)


def some_transition(chance: Random, n: int) -> Transition:
    most = chance.choice([1, 2, 3, limits.MOST_WEIGHT])
    taken, put = (tuple(chance.randint(0, most) for _ in range(n)) for _ in range(2))
    return Transition(taken, put)


def falling(coefficients: Sequence[int], transition: Transition) -> Transition:
    """The transition or its reverse, whichever doesn't raise the value."""
    taken, put = transition
    falls = value(coefficients, taken) >= value(coefficients, put)
    return transition if falls else Transition(taken=put, put=taken)


def rising(coefficients: Sequence[int], transition: Transition) -> Transition:
    """The transition or its reverse, whichever doesn't lower the value."""
    put, taken = falling(coefficients, transition)
    return Transition(taken, put)


def some_constant(chance: Random, coefficients: Sequence[int], transition: Transition) -> int:
    """Mostly one that puts an end of the window at a value or right beside it: there an error by one tells."""
    if chance.random() < 0.1:
        return near_ends(chance, -limits.MOST_CONSTANT, limits.MOST_CONSTANT)
    tokens = [chance.choice([0, 0, 0, 1, 2, 5]) for _ in coefficients]
    end = value(coefficients, tokens) + value(coefficients, chance.choice(transition))
    return in_range(end + chance.randint(-1, 2))


def in_range(constant: int) -> int:
    return max(-limits.MOST_CONSTANT, min(limits.MOST_CONSTANT, constant))


def pair_with(chance: Random, coefficients: tuple[int, ...]) -> Pair:
    """Mostly with a transition that lowers the value, because one that doesn't is always kept."""
    transition = some_transition(chance, len(coefficients))
    if chance.random() < 0.9:
        transition = falling(coefficients, transition)
    return Pair(Claim(coefficients, some_constant(chance, coefficients, transition)), transition)


# Pairs of each kind.


def every_small_pair() -> list[Pair]:
    few, coefficients = range(4), [-4, -3, -2, -1, 1, 2, 3, 4]
    return [
        Pair(Claim((coefficient,), constant), Transition((taken,), (put,)))
        for coefficient, constant, taken, put in product(coefficients, range(-7, 8), few, few)
    ]


def all_above_zero(chance: Random) -> Pair:
    return pair_with(chance, above_zero(chance, some_places(chance)))


def all_below_zero(chance: Random) -> Pair:
    return pair_with(chance, negated(above_zero(chance, some_places(chance))))


def mixed_signs(chance: Random) -> Pair:
    coefficients = list(above_zero(chance, max(2, some_places(chance))))
    below = chance.sample(range(len(coefficients)), chance.randrange(1, len(coefficients)))
    for place in below:
        coefficients[place] *= -1
    return pair_with(chance, tuple(coefficients))


def with_zeros(chance: Random) -> Pair:
    signs = chance.choice([[0, 1], [0, -1], [-1, 0, 1]])
    sizes = above_zero(chance, max(2, some_places(chance)))
    return pair_with(chance, not_all_zero(chance, tuple(chance.choice(signs) * size for size in sizes)))


def oriented(chance: Random) -> Pair:
    """The value rises or, every other time, stays as it is."""
    coefficients = chance.choice([all_above_zero, all_below_zero, mixed_signs])(chance).claim.coefficients
    transition = rising(coefficients, some_transition(chance, len(coefficients)))
    if chance.random() < 0.5:
        transition = Transition(transition.taken, transition.taken)
    return Pair(Claim(coefficients, some_constant(chance, coefficients, transition)), transition)


def monotone(chance: Random) -> Pair:
    """The weights taken are inside after firing, often just so."""
    coefficients = above_zero(chance, some_places(chance))
    transition = falling(coefficients, some_transition(chance, len(coefficients)))
    return Pair(Claim(coefficients, in_range(value(coefficients, transition.put) - margin(chance))), transition)


def antitone(chance: Random) -> Pair:
    """The weights taken are outside, often just so."""
    coefficients = negated(above_zero(chance, some_places(chance)))
    transition = falling(coefficients, some_transition(chance, len(coefficients)))
    constant = in_range(value(coefficients, transition.taken) + 1 + margin(chance))
    return Pair(Claim(coefficients, constant), transition)


def margin(chance: Random) -> int:
    return chance.choice([0, 0, 1, chance.randint(2, 60)])


def between_multiples(chance: Random) -> Pair:
    """Neither kind of trivial, and often kept: coefficients just below a number, and a narrow window.

    The values of so many tokens lie just below that multiple of the number, and the window between two such.
    """
    n = chance.choice([2, 2, 3, 4, limits.MOST_PLACES])
    number = chance.randint(5, limits.MOST_COEFFICIENT)
    coefficients = [chance.randint(number - number // 8 - 1, number) for _ in range(n)]
    coefficients[0], coefficients[1] = number, number - chance.randint(1, number // 8 + 1)
    if n > 2 and chance.random() < 0.3:
        coefficients[-1] = 0
    multiple = number * chance.randint(0, chance.choice([3, 10, limits.MOST_CONSTANT // number]))
    both = [chance.choice([0, 0, 0, 1, 2]) for _ in range(n)]  # taken and put alike
    more, less = (1, 0), (0, 1)
    if chance.random() < 0.5:
        coefficients, multiple = negated(coefficients), -multiple
        more, less = less, more
    transition = Transition(with_first(both, more), with_first(both, less))
    constant = value(coefficients, transition.taken) + multiple + chance.randint(-number // 2, number // 2)
    return Pair(Claim(tuple(coefficients), in_range(constant)), transition)


def with_first(weights: Sequence[int], more: tuple[int, int]) -> tuple[int, ...]:
    """The weights with more in the first two places."""
    return (weights[0] + more[0], weights[1] + more[1], *weights[2:])


def far_window(chance: Random) -> Pair:
    """A place with a coefficient of 1 or so against fifteen of about 100 with the other sign.

    The fifteen move the window as far away as it can be, and only the one brings a value there.
    """
    coefficients = [-chance.choice([100, 100, 99]) for _ in range(limits.MOST_PLACES - 1)]
    taken, put = ([limits.MOST_WEIGHT] * len(coefficients) for _ in range(2))
    if chance.random() < 0.5:
        chance.choice([taken, put])[chance.randrange(len(taken))] -= chance.choice([1, limits.MOST_WEIGHT])
    place, weight = chance.randrange(limits.MOST_PLACES), chance.randint(1, limits.MOST_WEIGHT)
    for numbers, number in [(coefficients, chance.randint(1, 3)), (taken, weight), (put, weight - 1)]:
        numbers.insert(place, number)
    constant = limits.MOST_CONSTANT - margin(chance)
    if chance.random() < 0.5:
        return Pair(Claim(tuple(coefficients), constant), Transition(tuple(taken), tuple(put)))
    return Pair(Claim(negated(coefficients), -constant), Transition(tuple(put), tuple(taken)))


def all_at_ends(chance: Random) -> Pair:
    """Sixteen places, and every number at an end of its range, but for a few."""
    signs = chance.choice([[-100, 100], [100], [-100], [-100, 100, 99, -1], [-1, 1]])
    coefficients = tuple(chance.choices(signs, k=limits.MOST_PLACES))
    weights = chance.choice([[0, 9], [0, 0, 0, 9], [0, 9, 9, 8]])
    taken, put = (tuple(chance.choices(weights, k=limits.MOST_PLACES)) for _ in range(2))
    transition = Transition(taken, put)
    if chance.random() < 0.8:
        transition = falling(coefficients, transition)
    constant = chance.choice([-limits.MOST_CONSTANT, limits.MOST_CONSTANT]) if chance.random() < 0.8 else 0
    return Pair(Claim(coefficients, constant), transition)


MAKERS: dict[str, tuple[Callable[[Random], Pair], int]] = {
    "all above zero": (all_above_zero, 2_000),
    "all below zero": (all_below_zero, 2_000),
    "mixed signs": (mixed_signs, 4_000),
    "with zeros": (with_zeros, 5_000),
    "oriented": (oriented, 2_500),
    "monotone": (monotone, 4_000),
    "antitone": (antitone, 4_000),
    "between multiples": (between_multiples, 3_500),
    "far window": (far_window, 3_000),
    "all at ends": (all_at_ends, 1_000),
}
