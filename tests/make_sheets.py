"""Many sheets made by chance from fixed seeds: sound, damaged and random ones."""

from collections.abc import Callable, Sequence
from dataclasses import replace
from itertools import product
from random import Random

from make_parts import near_ends, random_claim, random_transition, several
from second import limits
from second.sheet import Claim, Sheet, Transition, records, write

# Bytes that bring a reader of random bytes further than most bytes would.
TELLING_BYTES = b"NPTRMKTGHS" + bytes([0, 1, 2, 9, 10, 16, 17, 64, 65, 100, 101, 127, 128, 155, 156, 255])


def sound_sheets(count: int) -> list[Sheet]:
    chance = Random("sound")
    return [random_sheet(chance) for _ in range(count)]


def sheets_of_every_size() -> list[Sheet]:
    """Each T with every other n, and claims by chance; then the ends of all three ranges with one another."""
    chance = Random("every size")
    places, transitions, claims = limits.MOST_PLACES, limits.MOST_TRANSITIONS, limits.MOST_CLAIMS
    sizes = [
        *((n, T, chance.randint(1, claims)) for T in range(transitions + 1) for n in every_other_n(T)),
        *(5 * list(product([1, places], [0, transitions], [1, claims]))),
    ]
    return [sheet_of_size(chance, *size) for size in sizes]


def every_other_n(T: int) -> range:
    """The odd ones for an even T and the even ones for an odd T, so that all come in turn."""
    return range(1 + T % 2, limits.MOST_PLACES + 1, 2)


def damaged_sheets(count: int) -> list[bytes]:
    """Takes each damage in turn; every other sheet gets rough damage too, so that faults compete."""
    chance = Random("damaged")
    sheets = []
    for index in range(count):
        damage = DAMAGES[index % len(DAMAGES)]
        data = damage(chance, random_sheet(chance))
        sheets.append(roughened(chance, data) if chance.random() < 0.5 else data)
    return sheets


def random_bytes(count: int) -> list[bytes]:
    """Bytes by chance, most of them after a part of a sound sheet: alone they soon fail at NP."""
    chance = Random("random")
    sheets = []
    for _ in range(count):
        whole = write(random_sheet(chance))
        prefix = whole[: chance.choice([0, 2, 4, chance.randrange(len(whole)), len(whole)])]
        sheets.append(prefix + tail(chance, chance.randint(0, 80)))
    return sheets


def tail(chance: Random, length: int) -> bytes:
    if chance.random() < 0.5:
        return chance.randbytes(length)
    return bytes(chance.choices(TELLING_BYTES, k=length))


# Sound sheets.


def random_sheet(chance: Random) -> Sheet:
    """Mostly small sheets, because many small ones show more than a few large ones."""
    if chance.random() < 0.8:
        n, T, claims = chance.randint(1, 4), chance.randint(0, 4), chance.randint(1, 6)
    else:
        n = near_ends(chance, 1, limits.MOST_PLACES)
        T = near_ends(chance, 0, limits.MOST_TRANSITIONS)
        claims = near_ends(chance, 1, limits.MOST_CLAIMS)
    return sheet_of_size(chance, n, T, claims)


def sheet_of_size(chance: Random, n: int, T: int, claims: int) -> Sheet:
    return Sheet(
        n=n,
        T=T,
        transitions=tuple(random_transition(chance, n) for _ in range(T)),
        start=several(chance, n, 0, limits.MOST_TOKENS),
        kind=chance.randint(0, limits.MOST_KIND),
        target=several(chance, n, 0, limits.MOST_TOKENS),
        claims=tuple(random_claim(chance, n) for _ in range(claims)),
    )


# Damage to what a sheet holds. Each of these gives the bytes of a sheet with that one fault.


def bad_size(chance: Random, sheet: Sheet) -> bytes:
    if chance.random() < 0.5:
        return write(replace(sheet, n=chance.choice([0, above(chance, limits.MOST_PLACES)])))
    return write(replace(sheet, T=above(chance, limits.MOST_TRANSITIONS)))


def bad_weight(chance: Random, sheet: Sheet) -> bytes:
    taken, put = random_transition(chance, sheet.n)
    weight = above(chance, limits.MOST_WEIGHT)
    if chance.random() < 0.5:
        bad = Transition(exchanged(chance, taken, weight), put)
    else:
        bad = Transition(taken, exchanged(chance, put, weight))
    transitions = exchanged(chance, sheet.transitions or (bad,), bad)
    return write(replace(sheet, T=len(transitions), transitions=transitions))


def bad_kind(chance: Random, sheet: Sheet) -> bytes:
    return write(replace(sheet, kind=above(chance, limits.MOST_KIND)))


def bad_coefficient(chance: Random, sheet: Sheet) -> bytes:
    coefficients, constant = random_claim(chance, sheet.n)
    wrong = beyond(chance, limits.MOST_COEFFICIENT, 127)
    bad = Claim(exchanged(chance, coefficients, wrong), constant)
    return write(replace(sheet, claims=exchanged(chance, sheet.claims, bad)))


def bad_constant(chance: Random, sheet: Sheet) -> bytes:
    coefficients, _ = random_claim(chance, sheet.n)
    bad = Claim(coefficients, beyond(chance, limits.MOST_CONSTANT, 32_767))
    return write(replace(sheet, claims=exchanged(chance, sheet.claims, bad)))


def zero_claim(chance: Random, sheet: Sheet) -> bytes:
    """Every coefficient of a claim is zero. One in six has a bad constant, which comes first; one in three any bytes behind it."""
    constant = near_ends(chance, -limits.MOST_CONSTANT, limits.MOST_CONSTANT)
    wrong = beyond(chance, limits.MOST_CONSTANT, 32_767)
    zero = Claim(sheet.n * (0,), wrong if chance.random() < 1 / 6 else constant)
    index = chance.randrange(len(sheet.claims))
    up_to_it = replace(sheet, claims=(*sheet.claims[:index], zero))
    if chance.random() < 1 / 3:
        return write(up_to_it) + tail(chance, chance.randint(0, 20))
    return write(replace(sheet, claims=up_to_it.claims + sheet.claims[index + 1 :]))


def too_many_claims(chance: Random, sheet: Sheet) -> bytes:
    """33 claims or a few more, the last perhaps cut short."""
    count = limits.MOST_CLAIMS + chance.choice([1, 1, 2, 5])
    whole = write(replace(sheet, claims=tuple(chance.choices(sheet.claims, k=count))))
    return whole[: len(whole) - chance.choice([0, chance.randrange(4 + sheet.n)])]


def no_claims(chance: Random, sheet: Sheet) -> bytes:
    return write(replace(sheet, claims=()))


def exchanged(chance: Random, values: Sequence, value) -> tuple:
    """The values with one of them, by chance, exchanged for the given one."""
    index = chance.randrange(len(values))
    return (*values[:index], value, *values[index + 1 :])


def above(chance: Random, most: int) -> int:
    return near_ends(chance, most + 1, 255)


def beyond(chance: Random, most: int, end: int) -> int:
    """A number outside -most to most, as far as two's complement reaches."""
    return chance.choice([near_ends(chance, most + 1, end), near_ends(chance, -end - 1, -most - 1)])


# Damage to records and to bytes, whatever they mean.


def records_moved(chance: Random, sheet: Sheet) -> bytes:
    """Records dropped, doubled, exchanged with one another or shuffled."""
    parts = records(sheet)
    one, other = chance.randrange(len(parts)), chance.randrange(len(parts))
    match chance.randrange(4):
        case 0:
            del parts[one]
        case 1:
            parts.insert(other, parts[one])
        case 2:
            parts[one], parts[other] = parts[other], parts[one]
        case 3:
            chance.shuffle(parts)
    return b"".join(parts)


def cut_short(chance: Random, sheet: Sheet) -> bytes:
    whole = write(sheet)
    return whole[: chance.randrange(len(whole))]


def bytes_changed(chance: Random, sheet: Sheet) -> bytes:
    data = write(sheet)
    for _ in range(chance.randint(1, 4)):
        data = roughened(chance, data)
    return data


def roughened(chance: Random, data: bytes) -> bytes:
    """One rough change: a byte changed, put in or left out, a bit flipped, a part doubled, a cut."""
    at = chance.randint(0, len(data))
    end = chance.randint(at, min(at + 40, len(data)))
    match chance.randrange(6):
        case 0:
            return data[:at] + tail(chance, 1) + data[at + 1 :]
        case 1:
            return data[:at] + tail(chance, 1) + data[at:]
        case 2:
            return data[:at] + data[at + 1 :]
        case 3:
            flipped = bytes(byte ^ 1 << chance.randrange(8) for byte in data[at : at + 1])
            return data[:at] + flipped + data[at + 1 :]
        case 4:
            return data[:end] + data[at:]
        case _:
            return data[:at]


DAMAGES: list[Callable[[Random, Sheet], bytes]] = [
    bad_size,
    bad_weight,
    bad_kind,
    bad_coefficient,
    bad_constant,
    zero_claim,
    too_many_claims,
    no_claims,
    records_moved,
    cut_short,
    bytes_changed,
]
