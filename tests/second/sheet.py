"""Reads a sheet by the rules of document 01, and writes one. Quoted sentences are 01's, and of refusal 18 Req 02's."""

from collections.abc import Iterable
from dataclasses import dataclass
from typing import NamedTuple

from second import limits

REFUSALS = (*range(1, 10), 18)  # of a sheet by itself


class Transition(NamedTuple):
    taken: tuple[int, ...]
    put: tuple[int, ...]


class Claim(NamedTuple):
    coefficients: tuple[int, ...]
    constant: int


@dataclass(frozen=True)
class Sheet:
    # n and T are kept as written, apart from the lists, so that a damaged sheet can misstate them.
    n: int
    T: int
    transitions: tuple[Transition, ...]
    start: tuple[int, ...]
    kind: int
    target: tuple[int, ...]
    claims: tuple[Claim, ...]


class Refusal(NamedTuple):
    number: int
    detail: int

    def words(self) -> str:
        return f"refused {self.number} at {self.detail}"


def outside(number: int, count: int, refusal: int) -> Refusal | None:
    """11 and 12: "number 0 or above the count"; the detail is "that number"."""
    return None if 1 <= number <= count else Refusal(refusal, number)


class _Fault(Exception):
    """Ends the reading: "the first fault in that order is the answer"."""

    def __init__(self, number: int, detail: int):
        self.refusal = Refusal(number, detail)


def read(data: bytes) -> Sheet | Refusal:
    """The contents of a sound sheet, or else its refusal; every byte string has one or the other."""
    try:
        return _read_records(data)
    except _Fault as fault:
        return fault.refusal


def _read_records(data: bytes) -> Sheet:
    """NP, TR, MK, TG, HS: "the records are, in this order", each with its fields."""
    fields = _record(data, 0, b"NP", 4)
    n = _checked_byte(data, fields[0], 1, limits.MOST_PLACES, 3)
    T = _checked_byte(data, fields[1], 0, limits.MOST_TRANSITIONS, 3)

    transitions = []
    for _ in range(T):
        fields = _record(data, fields.stop, b"TR", 2 + 2 * n)
        weights = tuple(_checked_byte(data, at, 0, limits.MOST_WEIGHT, 4) for at in fields)
        transitions.append(Transition(taken=weights[:n], put=weights[n:]))

    fields = _record(data, fields.stop, b"MK", 2 + 2 * n)
    start = _tokens(data, fields)

    fields = _record(data, fields.stop, b"TG", 3 + 2 * n)
    kind = _checked_byte(data, fields[0], 0, limits.MOST_KIND, 5)
    target = _tokens(data, fields[1:])

    # 9: "no byte remains after TG"; its detail is "the sheet's length".
    if fields.stop == len(data):
        raise _Fault(9, len(data))

    # "Wherever a byte remains after a claim's record, the 32nd too, a claim's mark must stand".
    claims = []
    while fields.stop < len(data):
        fields = _record(data, fields.stop, b"HS", 4 + n, full=len(claims) == limits.MOST_CLAIMS)
        claims.append(_claim(data, fields))

    return Sheet(n, T, tuple(transitions), start, kind, target, tuple(claims))


def _record(data: bytes, at: int, mark: bytes, length: int, full: bool = False) -> range:
    """The places of the fields of the record at `at`; the next record is due at their stop.

    "At a record: two bytes left, the mark, the 33rd HS, its length, then its fields in order."
    `full` says that 32 claims stand before it.
    """
    remaining = len(data) - at
    if remaining < 2:
        raise _Fault(1, at)
    if data[at : at + 2] != mark:
        raise _Fault(2, at)
    if full:
        raise _Fault(8, at)
    if remaining < length:
        raise _Fault(1, at)
    return range(at + 2, at + length)


def _checked_byte(data: bytes, at: int, low: int, high: int, number: int) -> int:
    """The byte at `at`, or refusal `number` there: "that byte" is its place, not its value."""
    if not low <= data[at] <= high:
        raise _Fault(number, at)
    return data[at]


def _tokens(data: bytes, fields: range) -> tuple[int, ...]:
    """Tokens, which any two bytes can hold: "numbers of two bytes are little-endian"."""
    return tuple(data[at] + 256 * data[at + 1] for at in fields[::2])


def _claim(data: bytes, fields: range) -> Claim:
    """A claim's fields: "n coefficients, one byte each, then the constant, two bytes"."""
    coefficients = tuple(_checked_signed(data, at, 1, limits.MOST_COEFFICIENT, 6) for at in fields[:-2])
    constant = _checked_signed(data, fields[-2], 2, limits.MOST_CONSTANT, 7)
    # "Every coefficient zero" is 18, "at the record's first byte, after 7 of the same record and before anything in the next".
    if not any(coefficients):
        raise _Fault(18, fields.start - len(b"HS"))
    return Claim(coefficients, constant)


def _checked_signed(data: bytes, at: int, size: int, most: int, number: int) -> int:
    """The number at `at`, "read as two's complement", or refusal `number` at its first byte."""
    value = int.from_bytes(data[at : at + size], "little", signed=True)
    if not -most <= value <= most:
        raise _Fault(number, at)
    return value


def write(sheet: Sheet) -> bytes:
    """The bytes of a sheet. Nothing is checked, so that damaged sheets can be written too."""
    return b"".join(records(sheet))


def records(sheet: Sheet) -> list[bytes]:
    """The records of a sheet one by one, marks included, in 01's order."""
    return [
        b"NP" + _in_bytes([sheet.n, sheet.T]),
        *(b"TR" + _in_bytes(transition.taken + transition.put) for transition in sheet.transitions),
        b"MK" + _in_pairs(sheet.start),
        b"TG" + _in_bytes([sheet.kind]) + _in_pairs(sheet.target),
        *map(_claim_record, sheet.claims),
    ]


def _claim_record(claim: Claim) -> bytes:
    """The record of a claim, mark included."""
    return b"HS" + _in_bytes(claim.coefficients) + _in_pairs([claim.constant])


def _in_bytes(values: Iterable[int]) -> bytes:
    # The remainder is two's complement for a number below zero.
    return bytes(value % 256 for value in values)


def _in_pairs(values: Iterable[int]) -> bytes:
    return b"".join((value % 65_536).to_bytes(2, "little") for value in values)
