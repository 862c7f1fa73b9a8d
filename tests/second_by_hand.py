"""Holds the second program to documents 01 and 02: what sheets hold, written by hand."""

from checks import Checks
from named_cases import FIRST, HEAD, LARGEST, MIDDLE, ZERO_CLAIM
from second.calls import held_lines, record_places
from second.sheet import Claim, Sheet, Transition, read, write


def check_second_program(checks: Checks) -> None:
    for data, contents in CONTENTS:
        checks.equal("contents, second program against 01", data, contents, read(data))
        checks.equal("sheet written from its contents", data, data, write(contents))
    for data, lines in HELD_LINES:
        held = [line.opening for line in held_lines(read(data))]
        checks.equal("count of lines held, second program", data, 3 + 66 + 5 * 34, len(held))
        for line in lines:
            # The line with the same first two words: the call and what it is asked for.
            alike = [other for other in held if other.split()[:2] == line.split()[:2]]
            checks.equal("line held, second program against 01", data, [line], alike)
    for data, i, record in RECORDS:
        offset, length = record_places(read(data))[i - 1]
        checks.equal(f"record of claim {i}", data, bytes.fromhex(record), data[offset : offset + length])


CONTENTS = [
    (
        FIRST,
        Sheet(
            n=2,
            T=1,
            transitions=(Transition(taken=(1, 0), put=(0, 1)),),
            start=(2, 0),
            kind=0,
            target=(0, 1),
            claims=(
                Claim(coefficients=(1, 1), constant=2),
                Claim((-1, 0), 0),
                Claim((0, 1), 0),
                Claim((2, 1), 2),
                Claim((2, 2), 4),
            ),
        ),
    ),
    (
        MIDDLE,
        Sheet(
            n=3,
            T=2,
            transitions=(Transition((0, 1, 2), (3, 4, 5)), Transition((9, 8, 7), (6, 5, 4))),
            start=(0, 1, 65_535),
            kind=1,
            target=(256, 770, 65_535),
            claims=(Claim((-100, 0, 100), -5_000), Claim((100, -1, -100), 5_000)),
        ),
    ),
    (
        LARGEST,
        Sheet(
            n=16,
            T=64,
            transitions=64 * (Transition(16 * (9,), 16 * (0,)),),
            start=8 * (65_535, 0),
            kind=1,
            target=8 * (0, 65_535),
            claims=32 * (Claim(8 * (-100, 100), 5_000),),
        ),
    ),
]

NONE = 16 * " 0"
NO_WEIGHTS = f"taken{NONE}, put{NONE}"
NO_CLAIM = f"coefficients{NONE}, constant 0"
FINE = "refusal 0 at 0"

HELD_LINES = [
    (
        FIRST,
        [
            f"read 0: {FINE}, counts 2 1 5",
            f"start 0: {FINE}, tokens 2 0" + 14 * " 0",
            f"target 0: {FINE}, kind 0, tokens 0 1" + 14 * " 0",
            f"weights 0: refusal 12 at 0, {NO_WEIGHTS}",
            f"weights 1: {FINE}, taken 1 0" + 14 * " 0" + ", put 0 1" + 14 * " 0",
            f"weights 2: refusal 12 at 2, {NO_WEIGHTS}",
            f"weights 65: refusal 12 at 65, {NO_WEIGHTS}",
            f"half_space 0: refusal 11 at 0, {NO_CLAIM}",
            f"half_space 1: {FINE}, coefficients 1 1" + 14 * " 0" + ", constant 2",
            f"half_space 2: {FINE}, coefficients -1 0" + 14 * " 0" + ", constant 0",
            f"half_space 5: {FINE}, coefficients 2 2" + 14 * " 0" + ", constant 4",
            f"half_space 6: refusal 11 at 6, {NO_CLAIM}",
            f"half_space 33: refusal 11 at 33, {NO_CLAIM}",
            "claim_check 0: refusal 11 at 0",
            f"claim_check 1: {FINE}",
            f"claim_check 5: {FINE}",
            "claim_check 6: refusal 11 at 6",
            "claim_check 33: refusal 11 at 33",
            "claim_record 0: refusal 11 at 0, from 0, length 0",
            f"claim_record 1: {FINE}, from 23, length 6",
            f"claim_record 5: {FINE}, from 47, length 6",
            "claim_record 6: refusal 11 at 6, from 0, length 0",
        ],
    ),
    (
        MIDDLE,
        [
            f"read 0: {FINE}, counts 3 2 2",
            f"start 0: {FINE}, tokens 0 1 65535" + 13 * " 0",
            f"target 0: {FINE}, kind 1, tokens 256 770 65535" + 13 * " 0",
            f"weights 1: {FINE}, taken 0 1 2" + 13 * " 0" + ", put 3 4 5" + 13 * " 0",
            f"weights 2: {FINE}, taken 9 8 7" + 13 * " 0" + ", put 6 5 4" + 13 * " 0",
            f"weights 3: refusal 12 at 3, {NO_WEIGHTS}",
            f"half_space 1: {FINE}, coefficients -100 0 100" + 13 * " 0" + ", constant -5000",
            f"half_space 2: {FINE}, coefficients 100 -1 -100" + 13 * " 0" + ", constant 5000",
        ],
    ),
    (
        LARGEST,
        [
            f"read 0: {FINE}, counts 16 64 32",
            f"start 0: {FINE}, tokens" + 8 * " 65535 0",
            f"target 0: {FINE}, kind 1, tokens" + 8 * " 0 65535",
            f"weights 64: {FINE}, taken" + 16 * " 9" + f", put{NONE}",
            f"weights 65: refusal 12 at 65, {NO_WEIGHTS}",
            f"half_space 32: {FINE}, coefficients" + 8 * " -100 100" + ", constant 5000",
            f"half_space 33: refusal 11 at 33, {NO_CLAIM}",
            f"claim_record 32: {FINE}, from 2869, length 20",
        ],
    ),
    # The sheet's own refusal comes before a number out of range.
    (
        HEAD,
        [
            "read 0: refusal 9 at 23, counts 0 0 0",
            f"start 0: refusal 9 at 23, tokens{NONE}",
            f"target 0: refusal 9 at 23, kind 0, tokens{NONE}",
            f"weights 0: refusal 9 at 23, {NO_WEIGHTS}",
            f"weights 1: refusal 9 at 23, {NO_WEIGHTS}",
            f"half_space 0: refusal 9 at 23, {NO_CLAIM}",
            f"half_space 1: refusal 9 at 23, {NO_CLAIM}",
            "claim_check 0: refusal 9 at 23",
            "claim_check 1: refusal 9 at 23",
            "claim_record 1: refusal 9 at 23, from 0, length 0",
        ],
    ),
    # Nor can a claim before the zero one, the zero one or a claim behind it be had.
    (
        ZERO_CLAIM,
        [
            "read 0: refusal 18 at 29, counts 0 0 0",
            f"start 0: refusal 18 at 29, tokens{NONE}",
            f"target 0: refusal 18 at 29, kind 0, tokens{NONE}",
            f"weights 1: refusal 18 at 29, {NO_WEIGHTS}",
            f"half_space 0: refusal 18 at 29, {NO_CLAIM}",
            f"half_space 1: refusal 18 at 29, {NO_CLAIM}",
            f"half_space 2: refusal 18 at 29, {NO_CLAIM}",
            f"reduced 2: refusal 18 at 29, {NO_CLAIM}",
            "claim_check 2: refusal 18 at 29",
            "claim_record 3: refusal 18 at 29, from 0, length 0",
            "twin 5: refusal 18 at 29, claim 0",
        ],
    ),
]

# The bytes of a claim's record, by the claim's number.
RECORDS = [
    (FIRST, 1, "48 53 01 01 02 00"),
    (FIRST, 2, "48 53 FF 00 00 00"),
    (FIRST, 5, "48 53 02 02 04 00"),
    (MIDDLE, 1, "48 53 9C 00 64 78 EC"),
    (MIDDLE, 2, "48 53 64 FF 9C 88 13"),
    (LARGEST, 32, "48 53" + 8 * " 9C 64" + " 88 13"),
]
