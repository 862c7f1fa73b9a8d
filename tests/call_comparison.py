"""Holds every call of the library, made from C on many sheets, to the second program.

    python3 tests/call_comparison.py

The archive must be built (`scripts/library`). tests/c/every_call.h makes every call for every claim and transition number
from 0 to one above the count, and for one far above; but of the pairs only some. Its lines are compared one by one,
but for the choice of bad markings.
"""

import sys

sys.dont_write_bytecode = True  # before the imports of our own modules, which would leave __pycache__ behind

from collections import Counter
from math import gcd

from checks import Checks, run_checks
from comparison import Request, compare
from library_checks import claim_lines as claim_lines_by_hand
from make_calls import made_calls
from make_listings import Made
from named_cases import FIRST
from second.calls import VERDICTS, every_line
from second.listing import Line, right_text
from second.sheet import Claim, Refusal, read
from second.twins import first_twins
from tables import check_counts, refused_sheet

# Of each column how many there must be. "divided" is a claim that its reduced form divides by more than 1, "below zero" one of
# those with both a coefficient and the constant below zero, "a zero" one with a coefficient that is zero, and "list" a fine list
# that isn't empty.
LEAST = {
    "sheets": 4_000,
    "calls": 300_000,
    "refused sheet": 800,
    "zero claim": 300,
    "divided": 4_000,
    "below zero": 500,
    "a zero": 3_000,
    "constant 0": 500,
    "twin": 4_000,
    "start-outside": 2_000,
    "target-inside": 2_000,
    "broken": 1_500,
    "proof": 1_500,
    "pair kept": 6_000,
    "pair broken": 2_000,
    "step": 6_000,
    "list": 1_500,
}


def compare_calls(checks: Checks) -> None:
    check_by_hand(checks)
    made = made_calls()
    requests = list(map(request, made))
    compare(checks, requests)
    kinds = Counter()
    for (kind, data), asked in zip(made, requests):
        kinds.update((kind, column) for column in [*columns_of_lines(asked.lines), *columns_of_claims(data)])
    check_counts(checks, "compared every call from C", kinds, LEAST)


def check_by_hand(checks: Checks) -> None:
    """What 01 says of the claims of its own sheet, the second program says too."""
    found = right_text(every_line(FIRST)).splitlines()
    missing = [line for line in claim_lines_by_hand() if line not in found]
    checks.equal("every call, second program against 01", FIRST, [], missing)


def request(made: Made) -> Request:
    return Request(f"every call, {made.kind}", made.data, "E", every_line(made.data))


def columns_of_lines(lines: list[Line]) -> list[str]:
    """What the lines of a sheet add one to. A call's line has a colon, and no line of a listing does."""
    columns = ["sheets"]
    for line in lines:
        call, colon, answer = line.opening.partition(": ")
        columns += ["calls"] if colon else []
        if answer.startswith("refusal 0 at 0, answer"):
            number = int(answer.split()[5].rstrip(","))
            columns.append(VERDICTS[number] if call.startswith("verdict") else ["", "pair kept", "pair broken"][number])
        elif call.startswith("step ") and answer.startswith("refusal 0"):
            columns.append("step")
        elif call.startswith("fire_list ") and call != "fire_list 0" and answer.startswith("refusal 0"):
            columns.append("list")
    return columns


def columns_of_claims(data: bytes) -> list[str]:
    sheet = read(data)
    if isinstance(sheet, Refusal):
        return refused_sheet(sheet.number)
    twins = ["twin" for twin in first_twins(sheet.claims) if twin]
    return twins + [column for claim in sheet.claims for column in columns_of_claim(claim)]


def columns_of_claim(claim: Claim) -> list[str]:
    coefficients, constant = claim
    divisor = gcd(*coefficients, constant)
    below = divisor > 1 and min(coefficients) < 0 and constant < 0
    holding = {"divided": divisor > 1, "below zero": below, "a zero": 0 in coefficients, "constant 0": constant == 0}
    return [column for column, holds in holding.items() if holds]


if __name__ == "__main__":
    sys.exit(run_checks(compare_calls))
