"""Holds walks on many nets to the second program.

    python3 tests/walk_comparison.py

The archive must be built (`scripts/library`). Steps begin at the marking given, and go on after a refusal.
"""

import sys

sys.dont_write_bytecode = True  # before the imports of our own modules, which would leave __pycache__ behind

from collections import Counter

from checks import Checks, run_checks
from comparison import Request, compare
from make_walks import Walk, made_walks
from second.calls import Asked, begin_line, step_lines
from second.listing import Line
from second.sheet import read
from tables import check_counts, refused_sheet
from walks_by_hand import WALKS

# Of each column how many there must be.
LEAST = {
    "walks": 20_000,
    "refused sheet": 900,
    "zero claim": 40,
    "moved": 40_000,
    "refused 12": 5_000,
    "refused 15": 25_000,
    "refused 16": 10_000,
}


def compare_walks(checks: Checks) -> None:
    by_hand = [request(walk) for walk, _ in WALKS]
    for (walk, lines), asked in zip(WALKS, by_hand):
        checks.equal(f"{asked.name}, second program against 01", walk.data, list(map(Line, lines)), asked.lines)
    made = made_walks()
    requests = list(map(request, made))
    compare(checks, by_hand + requests)
    kinds = Counter((walk.kind, column) for walk, asked in zip(made, requests) for column in columns_of(asked.lines))
    check_counts(checks, "compared walks", kinds, LEAST)


def request(walk: Walk) -> Request:
    asked = Asked(read(walk.data))
    lines = [begin_line(asked), *step_lines(asked, walk.marking, walk.steps)]
    return Request(f"walk, {walk}", walk.data, "W", list(map(Line, lines)), walk.numbers())


def columns_of(lines: list[Line]) -> list[str]:
    """What a walk's answer adds one to, a column as often as it has that."""
    begun, *steps = (line.opening.split()[3] for line in lines)  # the numbers of the refusals
    if begun != "0":
        return ["walks", *refused_sheet(int(begun))]
    return ["walks", *("moved" if number == "0" else f"refused {number}" for number in steps)]


if __name__ == "__main__":
    sys.exit(run_checks(compare_walks))
