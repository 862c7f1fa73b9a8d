"""Holds lists of transitions, each fired in one call from C, to the second program.

    python3 tests/list_comparison.py

The archive must be built (`scripts/library`).
"""

import sys

sys.dont_write_bytecode = True  # before the imports of our own modules, which would leave __pycache__ behind

import re
from collections import Counter

from checks import Checks, run_checks
from comparison import Request, compare
from lists_by_hand import LISTS
from make_lists import made_lists
from make_walks import Walk
from second.calls import list_line
from second.limits import MOST_FIRINGS
from second.listing import Line
from second.sheet import REFUSALS, read
from second.walk import fired
from tables import check_counts, column_total, refused_sheet

# Of each column how many there must be. "longest" is a fine list of 64, "too long" one of 65, "empty" a fine one.
LEAST = {
    "lists": 28_000,
    "refused sheet": 1_000,
    "zero claim": 50,
    "fine": 4_000,
    "empty": 300,
    "longest": 500,
    "too long": 300,
    "refused 12": 2_500,
    "refused 15": 8_000,
    "refused 16": 4_000,
    "refused 17": 1_000,
}
LEAST_OF_EACH_POSITION = 15

ANSWER = re.compile(r"fire_list (\d+): refusal (\d+) at \d+, position (\d+),")


def compare_lists(checks: Checks) -> None:
    by_hand = [request(made) for made, _ in LISTS]
    for (made, line), asked in zip(LISTS, by_hand):
        checks.equal(f"{asked.name}, second program against 02", made.data, [Line(line)], asked.lines)
    made = made_lists()
    requests = list(map(request, made))
    compare(checks, by_hand + requests)
    kinds = Counter((walk.kind, column) for walk, asked in zip(made, requests) for column in columns_of(*asked.lines))
    check_counts(checks, "compared lists", kinds, LEAST)
    for position in range(1, MOST_FIRINGS + 1):
        column = f"position {position}"
        checks.at_least(f"lists, {column}", LEAST_OF_EACH_POSITION, column_total(kinds, column))


def request(made: Walk) -> Request:
    answer = fired(read(made.data), made.marking, made.steps)
    return Request(f"list, {made}", made.data, "F", [Line(list_line(answer, len(made.steps)))], made.numbers())


def columns_of(line: Line) -> list[str]:
    """What a list's answer adds one to."""
    length, number, position = map(int, ANSWER.match(line.opening).groups())
    if number in REFUSALS:
        return ["lists", *refused_sheet(number)]
    if number:
        too_long = ["too long"] if length == MOST_FIRINGS + 1 else []
        return ["lists", f"refused {number}", f"position {position}", *too_long]
    return ["lists", "fine", *(["empty"] if not length else []), *(["longest"] if length == MOST_FIRINGS else [])]


if __name__ == "__main__":
    sys.exit(run_checks(compare_lists))
