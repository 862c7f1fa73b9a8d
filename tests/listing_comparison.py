"""Holds the listings of many sheets to the second program, byte for byte but for the choice of bad markings.

    python3 tests/listing_comparison.py

The archive must be built (`scripts/library`). For a refused sheet the line of its refusal is asked for, as judge does.
"""

import sys

sys.dont_write_bytecode = True  # before the imports of our own modules, which would leave __pycache__ behind

from collections import Counter

from checks import Checks, Failure, run_checks
from comparison import Request, compare
from make_listings import Made, made_listings
from second.calls import page_lines
from second.listing import Line
from second.sheet import Sheet, read
from second.trying import most_tried
from second.verdicts import BY_RESIDUES, BY_TRYING, Verdict, verdict
from tables import Table, check_counts, refused_sheet, shown

MOST_TRIED = 600  # markings for one question; where more are needed the residues decide

VERDICTS = ["start-outside", "target-inside", "broken", "proof"]

# Of each column how many there must be.
LEAST = {
    "sheets": 30_000,
    "refused sheet": 2_500,
    "zero claim": 1_000,
    "start-outside": 20_000,
    "target-inside": 20_000,
    "broken": 20_000,
    "proof": 15_000,
    "twin": 15_000,
}
LEAST_TRIED = 2_500  # of each verdict


def compare_listings(checks: Checks) -> None:
    kinds = Counter()  # by kind of sheet and what is listed
    ways = Counter()  # by the way that a verdict was found again and the verdict
    requests = []
    for made in made_listings():
        answer = read(made.data)
        lines = page_lines(answer)
        requests.append(Request(f"listing of a sheet, {made.kind}", made.data, "L", lines))
        kinds.update((made.kind, column) for column in columns_of(lines))
        if isinstance(answer, Sheet):
            checks.report(found_again(made, answer, lines, ways))
    compare(checks, requests)
    check_counts(checks, "compared the listings of sheets", kinds, LEAST)
    print(shown("verdicts of the second program found another way", ways, VERDICTS))
    for word in VERDICTS:
        checks.at_least(f"verdicts found by trying, {word}", LEAST_TRIED, ways["trying", word])


def claims_of(lines: list[Line]) -> list[Line]:
    """The lines of claims, behind the call's own and the counts; a refused sheet has none."""
    return [line for line in lines[2:] if line.opening.startswith("claim ")]


def columns_of(lines: list[Line]) -> list[str]:
    """What a listing adds one to, a column as often as it has that."""
    claims = claims_of(lines)
    verdicts = [verdict_in(line).word for line in claims] or refused_sheet(int(lines[0].opening.split()[2]))
    return ["sheets", *verdicts, *("twin" for line in claims if line.closing)]


def verdict_in(line: Line) -> Verdict:
    _, _, word, *transition = line.opening.split()
    return Verdict(word, *map(int, transition))


def found_again(made: Made, sheet: Sheet, lines: list[Line], ways: Table) -> list[Failure]:
    """Finds each verdict of the second program again: by trying where that can be done, or else by residues."""
    failures = []
    for claim, line in zip(sheet.claims, claims_of(lines), strict=True):
        tried = most_tried(sheet, claim) <= MOST_TRIED
        again = verdict(sheet, claim, BY_TRYING if tried else BY_RESIDUES)
        ways["trying" if tried else "residues", again.word] += 1
        if verdict_in(line) != again:
            failures.append(Failure(f"second program, {made.kind}, {claim}", made.data, again, verdict_in(line)))
    return failures


if __name__ == "__main__":
    sys.exit(run_checks(compare_listings))
