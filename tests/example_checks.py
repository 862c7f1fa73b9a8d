"""Holds the example in examples/hand-over, and what the README says of it, to the programs.

    python3 tests/example_checks.py

The program `judge` must be built. Which bad marking it shows is free, so what it prints is held to the second program, byte
for byte but for that choice. The committed listings and the README show the markings of the least total.
"""

import sys

sys.dont_write_bytecode = True  # before the imports of our own modules, which would leave __pycache__ behind

from collections import Counter
from textwrap import indent

from checks import Checks, run_checks
from programs import ROOT, output_of, run
from second.listing import check_listing, lines
from second.pairs import Pair, window
from second.sheet import Refusal, Sheet, read
from second.walk import begun, stepped

EXAMPLE = ROOT / "examples" / "hand-over"
MADE = ROOT / "target" / "examples"
AS_IT_WAS, MENDED = "as-it-was", "mended"
TIME_LIMIT = 20  # seconds to make the sheets, which needs some hundredths of one

# Sheet, claim and how many tokens each place may have without one bad marking for any transition.
KEPT_WHILE_SMALL = [(AS_IT_WAS, 1, 8), (AS_IT_WAS, 2, 8), (AS_IT_WAS, 3, 8), (AS_IT_WAS, 4, 8), (MENDED, 2, 31)]

DELETE, GIVE, OPEN, SERVE, OPEN_STALE = 1, 2, 6, 7, 9
TO_THE_WRONG_CLOTH = [DELETE, *(9 * [OPEN, SERVE]), GIVE, OPEN, OPEN_STALE]


def check_examples(checks: Checks) -> None:
    made = output_of([sys.executable, str(EXAMPLE / "make_sheets.py"), str(MADE)], TIME_LIMIT)
    checks.equal("example, the sheets are made", b"", "", made)
    if made:
        return  # sheets of an earlier run may lie there
    for name in [AS_IT_WAS, MENDED]:
        check_listed(checks, name)
    for name, claim, most in KEPT_WHILE_SMALL:
        check_kept_while_small(checks, name, claim, most)
    check_walks(checks)


def check_listed(checks: Checks, name: str) -> None:
    data = made_sheet(name)
    expected = (EXAMPLE / f"{name}.listing").read_text()
    checks.equal(f"example {name}, listing against second program", data, None, check_listing(data, expected))
    checks.equal(f"example {name}", data, None, check_listing(data, run("judge", input=data)))
    shown = f"    $ ./judge target/examples/{name}.sheet\n" + indent(expected, "    ")
    checks.equal(f"example {name}, listing in the README", data, True, shown in (ROOT / "README.md").read_text())
    for line, text in zip(lines(read(data)), expected.splitlines()):
        if line.broken and line.fits(text):
            tokens = text.removeprefix(line.opening).removesuffix(line.closing).split()
            total = sum(map(int, tokens))
            found = Counter({total: 1})
            checks.equal(f"example {name}, {line}, no other is as small", data, found, bad_totals(line.broken, total))


def made_sheet(name: str) -> bytes:
    return (MADE / f"{name}.sheet").read_bytes()


def bad_totals(pair: Pair, most: int) -> Counter[int]:
    """How many bad markings there are of each total up to this one. No coefficient is above zero.

    By Theorem 1 they are the weights taken plus the vectors with a value in the window. Here a value only falls as
    tokens are added, so one below the window needs no further places.
    """
    (coefficients, _), (taken, _) = pair
    low, high = window(pair)
    found = Counter({(0, sum(taken)): 1})  # by value and total, how many vectors over the places so far
    for coefficient in coefficients:
        more = Counter()
        for (value, total), count in found.items():
            for tokens in range(most - total + 1):
                if value + tokens * coefficient >= low:
                    more[value + tokens * coefficient, total + tokens] += count
        found = more
    totals = Counter()
    for (value, total), count in found.items():
        if value <= high:
            totals[total] += count
    return totals


def check_kept_while_small(checks: Checks, name: str, claim: int, most: int) -> None:
    """Up to so many tokens in each place no marking is bad, and with one more there some is."""
    sheet = read(made_sheet(name))
    pairs = [Pair(sheet.claims[claim - 1], transition) for transition in sheet.transitions]
    for size, expected in [(most, False), (most + 1, True)]:
        words = f"example {name}, claim {claim}, broken with up to {size} tokens in each place"
        checks.equal(words, made_sheet(name), expected, any(some_bad(pair, size) for pair in pairs))


def some_bad(pair: Pair, most: int) -> bool:
    """Whether some marking with at most so many tokens in each place is bad, by Theorem 1."""
    (coefficients, _), (taken, _) = pair
    low, high = window(pair)
    values = {0}
    for coefficient, weight in zip(coefficients, taken):
        values = {value + tokens * coefficient for value in values for tokens in range(most - weight + 1)}
        values = {value for value in values if value >= low}  # none rises again
    return any(value <= high for value in values)


def check_walks(checks: Checks) -> None:
    """The old hand-over opens a stale slot by firing after firing from the start; the mended one refuses on the way."""
    after = walked(read(made_sheet(AS_IT_WAS)), TO_THE_WRONG_CLOTH)
    checks.equal("example, the wrong cloth", made_sheet(AS_IT_WAS), (399, 0, 1, 1, 0, 2, 0, 0, 1), after[:9])
    # Deleted, served, given away with both desks: then no desk is left for a query.
    after = walked(read(made_sheet(MENDED)), TO_THE_WRONG_CLOTH)
    checks.equal("example, no desk for a query", made_sheet(MENDED), Refusal(15, 6), after)


def walked(sheet: Sheet, transitions: list[int]) -> tuple[int, ...] | Refusal:
    marking = begun(sheet)
    for transition in transitions:
        marking = stepped(sheet, marking, transition)
        if isinstance(marking, Refusal):
            return marking
    return marking


if __name__ == "__main__":
    sys.exit(run_checks(check_examples))
