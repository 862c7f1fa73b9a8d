"""Holds the second program and ours to documents 01 and 02: verdicts, twins and whole listings, written by hand."""

from checks import Checks
from comparison import Request, dotted_answers, output_for
from named_cases import FIRST, HEAD, LARGEST, MIDDLE, SMALLEST, ZERO_CLAIM
from pair_cases import CASES, T_OF_004
from pair_cases import K as T_OF_CASE_K
from programs import run
from second.listing import check_listing, listing
from second.pairs import may_be_shown, value
from second.sheet import Claim, Sheet, Transition, write
from second.trying import enough_to_break
from second.twins import first_twins, reduced
from second.verdicts import BY_RESIDUES, BY_SUMS, BY_TRYING, Verdict, verdict

WAYS = {"sums": BY_SUMS, "residues": BY_RESIDUES, "trying": BY_TRYING}


def check_verdicts_by_hand(checks: Checks) -> None:
    check_pairs(checks)
    for (name, *_, claim, _, word), sheet in zip(VERDICTS, sheets_of_verdicts()):
        expected = Verdict(word, 1 if word == "broken" else None)
        for way in WAYS:
            actual = verdict(sheet, claim, WAYS[way])
            checks.equal(f"verdict on case {name}, by {way}", write(sheet), expected, actual)
    check_listed(checks)
    for claim, expected in REDUCED:
        checks.equal(f"reduced form of {claim}", b"", expected, reduced(claim))
    checks.equal("twins", b"", [twin for _, twin in TWINS], first_twins([claim for claim, _ in TWINS]))
    for data, expected in LISTINGS:
        checks.equal("listing, second program against 01", data, expected, listing(data))
        checks.equal("01's listing is accepted", data, None, check_listing(data, expected))


def sheets_of_verdicts() -> list[Sheet]:
    return [
        Sheet(2, 1, (transition,), start, kind, target, (claim,))
        for _, start, kind, target, claim, transition, _ in VERDICTS
    ]


def check_listed(checks: Checks) -> None:
    """The library lists the same sheets, and judge some."""
    twins = Sheet(2, 0, (), (0, 0), 0, (0, 0), tuple(claim for claim, _ in TWINS))
    sheets = [*sheets_of_verdicts(), twins]
    requests = [Request("listing by hand", write(sheet), "L", []) for sheet in sheets]
    answers = dotted_answers(output_for(requests), len(requests))
    *claims, with_twins = (answer.splitlines()[2:-1] for answer in answers)
    for (name, *_, word), request, lines in zip(VERDICTS, requests, claims):
        checks.equal(f"verdict on case {name}, listed", request.data, [word], [line.split()[2] for line in lines])
    listed = [line.partition(" twin ")[2] for line in with_twins]
    checks.equal("twins, listed", requests[-1].data, [str(twin or "") for _, twin in TWINS], listed)
    for data, expected in LISTINGS:
        checks.equal("listing, judge against 01", data, expected, run("judge", input=data))


def check_pairs(checks: Checks) -> None:
    """Cases a to k, and the far windows, which have too many markings to be tried."""
    for name, pair, bad in CASES:
        for way in WAYS:
            if way != "trying" or enough_to_break(pair) < 1_000:
                checks.equal(f"case {name}, by {way}", b"", bad is not None, WAYS[way].breaks(pair))
        if bad:
            checks.equal(f"case {name}, 01's marking may be shown", b"", True, may_be_shown(pair, bad))
    # "(-1,1) doesn't, because of (3,1)".
    checks.equal("case l, value of (3,1)", b"", -2, value((-1, 1), (3, 1)))


# Case, start, kind, target, claim, transition and the verdict.
VERDICTS = [
    ("a", (4, 0), 0, (0, 0), Claim((3, 2), 9), T_OF_004, "proof"),
    ("a, start at the constant", (3, 0), 0, (0, 0), Claim((3, 2), 9), T_OF_004, "proof"),
    ("a, start below it", (2, 1), 0, (0, 0), Claim((3, 2), 9), T_OF_004, "start-outside"),
    ("a, target at the constant", (4, 0), 0, (3, 0), Claim((3, 2), 9), T_OF_004, "target-inside"),
    ("a, target below it", (4, 0), 0, (2, 1), Claim((3, 2), 9), T_OF_004, "proof"),
    ("a, kind 1", (4, 0), 1, (0, 0), Claim((3, 2), 9), T_OF_004, "target-inside"),
    ("a, start outside and target inside", (0, 0), 0, (3, 0), Claim((3, 2), 9), T_OF_004, "start-outside"),
    ("b", (4, 0), 0, (0, 0), Claim((3, 2), 10), T_OF_004, "broken"),
    ("b, target inside", (4, 0), 0, (4, 0), Claim((3, 2), 10), T_OF_004, "target-inside"),
    ("b, start outside", (0, 0), 0, (0, 0), Claim((3, 2), 10), T_OF_004, "start-outside"),
    ("c", (3, 0), 0, (0, 0), Claim((8, 5), 22), T_OF_004, "proof"),
    ("d", (4, 0), 0, (0, 0), Claim((53, 52), 209), T_OF_004, "proof"),
    ("e", (4, 0), 0, (0, 0), Claim((53, 52), 210), T_OF_004, "broken"),
    ("f", (0, 0), 0, (4, 0), Claim((-2, -3), -6), T_OF_004, "proof"),
    ("f, kind 1", (0, 0), 1, (4, 0), Claim((-2, -3), -6), T_OF_004, "proof"),
    ("g", (0, 0), 1, (4, 0), Claim((-2, -3), -7), T_OF_004, "broken"),
    ("h", (0, 0), 1, (5, 0), Claim((-2, -3), -8), T_OF_004, "proof"),
    ("i", (0, 0), 0, (5, 0), Claim((-2, -3), -9), T_OF_004, "broken"),
    ("j", (2, 1), 0, (0, 1), Claim((2, -3), 0), T_OF_004, "broken"),
    ("j, kind 1", (2, 1), 1, (0, 1), Claim((2, -3), 0), T_OF_004, "target-inside"),
    ("k with 8", (2, 0), 0, (0, 0), Claim((4, 6), 8), T_OF_CASE_K, "proof"),
    ("k with 9", (2, 1), 0, (0, 0), Claim((4, 6), 9), T_OF_CASE_K, "broken"),
    ("l, excluded", (0, 0), 1, (3, 0), Claim((-1, 0), -2), T_OF_004, "proof"),
    ("l, not excluded", (0, 0), 1, (3, 0), Claim((-1, 1), -2), T_OF_004, "target-inside"),
    ("a zero, constant 0", (0, 0), 0, (1, 0), Claim((0, 1), 0), T_OF_004, "target-inside"),
    ("a zero, constant 1", (9, 0), 0, (1, 0), Claim((0, 1), 1), T_OF_004, "start-outside"),
    ("a zero, kept", (0, 9), 0, (1, 0), Claim((0, 1), 1), T_OF_004, "proof"),
    ("a zero, broken", (9, 0), 0, (0, 1), Claim((1, 0), 2), T_OF_004, "broken"),
]

REDUCED = [
    (Claim((6, -9), 12), Claim((2, -3), 4)),
    (Claim((-6, 0), -4), Claim((-3, 0), -2)),
    (Claim((2, 2), 5), Claim((2, 2), 5)),
    (Claim((0, -100), -5_000), Claim((0, -1), -50)),
    (Claim((100, -100), 0), Claim((1, -1), 0)),
    (Claim((0, 7), 0), Claim((0, 1), 0)),
]

# Claims with the lowest number of an earlier twin.
TWINS = [
    (Claim((1, 1), 2), None),
    (Claim((2, 2), 4), 1),
    (Claim((-1, -1), -2), None),
    (Claim((1, 1), -2), None),
    (Claim((0, 3), 0), None),
    (Claim((0, 1), 0), 5),
    (Claim((0, 1), 3), None),
    (Claim((0, 7), 21), 7),
    (Claim((0, 1), -3), None),
    (Claim((2, 2), 5), None),
    (Claim((3, 3), 6), 1),
    (Claim((-7, -7), -14), 3),
    (Claim((4, 2), 0), None),
    (Claim((2, 4), 0), None),
    (Claim((2, 1), 0), 13),
    (Claim((1, 1), 2), 1),
]

LISTING_OF_01 = """\
places 2 transitions 1 claims 5
claim 1 proof
claim 2 start-outside
claim 3 target-inside
claim 4 broken 1 1 0
claim 5 proof twin 1
"""

# The lowest transition that breaks is the second: it takes (1,0) and puts (0,1), and (1,0) alone is bad.
TWO_TRANSITIONS = write(
    Sheet(
        n=2,
        T=3,
        transitions=(Transition((1, 0), (1, 0)), Transition((1, 0), (0, 1)), Transition((1, 0), (0, 0))),
        start=(2, 0),
        kind=0,
        target=(0, 1),
        claims=(Claim((2, 1), 2), Claim((4, 2), 4)),
    )
)

LISTINGS = [
    (FIRST, LISTING_OF_01),
    # One place and no transition: start 5 and targets from 6 on, at most 5.
    (SMALLEST, "places 1 transitions 0 claims 1\nclaim 1 proof\n"),
    (MIDDLE, "places 3 transitions 2 claims 2\nclaim 1 target-inside\nclaim 2 start-outside\n"),
    (
        LARGEST,
        "places 16 transitions 64 claims 32\nclaim 1 start-outside\n"
        + "".join(f"claim {number} start-outside twin 1\n" for number in range(2, 33)),
    ),
    (
        TWO_TRANSITIONS,
        "places 2 transitions 3 claims 2\nclaim 1 broken 2 1 0\nclaim 2 broken 2 1 0 twin 1\n",
    ),
    (HEAD, "refused 9 at 23\n"),
    (ZERO_CLAIM, "refused 18 at 29\n"),
    (b"", "refused 1 at 0\n"),
    (b"N", "refused 1 at 0\n"),
]
