"""Walks with what 01, and of a zero claim 02, says of each, written by hand."""

from make_walks import Walk
from named_cases import FIRST, HEAD, MIDDLE, ZERO_CLAIM, hexed
from second.limits import MOST_TOKENS

# One place, which is full. The first transition takes one and puts one, the second takes none and puts one.
FULL = hexed("4E 50 01 02", "54 52 01 01", "54 52 00 01", "4D 4B FF FF", "54 47 00 00 00", "48 53 01 00 00")


def by_hand(kind: str, data: bytes, marking: str, steps: list[int], *lines: str) -> tuple[Walk, list[str]]:
    """A line for the beginning and for each step. The last of the tokens given is followed by zeros, here and there."""
    tokens = tuple(map(int, filled(marking).split()))
    calls = ["begin 0", *(f"step {t}" for t in steps)]
    return Walk(kind, data, tokens, tuple(steps)), [call_line(*both) for both in zip(calls, lines, strict=True)]


def call_line(call: str, words: str) -> str:
    """Words are a word and tokens, or a refusal in four words and tokens."""
    match words.split():
        case ["refused", number, "at", detail, *tokens]:
            return f"{call}: refusal {number} at {detail}, tokens {filled(' '.join(tokens))}"
        case [_, *tokens]:
            return f"{call}: refusal 0 at 0, tokens {filled(' '.join(tokens))}"


def filled(tokens: str) -> str:
    return " ".join([*tokens.split(), *(16 - len(tokens.split())) * ["0"]])


TOP = MOST_TOKENS
MORE = "7 65535" + 12 * " 9"  # in the fourteen places beyond place 2

WALKS = [
    by_hand("01's", FIRST, "2", [1, 1, 1], "start 2", "moved 1 1", "moved 0 2", "refused 15 at 1 0 2"),
    by_hand("a full place", FULL, "65535", [1, 2], "start 65535", "moved 65535", "refused 16 at 1 65535"),
    by_hand("up to full", FULL, "65534", [2, 2], "start 65535", "moved 65535", "refused 16 at 1 65535"),
    by_hand("an empty place", FULL, "0", [1, 2, 1], "start 65535", "refused 15 at 1 0", "moved 1", "moved 1"),
    by_hand(
        "numbers that there aren't",
        FIRST,
        "2",
        [0, 2, 257, 65_535, 1],
        "start 2",
        "refused 12 at 0 2",
        "refused 12 at 2 2",
        "refused 12 at 257 2",
        "refused 12 at 65535 2",
        "moved 1 1",
    ),
    by_hand("beyond n", FIRST, f"1 0 {MORE}", [1, 1], "start 2", f"moved 0 1 {MORE}", f"refused 15 at 1 0 1 {MORE}"),
    by_hand("16 in the second place", FIRST, f"1 {TOP}", [1], "start 2", f"refused 16 at 2 1 {TOP}"),
    by_hand("15 before 16", FIRST, f"0 {TOP}", [1], "start 2", f"refused 15 at 1 0 {TOP}"),
    # The second takes 9, 8 and 7 and puts 6, 5 and 4; the first takes 0, 1 and 2 and puts 3, 4 and 5.
    by_hand("two short", MIDDLE, "9 7 6", [2, 1], "start 0 1 65535", "refused 15 at 2 9 7 6", "moved 12 10 9"),
    by_hand("just enough", MIDDLE, "9 8 7", [2, 2], "start 0 1 65535", "moved 6 5 4", "refused 15 at 1 6 5 4"),
    by_hand("all pass", MIDDLE, "65533 65533 65533", [1], "start 0 1 65535", "refused 16 at 1 65533 65533 65533"),
    by_hand("two pass", MIDDLE, "65532 65533 65533", [1], "start 0 1 65535", "refused 16 at 2 65532 65533 65533"),
    by_hand("none passes", MIDDLE, "65532 65532 65532", [1], "start 0 1 65535", "moved 65535 65535 65535"),
    by_hand("no step", FIRST, "5 6 7", [], "start 2"),
    by_hand("empty sheet", b"", "1 2 3", [1, 0], "refused 1 at 0", "refused 1 at 0 1 2 3", "refused 1 at 0 1 2 3"),
    by_hand("sheet of one byte", b"N", "1", [1], "refused 1 at 0", "refused 1 at 0 1"),
    by_hand("zero claim", ZERO_CLAIM, "2 0 5", [1, 2], "refused 18 at 29", "refused 18 at 29 2 0 5", "refused 18 at 29 2 0 5"),
    by_hand("sheet without a claim", HEAD, "2", [1, 2], "refused 9 at 23", "refused 9 at 23 2", "refused 9 at 23 2"),
]
