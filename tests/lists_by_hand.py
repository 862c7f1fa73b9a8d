"""Lists of transitions fired in one call, with what 02 says of each, written by hand."""

from make_walks import Walk
from named_cases import FIRST, HEAD, ZERO_CLAIM
from walks_by_hand import FULL, MORE, filled

FINE = "refusal 0 at 0, position 0"


def by_hand(kind: str, data: bytes, marking: str, steps: list[int], answer: str, after: str) -> tuple[Walk, str]:
    """The last of the tokens given is followed by zeros."""
    tokens = tuple(map(int, filled(marking).split()))
    return Walk(kind, data, tokens, tuple(steps)), f"fire_list {len(steps)}: {answer}, tokens {filled(after)}"


LISTS = [
    by_hand("an empty list", FIRST, "2", [], FINE, "2"),
    by_hand("one step", FIRST, "2", [1], FINE, "1 1"),
    by_hand("two steps", FIRST, "2", [1, 1], FINE, "0 2"),
    by_hand("the third refused", FIRST, "2", [1, 1, 1, 1], "refusal 15 at 1, position 3", "2"),
    by_hand("the first refused", FIRST, "0 5", [1, 1], "refusal 15 at 1, position 1", "0 5"),
    by_hand("a number that there isn't", FIRST, "2", [1, 2, 1], "refusal 12 at 2, position 2", "2"),
    by_hand("transition 0", FIRST, "2", [0], "refusal 12 at 0, position 1", "2"),
    by_hand("beyond n", FIRST, f"2 0 {MORE}", [1, 1], FINE, f"0 2 {MORE}"),
    by_hand("beyond n, refused", FIRST, f"1 0 {MORE}", [1, 1], "refusal 15 at 1, position 2", f"1 0 {MORE}"),
    by_hand("a full place", FULL, "65534", [2, 1, 2], "refusal 16 at 1, position 3", "65534"),
    by_hand("64 steps", FULL, "65471", 64 * [2], FINE, "65535"),
    by_hand("64 steps, the last refused", FULL, "65472", 64 * [2], "refusal 16 at 1, position 64", "65472"),
    by_hand("65 steps", FULL, "65470", 65 * [2], "refusal 17 at 65, position 0", "65470"),
    by_hand("65 steps that there aren't", FULL, "7", 65 * [0], "refusal 17 at 65, position 0", "7"),
    by_hand("255 steps", FULL, "7", 255 * [1], "refusal 17 at 255, position 0", "7"),
    by_hand("zero claim", ZERO_CLAIM, "2", [1], "refusal 18 at 29, position 0", "2"),
    by_hand("zero claim, 65 steps", ZERO_CLAIM, "2", 65 * [1], "refusal 18 at 29, position 0", "2"),
    by_hand("refused sheet", HEAD, "2", [1], "refusal 9 at 23, position 0", "2"),
    by_hand("refused sheet, an empty list", HEAD, "2", [], "refusal 9 at 23, position 0", "2"),
    by_hand("refused sheet, 65 steps", HEAD, "2", 65 * [1], "refusal 9 at 23, position 0", "2"),
    by_hand("empty sheet", b"", "1 2 3", [0], "refusal 1 at 0, position 0", "1 2 3"),
]
