"""Sheets with the first line that document 01, or of refusal 18 document 02, gives each, both written by hand.

Nothing here uses the second program, so these lines hold it and judge alike to 01 and 02.
Byte places stand in the lines as 01's record table gives them.
"""

from bisect import bisect_right
from collections.abc import Iterable
from typing import NamedTuple


class Named(NamedTuple):
    name: str
    data: bytes
    line: str


Lines = Iterable[tuple[bytes, str]]


def hexed(*parts: str) -> bytes:
    return bytes.fromhex(" ".join(parts))


def patched(sheet: bytes, at: int, new: str) -> bytes:
    """The sheet with the bytes from `at` on replaced by as many new ones."""
    end = at + len(hexed(new))
    return sheet[:at] + hexed(new) + sheet[end:]


# 01's own sheet: NP at 0, TR at 4, MK at 10, TG at 16, claims at 23, 29, 35, 41 and 47.
NP, TR, MK, TG = "4E 50 02 01", "54 52 01 00 00 01", "4D 4B 02 00 00 00", "54 47 00 00 00 01 00"
HEAD = hexed(NP, TR, MK, TG)
HS = hexed("48 53 01 01 02 00")
FIRST = HEAD + hexed(
    "48 53 01 01 02 00  48 53 FF 00 00 00  48 53 00 01 00 00",
    "48 53 02 01 02 00  48 53 02 02 04 00",
)
FIRST_STARTS = [0, 4, 10, 16, 23, 29, 35, 41, 47]
FIRST_LINE = "places 2 transitions 1 claims 5"

# The same with every coefficient of claim 2 zero: 02 refuses it with 18 at 29.
ZERO_CLAIM = patched(FIRST, 31, "00")
ZERO_HS = hexed("48 53 00 00 02 00")

# One place, no transition, one claim: NP at 0, MK at 4, TG at 8, HS at 13; 18 bytes.
SMALLEST = hexed("4E 50 01 00", "4D 4B 05 00", "54 47 01 06 00", "48 53 FF FB FF")
SMALLEST_STARTS = [0, 4, 8, 13]
SMALLEST_LINE = "places 1 transitions 0 claims 1"

# Three places, two transitions, two claims: 51 bytes.
MIDDLE = hexed(
    "4E 50 03 02",
    "54 52 00 01 02 03 04 05",
    "54 52 09 08 07 06 05 04",
    "4D 4B 00 00 01 00 FF FF",
    "54 47 01 00 01 02 03 FF FF",
    "48 53 9C 00 64 78 EC",
    "48 53 64 FF 9C 88 13",
)
MIDDLE_STARTS = [0, 4, 12, 20, 28, 37, 44]
MIDDLE_LINE = "places 3 transitions 2 claims 2"

# Sixteen places, 64 transitions, 32 claims: TR at 4, 38, .. 2146, MK at 2180, TG at 2214,
# HS at 2249, 2269, .. 2869; 2,889 bytes. Every field stands at an end of its range.
LARGEST_HEAD = hexed(
    "4E 50 10 40",
    64 * ("54 52" + 16 * "09" + 16 * "00"),
    "4D 4B" + 8 * "FF FF 00 00",
    "54 47 01" + 8 * "00 00 FF FF",
)
LARGEST_HS = hexed("48 53" + 8 * "9C 64" + "88 13")
LARGEST = LARGEST_HEAD + 32 * LARGEST_HS
LARGEST_STARTS = [0, *range(4, 2180, 34), 2180, 2214, *range(2249, 2889, 20)]
LARGEST_LINE = "places 16 transitions 64 claims 32"

# Sixteen places, no transition, and no claim yet: HS at 73.
SIXTEEN_HEAD = hexed("4E 50 10 00 4D 4B", 32 * "00", "54 47 00", 32 * "00")

MARKS = ["4E 50", "54 52", "4D 4B", "54 47", "48 53"]


def named_cases() -> list[Named]:
    groups = {
        "sound": sound(),
        "under two bytes": under_two_bytes(),
        "first sheet cut": cut(FIRST, FIRST_STARTS, FIRST_LINE),
        "smallest sheet cut": cut(SMALLEST, SMALLEST_STARTS, SMALLEST_LINE),
        "middle sheet cut": cut(MIDDLE, MIDDLE_STARTS, MIDDLE_LINE),
        "largest sheet cut": cut(LARGEST, LARGEST_STARTS, LARGEST_LINE),
        "size": sizes(),
        "weight": weights(),
        "tokens": tokens(),
        "kind": kinds(),
        "coefficient": coefficients(),
        "constant": constants(),
        "zero claim": zero_claims(),
        "count of claims": counts_of_claims(),
        "bytes after the last claim": bytes_after(),
        "longer than any sheet": too_long(),
        "mark": marks(),
        "order of records": orders_of_records(),
        "order of checks": orders_of_checks(),
    }
    return [Named(name, data, line) for name, group in groups.items() for data, line in group]


def sound() -> Lines:
    yield FIRST, "places 2 transitions 1 claims 5"
    yield SMALLEST, "places 1 transitions 0 claims 1"
    yield MIDDLE, "places 3 transitions 2 claims 2"
    yield LARGEST, "places 16 transitions 64 claims 32"
    # All zeros wherever zero is in range, but for one coefficient.
    yield hexed("4E 50 01 00 4D 4B 00 00 54 47 00 00 00 48 53 01 00 00"), "places 1 transitions 0 claims 1"
    # Sixteen places without a transition; one place with 64 of them.
    yield SIXTEEN_HEAD + hexed("48 53", 15 * "00", "FF 00 00"), "places 16 transitions 0 claims 1"
    yield (
        hexed("4E 50 01 40", 64 * "54 52 00 09", "4D 4B 00 00 54 47 00 01 00 48 53 01 01 00"),
        "places 1 transitions 64 claims 1",
    )


def under_two_bytes() -> Lines:
    yield b"", "refused 1 at 0"
    for value in range(256):
        yield bytes([value]), "refused 1 at 0"


def cut(sheet: bytes, starts: list[int], whole_line: str) -> Lines:
    """Every truncation of a sound sheet whose records start at `starts`.

    A cut leaves the last record that it reaches too short: refusal 1 there. But a cut just after TG
    is 9's case, and a cut just after a claim leaves a sound sheet with fewer claims.
    """
    counts, claims = whole_line.rsplit(" ", 1)
    first_claim = starts[-int(claims)]
    for length in range(len(sheet)):
        last = starts[bisect_right(starts, length) - 1]
        if length == first_claim:
            line = f"refused 9 at {length}"
        elif length == last and length > first_claim:
            line = f"{counts} {starts.index(length) - starts.index(first_claim)}"
        else:
            line = f"refused 1 at {last}"
        yield sheet[:length], line


def sizes() -> Lines:
    for n in ["00", "11", "12", "7F", "80", "FF"]:
        yield patched(FIRST, 2, n), "refused 3 at 2"
        yield patched(SMALLEST, 2, n), "refused 3 at 2"
        yield patched(LARGEST, 2, n), "refused 3 at 2"
    for T in ["41", "42", "7F", "80", "FF"]:
        yield patched(FIRST, 3, T), "refused 3 at 3"
        yield patched(SMALLEST, 3, T), "refused 3 at 3"
        yield patched(LARGEST, 3, T), "refused 3 at 3"
    # Sizes that are in range but not those of the records that follow.
    yield patched(FIRST, 2, "01"), "refused 2 at 8"
    yield patched(FIRST, 2, "10"), "refused 4 at 10"
    yield patched(FIRST, 3, "00"), "refused 2 at 4"
    yield patched(FIRST, 3, "02"), "refused 2 at 10"
    yield patched(FIRST, 3, "40"), "refused 2 at 10"
    yield patched(SMALLEST, 2, "10"), "refused 1 at 4"
    yield patched(SMALLEST, 3, "01"), "refused 2 at 4"
    yield patched(LARGEST, 3, "3F"), "refused 2 at 2146"
    # Both out of range, and the records' bytes not even there.
    yield hexed("4E 50 00 41"), "refused 3 at 2"
    yield hexed("4E 50 11 FF"), "refused 3 at 2"
    yield hexed("4E 50 10 41"), "refused 3 at 3"
    yield hexed("4E 50 01 FF"), "refused 3 at 3"


def weights() -> Lines:
    first_places = [6, 7, 8, 9]
    largest_places = [6, 21, 22, 37, 2148, 2163, 2164, 2179]  # ends of taken and of put
    for sheet, line, places in [
        (FIRST, FIRST_LINE, first_places),
        (LARGEST, LARGEST_LINE, largest_places),
    ]:
        for at in places:
            yield patched(sheet, at, "00"), line
            yield patched(sheet, at, "09"), line
            for weight in ["0A", "10", "7F", "80", "F7", "FF"]:
                yield patched(sheet, at, weight), f"refused 4 at {at}"
    yield patched(FIRST, 6, "FF 0A 0A FF"), "refused 4 at 6"
    yield patched(FIRST, 8, "0A 0A"), "refused 4 at 8"


def tokens() -> Lines:
    # Start tokens stand at 12 and 14, target tokens at 19 and 21; no value is out of range.
    for at in [12, 14, 19, 21]:
        for value in ["00 00", "FF FF", "FF 00", "00 FF", "00 80", "FF 7F"]:
            yield patched(FIRST, at, value), FIRST_LINE


def kinds() -> Lines:
    for sheet, line, at in [
        (FIRST, FIRST_LINE, 18),
        (SMALLEST, SMALLEST_LINE, 10),
        (LARGEST, LARGEST_LINE, 2216),
    ]:
        yield patched(sheet, at, "00"), line
        yield patched(sheet, at, "01"), line
        for kind in ["02", "03", "7F", "80", "FF"]:
            yield patched(sheet, at, kind), f"refused 5 at {at}"


def coefficients() -> Lines:
    first_places = [25, 26, 31, 32, 49, 50]
    largest_places = [2251, 2266, 2871, 2886]  # first and last of the first and last claim
    for sheet, line, places, zeros in [
        (FIRST, FIRST_LINE, first_places, {31: "refused 18 at 29"}),  # the other of claim 2 is zero
        (SMALLEST, SMALLEST_LINE, [15], {15: "refused 18 at 13"}),
        (LARGEST, LARGEST_LINE, largest_places, {}),
    ]:
        for at in places:
            for inside in ["9C", "9D", "FF", "01", "63", "64"]:  # -100 -99 -1 1 99 100
                yield patched(sheet, at, inside), line
            yield patched(sheet, at, "00"), zeros.get(at, line)
            for outside in ["80", "81", "9A", "9B", "65", "66", "7F"]:  # -128 -127 -102 -101 101 102 127
                yield patched(sheet, at, outside), f"refused 6 at {at}"
    yield patched(FIRST, 25, "65 9B"), "refused 6 at 25"


def constants() -> Lines:
    for sheet, line, places in [
        (FIRST, FIRST_LINE, [27, 33, 51]),
        (SMALLEST, SMALLEST_LINE, [16]),
        (LARGEST, LARGEST_LINE, [2267, 2887]),
    ]:
        for at in places:
            # -5000 -4999 -256 -1 0 255 256 4999 5000
            for inside in ["78 EC", "79 EC", "00 FF", "FF FF", "00 00", "FF 00", "00 01", "87 13", "88 13"]:
                yield patched(sheet, at, inside), line
            # -32768 -5120 -5001 5001 5120 32767, then 5000 and -5000 with their bytes swapped
            for outside in ["00 80", "00 EC", "77 EC", "89 13", "00 14", "FF 7F", "13 88", "EC 78"]:
                yield patched(sheet, at, outside), f"refused 7 at {at}"
    # A kind at either end of its range leaves the constant's range as it is.
    for kind in ["00", "01"]:
        for constant in ["78 EC", "88 13"]:
            yield patched(patched(FIRST, 18, kind), 27, constant), FIRST_LINE
        for constant in ["77 EC", "89 13"]:
            yield patched(patched(FIRST, 18, kind), 27, constant), "refused 7 at 27"


def zero_claims() -> Lines:
    """Every coefficient zero, with any constant in its range; and those with one that isn't."""
    for constant in ["78 EC", "FF FF", "00 00", "01 00", "00 01", "88 13"]:  # -5000 -1 0 1 256 5000
        yield patched(FIRST, 25, f"00 00 {constant}"), "refused 18 at 23"
        yield patched(FIRST, 31, f"00 00 {constant}"), "refused 18 at 29"
        yield patched(FIRST, 49, f"00 00 {constant}"), "refused 18 at 47"
        yield patched(SMALLEST, 15, f"00 {constant}"), "refused 18 at 13"
        yield SIXTEEN_HEAD + hexed("48 53", 16 * "00", constant), "refused 18 at 73"
        yield patched(LARGEST, 2251, 16 * "00" + constant), "refused 18 at 2249"
        yield patched(LARGEST, 2871, 16 * "00" + constant), "refused 18 at 2869"
    # Each of 32 claims: with others behind it, as the last, and with zero claims behind it.
    for before in range(32):
        at = 23 + 6 * before
        yield HEAD + before * HS + ZERO_HS + (31 - before) * HS, f"refused 18 at {at}"
        yield HEAD + before * HS + ZERO_HS, f"refused 18 at {at}"
        yield HEAD + before * HS + (32 - before) * ZERO_HS, f"refused 18 at {at}"
    # One other than zero is enough, wherever it stands.
    for place in range(16):
        for one in ["9C", "FF", "01", "64"]:
            claim = hexed("48 53", place * "00", one, (15 - place) * "00", "00 00")
            yield SIXTEEN_HEAD + claim, "places 16 transitions 0 claims 1"
            yield SIXTEEN_HEAD + 32 * claim, "places 16 transitions 0 claims 32"
    for one in ["9C", "FF", "01", "64"]:
        yield patched(SMALLEST, 15, f"{one} 00 00"), SMALLEST_LINE
        yield patched(FIRST, 37, f"00 {one} 00 00"), FIRST_LINE
        yield patched(FIRST, 37, f"{one} 00 00 00"), FIRST_LINE
    # Zeros in TR, MK and TG make no zero claim.
    yield patched(FIRST, 6, "00 00 00 00"), FIRST_LINE
    yield patched(patched(FIRST, 12, "00 00 00 00"), 19, "00 00 00 00"), FIRST_LINE


def counts_of_claims() -> Lines:
    for count in range(1, 33):
        yield HEAD + count * HS, f"places 2 transitions 1 claims {count}"
    # The 33rd claim would start at 23 + 32 * 6 = 215.
    full = HEAD + 32 * HS
    yield full + HS, "refused 8 at 215"
    yield full + 2 * HS, "refused 8 at 215"
    yield full + 100 * HS, "refused 8 at 215"
    for tail in ["48 53", "48 53 01", "48 53 01 01", "48 53 01 01 02"]:
        yield full + hexed(tail), "refused 8 at 215"
    for tail in ["48 53 65 01 02 00", "48 53 01 01 89 13", "48 53 00 00 02 00"]:
        yield full + hexed(tail), "refused 8 at 215"
    for tail in ["48", "53", "00", "FF"]:
        yield full + hexed(tail), "refused 1 at 215"
    for tail in ["48 54", "49 53", "53 48", "54 47", "4E 50 02 01", "00 53 01 01 02 00"]:
        yield full + hexed(tail), "refused 2 at 215"
    # Sixteen places: the 33rd would start at 2889.
    for tail in [LARGEST_HS, LARGEST_HS[:-1], LARGEST_HS[:3], LARGEST_HS[:2]]:
        yield LARGEST + tail, "refused 8 at 2889"
    yield LARGEST + LARGEST_HS[:1], "refused 1 at 2889"
    yield LARGEST + hexed("48 52") + LARGEST_HS[2:], "refused 2 at 2889"


def bytes_after() -> Lines:
    for value in range(256):
        yield FIRST + bytes([value]), "refused 1 at 53"
        yield HEAD + bytes([value]), "refused 1 at 23"
    for tail in ["48 53", "48 53 01", "48 53 65", "48 53 01 01 02"]:
        yield FIRST + hexed(tail), "refused 1 at 53"
        yield HEAD + hexed(tail), "refused 1 at 23"
    for tail in ["00 00", "0D 0A", "53 48", "48 48", "54 47", "4E 50 02 01", "00 48 53 01 01 02 00"]:
        yield FIRST + hexed(tail), "refused 2 at 53"
        yield HEAD + hexed(tail), "refused 2 at 23"
    yield FIRST + HS, "places 2 transitions 1 claims 6"
    yield FIRST + FIRST, "refused 2 at 53"
    yield HEAD, "refused 9 at 23"
    yield SMALLEST[:13], "refused 9 at 13"
    yield LARGEST_HEAD, "refused 9 at 2249"


def too_long() -> Lines:
    yield LARGEST + bytes(1), "refused 1 at 2889"
    for more in [2, 3, 4, 5, 2_111, 67_111]:  # up to 5,000 and 70,000 bytes in all
        yield LARGEST + bytes(more), "refused 2 at 2889"
    for more in [2, 3, 4, 5]:
        yield LARGEST + LARGEST_HS[:more], "refused 8 at 2889"
    yield LARGEST + 3_356 * LARGEST_HS, "refused 8 at 2889"
    yield LARGEST + LARGEST, "refused 2 at 2889"
    for length in [2_889, 2_890, 5_000, 70_000]:
        yield bytes(length), "refused 2 at 0"
        yield length * b"\xff", "refused 2 at 0"
        yield hexed(NP) + (length - 4) * b"\x00", "refused 2 at 4"
        yield FIRST + bytes(length - 53), "refused 2 at 53"
    yield HEAD + 12_000 * HS, "refused 8 at 215"
    # A length that has 16 bits would take these for the sheets that they begin with.
    yield FIRST + bytes(65_536), "refused 2 at 53"
    yield LARGEST + bytes(65_536), "refused 2 at 2889"
    # A fault inside the sheet comes before what follows it.
    yield patched(LARGEST, 2_887, "89 13") + bytes(67_111), "refused 7 at 2887"


def marks() -> Lines:
    for at in FIRST_STARTS:
        first, second = FIRST[at], FIRST[at + 1]
        for wrong in range(256):
            if wrong != first:
                yield FIRST[:at] + bytes([wrong]) + FIRST[at + 1 :], f"refused 2 at {at}"
            if wrong != second:
                yield FIRST[: at + 1] + bytes([wrong]) + FIRST[at + 2 :], f"refused 2 at {at}"
    for sheet, starts in [(FIRST, FIRST_STARTS), (SMALLEST, SMALLEST_STARTS), (LARGEST, LARGEST_STARTS)]:
        for at in starts:
            yield patched(sheet, at, f"{sheet[at + 1]:02x} {sheet[at]:02x}"), f"refused 2 at {at}"
            for mark in MARKS:
                if hexed(mark) != sheet[at : at + 2]:
                    yield patched(sheet, at, mark), f"refused 2 at {at}"
    # Two bytes that are no NP, and nothing after them.
    for start in ["50 4E", "4E 4E", "4E 00", "54 52", "48 53", "6E 70", "00 00"]:
        yield hexed(start), "refused 2 at 0"


def orders_of_records() -> Lines:
    hs = "48 53 01 01 02 00"
    yield hexed(TR, NP, MK, TG, hs), "refused 2 at 0"
    yield hexed(hs, NP, TR, MK, TG), "refused 2 at 0"
    yield hexed(NP, MK, TR, TG, hs), "refused 2 at 4"
    yield hexed(NP, NP, TR, MK, TG, hs), "refused 2 at 4"
    yield hexed(NP, TG, TR, MK, hs), "refused 2 at 4"
    yield hexed(NP, hs, TR, MK, TG), "refused 2 at 4"
    yield hexed(NP, TR, TR, MK, TG, hs), "refused 2 at 10"
    yield hexed(NP, TR, TG, MK, hs), "refused 2 at 10"
    yield hexed(NP, TR, TG, hs), "refused 2 at 10"
    yield hexed(NP, TR, hs, MK, TG), "refused 2 at 10"
    yield hexed(NP, TR, MK, hs, TG), "refused 2 at 16"
    yield hexed(NP, TR, MK, MK, TG, hs), "refused 2 at 16"
    yield hexed(NP, TR, MK, hs), "refused 2 at 16"
    yield hexed(NP, TR, MK, TG, TG, hs), "refused 2 at 23"
    yield hexed(NP, TR, MK, TG, TR, hs), "refused 2 at 23"
    yield hexed(NP, TR, MK, TG, hs, TG), "refused 2 at 29"
    yield hexed(NP, TR, MK, TG, hs, NP), "refused 2 at 29"
    yield hexed(NP, TR, MK, TG, hs, MK, hs), "refused 2 at 29"


def orders_of_checks() -> Lines:
    """Two faults at once: the first "in that order" answers."""
    # The mark comes before the record's length.
    yield hexed("50 4E 02"), "refused 2 at 0"
    yield hexed(NP, "52 54 01"), "refused 2 at 4"
    yield hexed(NP, TR, MK, TG, "48 00"), "refused 2 at 23"
    # The length comes before the fields.
    yield hexed("4E 50 00"), "refused 1 at 0"
    yield hexed("4E 50 11"), "refused 1 at 0"
    yield hexed(NP, "54 52 0A 00 00"), "refused 1 at 4"
    yield hexed(NP, TR, MK, "54 47 02 00 00 01"), "refused 1 at 16"
    yield hexed(NP, TR, MK, TG, "48 53 65 01 02"), "refused 1 at 23"
    yield hexed(NP, TR, MK, TG, "48 53 01 01 89"), "refused 1 at 23"
    # The fields of a record come in their order.
    yield hexed("4E 50 00 41", TR, MK, TG), "refused 3 at 2"
    yield HEAD + hexed("48 53 01 65 89 13"), "refused 6 at 26"
    yield HEAD + hexed("48 53 9B 65 77 EC"), "refused 6 at 25"
    # A fault of an earlier record comes before one of a later record.
    yield hexed("4E 50 02 41", "52 54 01 00 00 01"), "refused 3 at 3"
    yield hexed(NP, "54 52 01 00 00 0A", "4B 4D 02 00 00 00"), "refused 4 at 9"
    yield hexed(NP, "54 52 01 00 00 0A"), "refused 4 at 9"
    yield hexed(NP, TR, "4D 4A 02 00 00 00", "54 47 02 00 00 01 00"), "refused 2 at 10"
    yield hexed(NP, TR, MK, "54 47 02 00 00 01 00", "48 53 65 01 02 00"), "refused 5 at 18"
    yield HEAD + hexed("48 53 01 01 89 13", "48 53 65 01 02 00"), "refused 7 at 27"
    yield HEAD + 31 * HS + hexed("48 53 01 01 89 13") + HS, "refused 7 at 213"
    # A zero claim comes after the length and all the fields of its record, and before all of the next.
    for cut in ["48 53", "48 53 00", "48 53 00 00", "48 53 00 00 02"]:
        yield HEAD + hexed(cut), "refused 1 at 23"
    yield HEAD + hexed("48 53 00 65 00 00"), "refused 6 at 26"
    yield HEAD + hexed("48 53 9B 00 00 00"), "refused 6 at 25"
    for constant in ["77 EC", "89 13", "00 80"]:
        yield HEAD + hexed("48 53 00 00", constant), "refused 7 at 27"
        yield patched(SMALLEST, 15, f"00 {constant}"), "refused 7 at 16"
        yield patched(LARGEST, 2_871, 16 * "00" + constant), "refused 7 at 2887"
        yield HEAD + hexed("48 53 00 00", constant) + ZERO_HS, "refused 7 at 27"
    for behind in ["00", "48", "4E 50", "48 54 01 01 02 00", "48 53", "48 53 01 01 02", "48 53 65 01 02 00", "48 53 00 00 89 13"]:
        yield HEAD + ZERO_HS + hexed(behind), "refused 18 at 23"
        yield ZERO_CLAIM + hexed(behind), "refused 18 at 29"
        yield HEAD + 31 * HS + ZERO_HS + hexed(behind), "refused 18 at 209"
    yield HEAD + 31 * HS + ZERO_HS + HS, "refused 18 at 209"
    yield HEAD + 32 * HS + ZERO_HS, "refused 8 at 215"
    yield HEAD + hexed("48 53 01 01 89 13") + ZERO_HS, "refused 7 at 27"
    yield hexed(NP, TR, MK, "54 47 02 00 00 01 00") + ZERO_HS, "refused 5 at 18"
    # Kind comes before 9, and 9 asks for no byte at all after TG.
    yield hexed(NP, TR, MK, "54 47 02 00 00 01 00"), "refused 5 at 18"
    yield hexed(NP, TR, MK, TG), "refused 9 at 23"
    yield hexed(NP, TR, MK, TG, "48"), "refused 1 at 23"
