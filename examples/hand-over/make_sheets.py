"""Writes a hand-over as two sheets, as it was and as it was mended. Document 01 says what each byte means.

    python3 examples/hand-over/make_sheets.py [FOLDER]

The sheets go into FOLDER, which is target/examples where none is named. The README walks through them.
"""

import struct
import sys
from pathlib import Path

ROOT = Path(__file__).resolve().parent.parent.parent

# Places, transitions and claims are numbered from 1 in the order in which they stand here.
PLACES = {
    "stored": "designs in their slots, named by the index",
    "emptied": "slots whose design was deleted; the index still names them",
    "stale": "slots with new artwork; the index still names them as the old design",
    "waiting": "the rebuild worker, while it waits",
    "rebuilding": "the rebuild worker, while it works",
    "desks": "free desks in the showroom; a query holds one while it is open",
    "open": "open queries",
    "served": "queries served; the old hand-over takes nine of them for each slot",
    "wrong": "queries that opened a stale slot: the wrong cloth",
}

# Each transition with the tokens that it takes and those that it puts.
AS_IT_WAS = {
    "delete a design": ({"stored": 1}, {"emptied": 1}),
    # After nine more queries, and with a desk free, it was thought that nobody looks at the old design any more.
    "give its slot to new artwork": ({"emptied": 1, "desks": 1, "served": 9}, {"stale": 1, "desks": 1}),
    "start the rebuild": ({"waiting": 1}, {"rebuilding": 1}),
    "name the new artwork": ({"rebuilding": 1, "stale": 1}, {"rebuilding": 1, "stored": 1}),
    "finish the rebuild": ({"rebuilding": 1}, {"waiting": 1}),
    "open a query": ({"desks": 1}, {"open": 1}),
    "serve it": ({"open": 1, "stored": 1}, {"desks": 1, "stored": 1, "served": 1}),
    "find its slot empty": ({"open": 1, "emptied": 1}, {"desks": 1, "emptied": 1}),
    "open a stale slot": ({"open": 1, "stale": 1}, {"desks": 1, "stale": 1, "wrong": 1}),
}

# A slot is given away only with both desks in hand. They come back once the index names the new artwork.
MENDED = AS_IT_WAS | {
    "give its slot to new artwork": ({"emptied": 1, "desks": 2}, {"stale": 1}),
    "name the new artwork": ({"rebuilding": 1, "stale": 1}, {"rebuilding": 1, "stored": 1, "desks": 2}),
}

START = {"stored": 400, "waiting": 1, "desks": 2}
TARGET = {"wrong": 1}
AT_OR_ABOVE = 1  # the target's kind

# Each claim as weights and a limit: the tokens, times their weights, never come to more than the limit. A half space
# says "at least", so on the sheet each weight and the limit get the other sign.
CLAIMS = {
    "no room for a query beside a stale slot": ({"desks": 1, "open": 1, "stale": 2, "wrong": 3}, 2),
    "the same, and few emptied slots": ({"desks": 33, "open": 33, "stale": 66, "wrong": 99, "emptied": 1}, 98),
    "never a stale slot": ({"stale": 1, "wrong": 1}, 0),
    "the first claim 33 times": ({"desks": 33, "open": 33, "stale": 66, "wrong": 99}, 66),
    "the first claim with too low a limit": ({"desks": 1, "open": 1, "stale": 2, "wrong": 3}, 1),
    "the first claim without the wrong cloth": ({"desks": 1, "open": 1, "stale": 2}, 2),
}


def sheet(transitions: dict) -> bytes:
    """The records in document 01's order, each with its mark: NP, TR, MK, TG, HS."""
    n = len(PLACES)
    records = [b"NP" + bytes([n, len(transitions)])]
    for taken, put in transitions.values():
        records.append(b"TR" + bytes(by_place(taken) + by_place(put)))
    records.append(b"MK" + struct.pack(f"<{n}H", *by_place(START)))
    records.append(b"TG" + struct.pack(f"<B{n}H", AT_OR_ABOVE, *by_place(TARGET)))
    for weights, limit in CLAIMS.values():
        coefficients = [-weight for weight in by_place(weights)]
        records.append(b"HS" + struct.pack(f"<{n}bh", *coefficients, -limit))
    return b"".join(records)


def by_place(numbers: dict[str, int]) -> list[int]:
    """One number for each place, 0 where none is given."""
    unknown = numbers.keys() - PLACES.keys()
    if unknown:
        raise ValueError(f"no such place: {', '.join(unknown)}")
    return [numbers.get(place, 0) for place in PLACES]


def main() -> None:
    folder = Path(sys.argv[1]) if len(sys.argv) > 1 else ROOT / "target" / "examples"
    folder.mkdir(parents=True, exist_ok=True)
    (folder / "as-it-was.sheet").write_bytes(sheet(AS_IT_WAS))
    (folder / "mended.sheet").write_bytes(sheet(MENDED))


if __name__ == "__main__":
    main()
