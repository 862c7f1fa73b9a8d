"""docs/PROMISES.md and the must-fail edits tell the same: every edit is named there, as its crate's, and no name there has gone.

    python3 tests/promises_checks.py

The page names edits as "CRATE `label`, `label`" or as "`label`, `label` of CRATE". A label with no crate beside it is one of the crate
in its table's heading ("edits of CRATE"), or else of the one that its section is about ("crate `CRATE`", "call of `CRATE`"), or else
it must be the label of one edit only.
"""

import sys

sys.dont_write_bytecode = True  # before the imports of our own modules, which would leave __pycache__ behind

import re
from collections.abc import Iterator
from typing import NamedTuple

from checks import Checks, run_checks
from programs import ROOT

NAME = re.compile(r"`([a-z0-9]+(?:_[a-z0-9]+)+)`")
PART = re.compile(r"^(?=## )", re.MULTILINE)
TABLE = re.compile(r"(?:^\|.*\n)+", re.MULTILINE)


class Edit(NamedTuple):
    crate: str
    label: str


def check_promises(checks: Checks) -> None:
    text = (ROOT / "docs" / "PROMISES.md").read_text()
    edits = {Edit(path.parts[-3], path.stem) for path in ROOT.glob("crates/*/must-fail/*.edit")}
    labels = {edit.label for edit in edits}
    checks.at_least("edits", 100, len(edits))
    named = set(named_edits(text, edits))
    checks.equal("edits that docs/PROMISES.md does not name as their crate's", b"", [], sorted(edits - named))
    checks.equal("edits that docs/PROMISES.md names and that are not there", b"", [], sorted(named - edits))
    gone = set(NAME.findall(text)) - labels - words_of_code()
    checks.equal("names in docs/PROMISES.md that are neither an edit nor code", b"", [], sorted(gone))


def named_edits(text: str, edits: set[Edit]) -> Iterator[Edit]:
    """Every edit that the text names. One that may be any of several crates' gets all their names for its crate, and so is none."""
    crate = "|".join(path.name for path in ROOT.glob("crates/*"))
    about = re.compile(rf"(?:[Cc]rate|call of) `({crate})`")
    heading = re.compile(rf"edits? of ({crate})\b")
    crates: dict[str, list[str]] = {}
    for edit in sorted(edits):
        crates.setdefault(edit.label, []).append(edit.crate)
    for part in PART.split(text):
        subject = about.search(part)
        for piece, table in pieces(part):
            owner = heading.search(piece.split("\n")[0]) if table else None
            for owners, label in labels_in(piece, crate):
                default = (owner or subject)[1] if owner or subject else " or ".join(crates.get(label, []))
                yield from (Edit(name, label) for name in owners or [default] if label in crates)


def pieces(part: str) -> Iterator[tuple[str, bool]]:
    """The tables of a part, and what stands between them; and which of the two each is."""
    at = 0
    for table in TABLE.finditer(part):
        yield part[at : table.start()], False
        yield table[0], True
        at = table.end()
    yield part[at:], False


def labels_in(piece: str, crate: str) -> Iterator[tuple[list[str], str]]:
    """Each label with the crates that stand before its list or after it, if any do."""
    link, name = r"(?:,\s+|\s+and\s+)", NAME.pattern.replace("(", "(?:", 1)
    before, after = rf"(?:\b((?:{crate})(?:{link}(?:{crate}))*)\s+)?", rf"(?:\s+of\s+({crate})\b)?"
    for owners, names, owner in re.findall(rf"{before}({name}(?:{link}{name})*){after}", piece):
        crates = [word for word in re.findall(r"\w+", owners or owner) if word != "and"]
        yield from ((crates, label) for label in NAME.findall(names))


def words_of_code() -> set[str]:
    """Of the functions, and of the definitions and laws, which are spelled as functions are."""
    lower = [path for part in ("specs", "proofs") for path in ROOT.glob(f"crates/*/{part}/*.antt")]
    files = [*ROOT.glob("crates/*/src/*.rt"), *lower, ROOT / "include" / "krunvedo.h"]
    return {word for path in files for word in re.findall(r"\w+", path.read_text())}


if __name__ == "__main__":
    sys.exit(run_checks(check_promises))
