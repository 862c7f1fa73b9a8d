"""Every file stands where one of its kind is expected, and crates.txt lists every crate: nothing else in the gate sees a stray file.

    python3 tests/files_checks.py

The files are those that git knows, so that drafts may lie about while one works. Where there is no git, or the folder is no repository,
they are all that are there but for what .gitignore leaves out.
"""

import sys

sys.dont_write_bytecode = True  # before the imports of our own modules, which would leave __pycache__ behind

import re
import subprocess
from pathlib import Path

from checks import Checks, run_checks
from programs import ROOT

NAME = r"[\w.+-]+"  # a folder of proofs opens with a plus where a function calls itself
CRATE = r"crates/[a-z0-9_]+"
EXPECTED = [
    rf"{CRATE}/src/{NAME}\.rt",
    rf"{CRATE}/specs/{NAME}\.antt",
    rf"{CRATE}/proofs/(?:{NAME}/)*{NAME}\.antt",
    rf"{CRATE}/must-fail/{NAME}\.edit",
    rf"{CRATE}/(?:stdin|stdout|args|data/{NAME})",
    rf"docs/(?:changes/)?{NAME}\.md",
    rf"drafts/{NAME}\.txt",
    rf"(?:tests|bench|examples)/(?:{NAME}/)*{NAME}",
    rf"(?:include|scripts|tools)/{NAME}",
    r"README\.md|crates\.txt|judge|test|\.ci/run|\.gitignore",
]
IGNORED = {".git", "target", "__pycache__"}  # with git's own folder, what .gitignore leaves out

LEAST_FILES = 400  # fewer are a list that went wrong


def check_files(checks: Checks) -> None:
    known = files_of_git(ROOT)
    files = known or files_there(ROOT)
    print(f"files: {len(files)} that {'git knows' if known else 'are there, since git knows none'}")
    checks.at_least("files", LEAST_FILES, len(files))
    checks.equal("files at no place where one is expected", b"", [], strays(files))
    checks.equal("files of the tests and measures that no other file names", b"", [], unnamed(files))
    crates = {file.split("/")[1] for file in files if file.startswith("crates/")}
    listed = {re.split("[ :]", line)[0] for line in (ROOT / "crates.txt").read_text().splitlines() if not line.startswith("#")}
    checks.equal("crates that crates.txt does not list", b"", [], sorted(crates - listed))
    checks.equal("crates of crates.txt that are not there", b"", [], sorted(listed - crates))


def files_of_git(root: Path) -> list[str]:
    """None where git can't be run or doesn't know the folder."""
    try:
        listed = subprocess.run(["git", "-C", root, "ls-files", "-z"], capture_output=True)
    except FileNotFoundError:
        return []
    return [name for name in listed.stdout.decode().split("\0") if name]


def files_there(root: Path) -> list[str]:
    # crates/records has a folder of proofs that is named target: only the one at the root is built.
    paths = (path.relative_to(root) for path in root.rglob("*") if path.is_file())
    return sorted(str(path) for path in paths if path.parts[0] not in IGNORED and not {"out", "__pycache__"}.intersection(path.parts))


def strays(files: list[str]) -> list[str]:
    expected = re.compile("|".join(f"(?:{place})" for place in EXPECTED))
    return [file for file in files if not expected.fullmatch(file)]


def unnamed(files: list[str]) -> list[str]:
    """Below tests/ and the like a file may have any name, so it counts as a stray where nothing uses or mentions it."""
    open_names = [file for file in files if re.match(r"(?:tests|bench|examples|include|scripts|tools)/", file)]
    texts = {file: (ROOT / file).read_text("utf-8", "replace") for file in files}

    def named(file: str) -> bool:
        name = re.compile(rf"(?<![\w-]){re.escape(Path(file).stem)}(?![\w-])")
        return any(name.search(text) for other, text in texts.items() if other != file)

    return [file for file in open_names if not named(file)]


if __name__ == "__main__":
    sys.exit(run_checks(check_files))
