"""Starts the project's programs and those of tests/c, and says how they ended."""

import os
import subprocess
import time
from collections.abc import Iterable, Sequence
from functools import cache
from pathlib import Path
from signal import SIGKILL
from threading import Timer

ROOT = Path(__file__).resolve().parent.parent
TIME_LIMIT = 5  # seconds for one sheet, which needs some hundredths of one
START_TIME = 0.15  # seconds after which a program surely reads

COMPILER = "gcc"
ARCHIVES = ROOT / "target" / "staticlib"
BUILT = ROOT / "target" / "tests"
STRICT_C = ["-std=c11", "-pedantic", "-Wall", "-Wextra", "-Werror", "-O2"]


def command(name: str) -> list[str]:
    """The words that start a program, which `scripts/program` built."""
    return [str(ROOT / "crates" / name / "out" / name)]


@cache
def c_program(name: str) -> list[str]:
    """The words that start tests/c/NAME.c, which is built with the library first."""
    source, archive, program = ROOT / "tests" / "c" / f"{name}.c", ARCHIVES / "libkrunvedo.a", BUILT / name
    draft = BUILT / f"{name}.{os.getpid()}"  # another process may build it at the same time
    BUILT.mkdir(parents=True, exist_ok=True)
    build([COMPILER, *STRICT_C, f"-I{ROOT / 'include'}", source, archive, "-o", draft])
    draft.replace(program)
    return [str(program)]


class NotBuilt(Exception):
    pass


def build(line: Sequence[str | Path]) -> None:
    """A warning counts as a failure."""
    made = subprocess.run(list(map(str, line)), capture_output=True, text=True)
    if made.returncode or made.stderr:
        raise NotBuilt(f"{line[0]} ended with status {made.returncode}:\n{made.stderr}")


def run(name: str, time_limit: float = TIME_LIMIT, **standard_input) -> str:
    return output_of(command(name), time_limit, **standard_input)


def output_of(line: list[str], time_limit: float, **standard_input) -> str:
    """Standard output, with a word on an end that isn't the program's own."""
    ended = finished(line, time_limit, stdout=subprocess.PIPE, **standard_input)
    return with_end(ended.stdout, ended.returncode)


def finished(line: list[str], time_limit: float = TIME_LIMIT, **streams) -> subprocess.CompletedProcess:
    """How the command ended; one that takes too long is killed, and that is then its end."""
    try:
        return subprocess.run(line, timeout=time_limit, **streams)
    except subprocess.TimeoutExpired as late:
        return subprocess.CompletedProcess(line, -SIGKILL, late.stdout or b"", late.stderr or b"")


def with_end(output: bytes, status: int) -> str:
    """The programs have no exit status to set, so any but 0 means a signal or that the program didn't start."""
    text = output.decode("ascii", "backslashreplace")
    return text if status == 0 else text + f"(ended with status {status})"


def run_in_pieces(name: str, pieces: Iterable[bytes], pause: float) -> str:
    """As run, but standard input is a pipe that gets the pieces one by one, once the program waits for them."""
    pipe = subprocess.PIPE
    with subprocess.Popen(command(name), stdin=pipe, stdout=pipe, bufsize=0) as process:
        killer = Timer(TIME_LIMIT, process.kill)
        killer.start()
        time.sleep(START_TIME)
        try:
            for piece in pieces:
                process.stdin.write(piece)
                time.sleep(pause)
        except BrokenPipeError:
            pass  # the program may answer once it has read enough
        process.stdin.close()
        output = process.stdout.read()
        status = process.wait()
        killer.cancel()
    return with_end(output, status)
