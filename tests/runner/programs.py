"""The programs that cases are put to: as they were built, or compiled with no proof by `rt try`."""
import pathlib
import re
import subprocess
import sys
import tempfile
from typing import NamedTuple

from runner.cases import TESTS

SECONDS = 120


class Ran(NamedTuple):
    """What a run came to: its status, none where it did not end in time, and what it wrote."""

    status: int | None
    output: bytes


class Built:
    """A program that `rt ci` or `bin/build` built."""

    def __init__(self, name):
        self.path = str(TESTS.parent / "crates" / name / "out" / name)
        if not pathlib.Path(self.path).is_file():
            sys.exit(f"tests/run: {name} is not built: bin/build {name}")

    def run(self, words, asked):
        try:
            ran = subprocess.run([self.path, *words], input=asked, capture_output=True, check=False, timeout=SECONDS)
        except subprocess.TimeoutExpired:
            return Ran(None, b"")
        return Ran(ran.returncode, ran.stdout)


class Unproved:
    """A program that `rt try` compiles once for all that it is asked: what is asked is noted first, and told when it was run."""

    def __init__(self, name):
        self.name, self.asked, self.ran = name, [], {}

    def run(self, words, asked):
        key = (tuple(words), asked)
        self.asked.append(key)
        return self.ran.get(key, Ran(None, b""))

    def run_all(self):
        asked = [*dict.fromkeys(self.asked)]
        with tempfile.TemporaryDirectory() as room:
            for number, (words, given) in enumerate(asked):
                pathlib.Path(room, f"case{number}").write_bytes(given)
                pathlib.Path(room, f"case{number}.args").write_text("".join(f"{word}\n" for word in words))
            # (the program runs in an interpreter as well: with few steps that gives up at once)
            command = ["rt", "try", "--steps", "1000", "--seconds", str(SECONDS), "--cases", room]
            where = TESTS.parent / "crates" / self.name
            ran = subprocess.run(command, cwd=where, stdin=subprocess.DEVNULL, capture_output=True, check=False)
        told = dict(re.findall(rb"^case=case([0-9]+) run=ended status=([0-9]+)", ran.stderr, re.MULTILINE))
        if not told:
            sys.exit(f"tests/run: {self.name} was not run:\n{ran.stderr.decode(errors='replace')}")
        parts = re.split(rb"^== case([0-9]+)\n", ran.stdout, flags=re.MULTILINE)
        for number, output in zip(parts[1::2], parts[2::2]):
            if number in told:
                # (rt may add an empty line, which none of our programs ends with)
                output = output[:-1] if output.endswith(b"\n\n") else output
                self.ran[asked[int(number)]] = Ran(int(told[number]), output)
