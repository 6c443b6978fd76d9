"""The words that all kinds of tests share: a file of cases, what it came to, and the names that cases use."""
import pathlib
import re
from typing import Callable, NamedTuple

TESTS = pathlib.Path(__file__).resolve().parent.parent


class Result(NamedTuple):
    """What one case came to: the first difference, or None where it passed."""

    case: str
    difference: str | None


class File(NamedTuple):
    """A file of cases, by its name below tests/. `run` takes the built programs, by name, and gives a result for each case."""

    name: str
    run: Callable[[dict], list]


class Unreadable(Exception):
    """A file of cases is not of the form."""


def name_of(path):
    return str(path.relative_to(TESTS))


# A name in braces, or a text or a name so many times: {first}, {x*4096}. {update#0..999} is the text or the name for each of
# these numbers, which stands for each # in it.
NAMED = re.compile(r"\{([^{}*]+?)(?:\*([0-9]+)|#([0-9]+)\.\.([0-9]+))?\}")
ESCAPED = re.compile(r"\\(?:x([0-9a-f]{2})|([nrt\\]))")


class Names:
    """What stands for what in the cases of a file: lines `let NAME = TEXT`, each of which may use those before it."""

    def __init__(self, above=None):
        self.meanings = dict(above.meanings) if above else {}

    def take(self, line):
        """Takes a line `let NAME = TEXT`, and says whether it is one."""
        found = re.fullmatch(r"let ([A-Za-z0-9_-]+) = (.*)", line)
        if found:
            self.meanings[found[1]] = self.spell(found[2])
        return bool(found)

    def spell(self, text):
        """The text with the meanings of its names. A brace that is meant is written \\x7b or \\x7d."""

        def meaning(found):
            word, count, start, end = found.groups()
            if word not in self.meanings and count is None and start is None:
                raise Unreadable(f"there is no name {word}")
            text = self.meanings.get(word, word)
            if start is not None:
                return "".join(text.replace("#", str(number)) for number in range(int(start), int(end) + 1))
            return text * int(count or 1)

        return NAMED.sub(meaning, text)


def bytes_of(text):
    r"""The bytes of a text in which \n, \r, \t, \\ and \xHH stand for what they stand for in Rust."""
    parts, at = [], 0
    for found in ESCAPED.finditer(text):
        parts.append(text[at : found.start()].encode())
        parts.append(bytes([int(found[1], 16)]) if found[1] else {"n": b"\n", "r": b"\r", "t": b"\t", "\\": b"\\"}[found[2]])
        at = found.end()
    rest = text[at:]
    if "\\" in re.sub(ESCAPED, "", text):
        raise Unreadable(f"a backslash begins no escape in: {text[:60]}")
    return b"".join([*parts, rest.encode()])


def cut(text, most=300):
    return text if len(text) <= most else f"{text[:most]}.. ({len(text)} characters)"


def difference(wanted, got):
    """Tells two texts that differ, from a little before the first difference where they are long; None where they are the same."""
    if wanted == got:
        return None
    at = next((i for i, (one, other) in enumerate(zip(wanted, got)) if one != other), min(len(wanted), len(got)))
    begin = max(0, at - 60)
    lead = f"from character {begin}: " if begin else ""
    return f"    wanted {lead}{cut(wanted[begin:])}\n    got    {lead}{cut(got[begin:])}"
