"""Scripts: what `mapd replay` is to write for a script, and `mapd` for other words.

A file has cases, each begun by a line `== what it shows`, and each a run of its own. What stands above the first begins them
all. A line

    @MOMENT CLIENT REQUEST

is a request of a client, which goes into the usual envelope: its prefixes are n1 for SOAP, n2 for IF-MAP, n3 for its metadata.
`@@` in place of `@` puts a body as it stands. Without a moment it is that of the line before, and 1000000000 at the beginning.
CLIENT/RANDOM has the last digits of the random word, which else is 1. A line that begins with `|` goes on with the body on a
new line. `raw TEXT` puts bytes into the script that are no frame of this form. Below each, four spaces further in, is what is due:

    RESULT              the element of a result; `n3=SPACE n4=SPACE` before it where it has other namespaces than the metadata's
    !CODE               the code of a refusal, which is its note too
    held, unreadable    these words
    !OFFSET             no frame begins there, and the status is 3

`words WORDS` gives mapd other words than `replay`, and what is due are the lines that it writes. `status NUMBER` is the status
that is due where it is neither 0 nor that of an offset. `let NAME = TEXT` and `{NAME}` are as in rows; the file `names` is for
all. A line that begins with `#` is for the reader."""
import re
from typing import NamedTuple

from runner.cases import TESTS, File, Names, Result, Unreadable, bytes_of, cut, difference, name_of

PROGRAMS = ("mapd",)
IS_RUN_UNPROVED = True
FOLDER = TESTS / "scripts"

SOAP = b"http://www.w3.org/2003/05/soap-envelope"
IFMAP = b"http://www.trustedcomputinggroup.org/2010/IFMAP/2"
METADATA = b"http://www.trustedcomputinggroup.org/2010/IFMAP-METADATA/2"
START = b'<n1:Envelope xmlns:n1="%s" xmlns:n2="%s"' % (SOAP, IFMAP)
END = b"</n1:Body></n1:Envelope>"

FRAME = re.compile(r"(@@?)([0-9]*) ([A-Za-z0-9._-]+)(?:/([0-9a-f]{1,32}))?(?: (.*))?", re.DOTALL)
SPACE = re.compile(rb"(n[0-9]+)=([^ <]+) ")
REPLY = re.compile(rb"=([0-9]{1,9})\n")


class Step(NamedTuple):
    """Bytes that are put to mapd and what is due for them: what a reader is shown, the bytes, and the bytes that are due."""

    number: int
    shown: str
    asked: bytes
    due: bytes


class Case(NamedTuple):
    """A run: the words of mapd, the steps, and the status that is due."""

    name: str
    words: list
    steps: list
    status: int


def files():
    return [File(name_of(it), lambda programs, it=it: run(it, programs["mapd"])) for it in sorted(FOLDER.rglob("*.script"))]


def names_for_all():
    names = Names()
    for line in (FOLDER / "names").read_text(encoding="utf-8").split("\n"):
        if line and not line.startswith("#") and not names.take(line):
            raise Unreadable(f"scripts/names: {cut(line)}")
    return names


def declared(prefix, space):
    return b' xmlns:%s="%s"' % (prefix, space)


def reply_of(result):
    """A reply with this result, whose length stands before it. It declares the prefixes that stand before the result."""
    spaces = []
    while found := SPACE.match(result):
        spaces.append(declared(found[1], found[2]))
        result = result[found.end() :]
    if not spaces and b"n3:" in result:
        spaces.append(declared(b"n3", METADATA))
    reply = b"%s%s><n1:Body><n2:response>%s</n2:response>%s" % (START, b"".join(spaces), result, END)
    return b"=%d\n%s" % (len(reply), reply)


def output_of(due):
    """What is written where this is due, as a line of a case tells it."""
    if due in (b"held", b"unreadable") or re.fullmatch(rb"![0-9]+", due):
        return due + b"\n"
    if due.startswith(b"!"):
        return reply_of(b'<errorResult errorCode="%s"><errorString>%s</errorString></errorResult>' % (due[1:], due[1:]))
    return reply_of(due)


class Reader:
    """The cases of a file, read line by line."""

    def __init__(self, path):
        self.path, self.names, self.cases = path, names_for_all(), []
        self.opening, self.moment = [], "1000000000"
        self.begin("", 0)
        for number, line in enumerate(path.read_text(encoding="utf-8").split("\n"), 1):
            self.take(number, line)
        self.end_case()

    def begin(self, title, number):
        self.title, self.line, self.words, self.status = title, number, ["replay"], 0
        self.steps, self.asked, self.due = list(self.opening), None, []

    def fault(self, number, told):
        return Unreadable(f"{name_of(self.path)}:{number}: {told}")

    def take(self, number, line):
        if line.startswith("    "):
            self.due.append(line[4:])
        elif line.startswith("|") and self.asked and not self.due:
            self.asked = self.asked[0], f"{self.asked[1]}\n{line[1:]}"
        elif line.startswith(("@", "raw ", "words ")) or line == "words":
            self.end_step()
            self.asked = number, line
        elif line.startswith("status "):
            self.status = int(line[7:])
        elif line.startswith("== "):
            self.end_case()
            self.begin(line[3:], number)
        elif line and not line.startswith("#") and not self.names.take(line):
            raise self.fault(number, "a line of no known form")

    def end_step(self):
        if self.asked:
            self.steps.append(self.step_of(*self.asked, [bytes_of(self.names.spell(it)) for it in self.due]))
        elif self.due:
            raise self.fault(self.line, "something is due with nothing asked")
        self.asked, self.due = None, []

    def step_of(self, number, text, due):
        shown, text = text, self.names.spell(text)
        if text.startswith("words"):
            self.words = text.split(" ")[1:]
            return Step(number, shown, b"", b"".join(it + b"\n" for it in due))
        if due and re.fullmatch(rb"![0-9]+", due[-1]):
            self.status = 3
        if text.startswith("@") and len(due) != 1:
            raise self.fault(number, "a request has one answer")
        asked = bytes_of(text[4:]) if text.startswith("raw ") else self.frame_of(number, text)
        return Step(number, shown, asked, b"".join(map(output_of, due)))

    def frame_of(self, number, text):
        found = FRAME.fullmatch(text)
        if not found:
            raise self.fault(number, "no request of the form @MOMENT CLIENT REQUEST")
        self.moment = found[2] or self.moment
        body = bytes_of(found[5] or "")
        if found[1] == "@":
            body = START + declared(b"n3", METADATA) + b"><n1:Body>" + body + END
        return f"@{self.moment} {found[3]} {(found[4] or '1').zfill(32)} {len(body)}\n".encode() + body

    def end_case(self):
        self.end_step()
        if not self.title:
            self.opening, self.opened = self.steps, self.moment
        else:
            name = f"{name_of(self.path)}:{self.line} {self.title}"
            self.cases.append(Case(name, self.words, self.steps, self.status))
        self.moment = self.opened


def frame_at(output, at):
    """What is written at a place, up to the end of its reply or line."""
    found = REPLY.match(output, at)
    if found:
        return output[at : found.end() + int(found[1])]
    return output[at : output.find(b"\n", at) + 1 or len(output)]


def shown_text(output):
    return output.decode(errors="backslashreplace").replace("\n", "\\n")


def output_difference(case, output):
    """The first step for which something else is written, or None."""
    at = 0
    for step in case.steps:
        if not output.startswith(step.due, at):
            got = max(frame_at(output, at), output[at : at + len(step.due)], key=len)
            return f"    line {step.number}: {cut(step.shown)}\n{difference(shown_text(step.due), shown_text(got))}"
        at += len(step.due)
    return f"    more is written: {cut(shown_text(output[at:]))}" if at < len(output) else None


def result_of(case, mapd):
    ran = mapd.run(case.words, b"".join(step.asked for step in case.steps))
    told = output_difference(case, ran.output)
    if ran.status != case.status:
        came = f"    wanted status {case.status}\n    got    status {'none: it did not end' if ran.status is None else ran.status}"
        told = told or came
    return Result(case.name, told)


def run(path, mapd):
    return [result_of(case, mapd) for case in Reader(path).cases]
