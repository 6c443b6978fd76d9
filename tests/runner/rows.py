"""Rows: a line for the program `probe`, which names a layer and what is put to it, and below it, four spaces further in, the line
that is due. Lines between cases that begin with `#` are for the reader, and `let NAME = TEXT` names a text that repeats."""
from runner.cases import TESTS, File, Names, Result, Unreadable, difference, name_of

PROGRAMS = ("probe",)
IS_RUN_UNPROVED = True


def files():
    return [File(name_of(it), lambda programs, it=it: run(it, programs["probe"])) for it in sorted((TESTS / "rows").rglob("*.rows"))]


def rows_of(path):
    """The rows of a file: each the number of its line, what is asked and what is due."""
    names, rows, asked = Names(), [], None
    for number, line in enumerate(path.read_text(encoding="utf-8").split("\n"), 1):
        if line.startswith("    "):
            if asked is None:
                raise Unreadable(f"{name_of(path)}:{number}: an answer with nothing asked")
            rows.append((asked[0], asked[1], names.spell(line[4:])))
            asked = None
        elif asked is not None:
            raise Unreadable(f"{name_of(path)}:{asked[0]}: nothing is due below it")
        elif line and not line.startswith("#") and not names.take(line):
            asked = number, names.spell(line)
    if asked is not None:
        raise Unreadable(f"{name_of(path)}:{asked[0]}: nothing is due below it")
    return rows


def run(path, probe):
    rows = rows_of(path)
    ran = probe.run([], "".join(f"{line}\n" for _, line, _ in rows).encode())
    got = ran.output.decode(errors="replace").split("\n")
    if ran.status != 0 or len(got) != len(rows) + 1:
        told = f"    probe ended with status {ran.status} after {len(got) - 1} of {len(rows)} rows"
        return [Result(f"{name_of(path)}", told)]
    return [Result(f"{name_of(path)}:{number}", difference(due, answer)) for (number, _, due), answer in zip(rows, got)]
