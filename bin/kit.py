"""What the tools of the gate take of the kit. `rt` keeps on this machine what `rt ci` proved, by checksums of all that was read,
and offers no command that hands it out again: so its own code is asked, which its program file holds. Written against
rattle-kit-13f; the kit is found by `rt`, wherever that stands."""
import contextlib
import importlib.machinery
import importlib.util
import os
import pathlib
import shutil
import sys
import tempfile

TOP = pathlib.Path(__file__).resolve().parent.parent


def load():
    """Returns the program `rt` as a module, set as `rt ci` sets itself: what it kept has names that count that."""
    program = shutil.which("rt")
    if not program:
        sys.exit("there is no program rt: install the kit, whose folder bin/ has it")
    loader = importlib.machinery.SourceFileLoader("rt", os.path.realpath(program))
    rt = importlib.util.module_from_spec(importlib.util.spec_from_loader("rt", loader))
    loader.exec_module(rt)
    rt.Crate.cuts_libraries = True
    # (its first call sets a signal's handler, which only the main thread may)
    rt.rtlib.guarded()
    return rt


@contextlib.contextmanager
def copy_of_crates(rt):
    """Gives the crates, lowest first, of a copy of them that goes again: nothing is written into the repository."""
    with tempfile.TemporaryDirectory(prefix="mapd-gate-") as room:
        copy = f"{room}/repository"
        rt.copy_crates(str(TOP), copy)
        # (the crates of a repository are asked for, and its top is where this folder stands)
        os.mkdir(f"{copy}/.git")
        rt.Crate.allowed = rt.handles_of(copy)
        yield rt.crates_of(copy)


def take_built(crate):
    """Gives a crate of the copy what `rt ci` built of it in this checkout, for where it could keep nothing; returns whether there
    is something that is newer than its sources. (`rt check` leaves a stamp beside its libraries, which fit no others.)"""
    at = TOP / "crates" / crate.name
    made = f"out/{crate.name}" if crate.is_program else f"out/rlib/{crate.name}.rlib"
    told = at / made if crate.is_program else at / made / "format"
    if not told.is_file() or (at / "out" / "rlib" / "stamp").exists():
        return False
    sources = [TOP / "crates.txt", *(it for part in ("src", "specs", "proofs") for it in (at / part).rglob("*"))]
    if any(it.stat().st_mtime > told.stat().st_mtime for it in sources):
        return False
    os.makedirs(os.path.dirname(f"{crate.folder}/{made}"), exist_ok=True)
    (shutil.copy2 if crate.is_program else shutil.copytree)(at / made, f"{crate.folder}/{made}")
    return True


def give_kept(rt, crates):
    """Gives each crate what `rt ci` proved of the same text, a library or a program, and returns those that lack it, by name."""
    kept, lacking = rt.Kept(crates), set()
    for crate in crates:
        if any(below.name in lacking for below in crate.below()):
            lacking.add(crate.name)
        elif kept.give(crate, False, kept.key(crate)) or take_built(crate):
            kept.is_built(crate)
        else:
            lacking.add(crate.name)
    return lacking
