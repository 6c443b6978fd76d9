r"""Scripts of clients beside a server: `mapc`, plain sockets, and `mapd serve` at a free port of this machine.

A case begins with `== what it shows`. In it a line names who is at hand, and those below say what that one is given and is due:

    client NAME            a `mapc ADDRESS NAME` at the case's server, whose input stays open
    socket NAME            a connection to that server
    listen                 there is no server: the runner listens, and what a client asks comes to `first` and `second`, the two
    first                  connections that it makes
    run PROGRAM WORDS      a program with these words
    > TEXT                 a line of input, or bytes for a connection;  >- TEXT is a last line that lacks its newline
    >= BODY  >@ NAME BODY  an answer with that body, and a post of that client with that body
        TEXT               a line that is printed, or a message that comes
        = BODY             a reply as mapc prints it, `=SIZE` and the body (=SIZE BODY says the size too), or an answer with it
        =close BODY        an answer with that body that closes the connection
        @ NAME BODY        a post as mapc sends it, with that body
    ends STATUS TOLD       the input ends, and the program ends with this status and this line on standard error
    ends                   the other end has closed the connection
    shut  close            the connection ends to one side, and to both

A line comes when what is due for the one before it has come, so clients that are named in turn run beside each other. What is not
said to end ends with status 0 and tells nothing; all that comes is due, to the byte. [random] is the random part of a session: it
is bound where it is first due, as are [random2] and so on. [now] is a moment of the case. {nowhere} is an address where nothing
listens, and {address} that where the runner does.
"""
import re
import select
import shlex
import socket
import subprocess
import time

from runner.cases import TESTS, File, Names, Result, Unreadable, bytes_of, difference, name_of

PROGRAMS = ("mapd", "mapc")
IS_RUN_UNPROVED = False
# How long a line or a message may take to come, in seconds, and how many connections a server serves beside each other.
PATIENCE, WORKERS = 20, 8
MARK = re.compile(rb"\[(random[0-9]*|now)\]")
RANDOM = rb"[0-9a-f]{8}-[0-9a-f]{4}-[0-9a-f]{4}-[0-9a-f]{4}-[0-9a-f]{12}"
SAMPLES = {b"random": b"0" * 36, b"now": b"2" * 20}


def files():
    return [File(name_of(it), lambda programs, it=it: run(it, programs)) for it in sorted((TESTS / "clients").glob("*.clients"))]


class Wrong(Exception):
    """What came is not what is due."""


class Marks:
    """What the marks of a case stand for, so far."""

    def __init__(self):
        self.bound, self.begin = {}, int(time.time())

    def fill(self, text):
        """The bytes with the marks that are bound, each by what it stands for."""
        return MARK.sub(lambda found: self.bound.get(found[1], found[0]), text)

    def size(self, text):
        """How many bytes they are, once all marks are bound."""
        return len(MARK.sub(lambda found: SAMPLES[found[1].rstrip(b"0123456789")], self.fill(text)))

    def compare(self, due, got):
        """Whether these bytes are what is due, and binds what they bind."""
        due, at, pattern, names = self.fill(due), 0, b"", []
        for found in MARK.finditer(due):
            names.append(found[1])
            one = rb"[-0-9]{10}T[:0-9]{8}Z" if found[1] == b"now" else RANDOM
            pattern, at = pattern + re.escape(due[at : found.start()]) + b"(" + one + b")", found.end()
        matched = re.fullmatch(pattern + re.escape(due[at:]), got, re.DOTALL)
        if not matched or not all(self.take(name, text) for name, text in zip(names, matched.groups())):
            raise Wrong(difference(due.decode(errors="replace"), got.decode(errors="replace")) or f"    not of this case: {got}")

    def take(self, name, text):
        if name != b"now":
            return self.bound.setdefault(name, text) == text
        moments = (time.gmtime(it) for it in range(self.begin, int(time.time()) + 1))
        return text.decode() in [time.strftime("%Y-%m-%dT%H:%M:%SZ", it) for it in moments]


class Reader:
    """Bytes as they come from a file or a socket."""

    def __init__(self, source, read):
        self.source, self.read, self.bytes, self.is_open = source, read, b"", True

    def fill(self, is_enough):
        """Reads until that is so, or until the end."""
        deadline = time.monotonic() + PATIENCE
        while self.is_open and not is_enough():
            if not select.select([self.source], [], [], max(0, deadline - time.monotonic()))[0]:
                raise Wrong(f"    nothing more comes, after: {self.bytes!r}")
            try:
                more = self.read()
            except ConnectionError:
                more = b""
            self.bytes, self.is_open = self.bytes + more, bool(more)

    def until(self, end):
        """The bytes up to that end, or all where it does not come."""
        self.fill(lambda: end in self.bytes)
        return self.take(self.bytes.find(end) + len(end) if end in self.bytes else len(self.bytes))

    def take(self, size):
        self.fill(lambda: len(self.bytes) >= size)
        taken, self.bytes = self.bytes[:size], self.bytes[size:]
        return taken

    def rest(self):
        self.fill(lambda: False)
        return self.take(len(self.bytes))


class Program:
    """A program that runs, by its lines."""

    def __init__(self, words):
        pipe = subprocess.PIPE
        self.process = subprocess.Popen(words, stdin=pipe, stdout=pipe, stderr=pipe, bufsize=0)
        self.reader = Reader(self.process.stdout, lambda: self.process.stdout.read(1 << 16))
        self.has_ended = False

    def give(self, sign, text, _marks):
        if sign not in (">", ">-"):
            raise Unreadable(f"a program is given lines, not {sign}")
        try:
            self.write(text + (b"\n" if sign == ">" else b""))
            if sign == ">-":
                self.process.stdin.close()
        except BrokenPipeError:
            pass

    def write(self, data):
        while data:
            data = data[self.process.stdin.write(data) :]

    def due(self, sign, text, marks):
        return b"=%s\n%s" % (sign[1:].encode() or b"%d" % marks.size(text), text) if sign else text + b"\n"

    def next(self):
        line = self.reader.until(b"\n")
        found = re.fullmatch(rb"=([0-9]+)\n", line)
        return line + self.reader.take(int(found[1])) if found else line

    def end(self, wanted=b"0"):
        """Closes the input, and compares the status and what is told with what is wanted."""
        self.has_ended = True
        self.process.stdin.close()
        rest = self.reader.rest()
        told = self.process.stderr.read()
        got = b"%d %s" % (self.process.wait(PATIENCE), told)
        due = wanted + (b"\n" if b" " in wanted else b" ")
        if rest or got != due:
            raise Wrong(f"    printed besides: {rest!r}" if rest else difference(due.decode(), got.decode(errors="replace")))

    def finish(self):
        self.end()

    def close(self):
        self.process.kill()
        self.process.wait()
        for pipe in (self.process.stdin, self.process.stdout, self.process.stderr):
            pipe.close()


class Connection:
    """A connection, by its messages."""

    def __init__(self, stream, address):
        stream.settimeout(PATIENCE)
        stream.setsockopt(socket.IPPROTO_TCP, socket.TCP_NODELAY, 1)
        self.stream, self.address, self.reader = stream, address, Reader(stream, lambda: stream.recv(1 << 16))
        self.has_ended = False

    def give(self, sign, text, marks):
        if sign not in (">", ">=", ">@"):
            raise Unreadable(f"a connection is given bytes, not {sign}")
        self.stream.sendall(text if sign == ">" else answer(text, marks) if sign == ">=" else post(text, marks))
        # So that what comes next is another piece.
        time.sleep(0.02)

    def due(self, sign, text, marks):
        if sign == "@":
            return post(text, marks, b"host: %s\r\n" % self.address.encode(), b"content-type: application/soap+xml\r\n")
        closing = b"connection: close\r\n" if sign == "=close" else b""
        return answer(text, marks, closing) if sign else text

    def next(self):
        head = self.reader.until(b"\r\n\r\n")
        found = re.search(rb"\r\ncontent-length: ([0-9]+)\r\n", head)
        return head + self.reader.take(int(found[1])) if found else head

    def end(self, _wanted=b""):
        self.has_ended = True
        if rest := self.reader.rest():
            raise Wrong(f"    came besides: {rest!r}")

    def finish(self):
        """Ends the connection; nothing more may come."""
        self.shut()
        self.end()

    def shut(self):
        self.stream.shutdown(socket.SHUT_WR)

    def close(self):
        self.has_ended = True
        self.stream.close()


def answer(body, marks, closing=b""):
    head = b"HTTP/1.1 200 OK\r\ncontent-type: application/soap+xml\r\ncontent-length: %d\r\n%s\r\n" % (marks.size(body), closing)
    return head + body


def post(text, marks, host=b"", kind=b""):
    name, body = text.split(b" ", 1)
    length = b"content-length: %d\r\n\r\n" % marks.size(body)
    return b"POST /ifmap HTTP/1.1\r\n" + host + b"ifmap-client: %s\r\n" % name + kind + length + body


class Case:
    """A case that runs: its server or its listener, and who is at hand, by the line that named them."""

    def __init__(self, programs):
        self.programs, self.marks, self.people = programs, Marks(), {}
        self.now = self.server = self.listener = None
        # Bound, so that no one else listens there.
        self.nowhere = socket.socket()
        self.nowhere.bind(("127.0.0.1", 0))

    def address(self):
        """Where clients go: to the listener, or to the server, which is begun here."""
        if self.listener:
            return "127.0.0.1:%d" % self.listener.getsockname()[1]
        if not self.server:
            self.begin_server()
        return self.place

    def begin_server(self):
        """Begins the server at a port that was free a moment ago, and at another where it was taken since."""
        for _ in range(5):
            with socket.socket() as free:
                free.bind(("127.0.0.1", 0))
                self.place = "127.0.0.1:%d" % free.getsockname()[1]
            self.server = Program([self.programs["mapd"].path, "serve", self.place, str(WORKERS)])
            if self.listens():
                return
            self.server.close()
        raise Wrong("    the server does not listen")

    def listens(self):
        deadline = time.monotonic() + PATIENCE
        while self.server.process.poll() is None and time.monotonic() < deadline:
            try:
                self.connect().close()
                return True
            except ConnectionRefusedError:
                time.sleep(0.01)
        return False

    def connect(self):
        host, port = self.place.split(":")
        return socket.create_connection((host, int(port)), PATIENCE)

    def step(self, line):
        word = line.split(" ")[0]
        if word in ("client", "socket", "first", "second", "run"):
            self.now = self.people.get(line) or self.people.setdefault(line, self.begin(*line.split(" ", 1)))
        elif line == "listen":
            self.listener = socket.create_server(("127.0.0.1", 0))
            self.listener.settimeout(PATIENCE)
        elif self.now is None:
            raise Unreadable(f"nobody is named before: {line}")
        elif line.startswith("    "):
            self.compare(line[4:])
        elif line.startswith(">"):
            sign, _, text = line.partition(" ")
            self.now.give(sign, self.marks.fill(bytes_of(text)), self.marks)
        elif word == "ends":
            self.now.end(bytes_of(line[5:]))
        elif line in ("shut", "close") and isinstance(self.now, Connection):
            getattr(self.now, line)()
        else:
            raise Unreadable(f"a line of no form: {line}")

    def compare(self, text):
        sign, _, rest = text.partition(" ")
        sign, rest = (sign, rest) if re.fullmatch("=(close|[0-9]*)|@", sign) else ("", text)
        self.marks.compare(self.now.due(sign, bytes_of(rest), self.marks), self.now.next())

    def begin(self, kind, words=""):
        if kind == "client":
            return Program([self.programs["mapc"].path, self.address(), words])
        if kind == "socket":
            self.address()
            return Connection(self.connect(), self.place)
        if kind in ("first", "second") and self.listener:
            return Connection(self.listener.accept()[0], self.address())
        if kind == "run" and words:
            program, *rest = shlex.split(words)
            return Program([self.programs[program].path, *rest])
        raise Unreadable(f"a line of no form: {kind} {words}")

    def end(self):
        for it in self.people.values():
            if not it.has_ended:
                it.finish()
        if self.server:
            self.end_server()

    def end_server(self):
        """The server is to go on to the end, and to write nothing."""
        if self.server.process.poll() is not None:
            raise Wrong(f"    the server ended with status {self.server.process.returncode}")
        self.server.process.kill()
        if written := self.server.reader.rest() + self.server.process.stderr.read():
            raise Wrong(f"    the server wrote: {written!r}")

    def close(self):
        for it in (*self.people.values(), self.server, self.listener, self.nowhere):
            if it:
                it.close()


def cases_of(path):
    """The cases of a file: the number of the line that begins each, what it shows, its lines and the file's names."""
    names, cases = Names(), []
    for number, line in enumerate(path.read_text(encoding="utf-8").split("\n"), 1):
        if line.startswith("== "):
            cases.append((number, line[3:], []))
        elif not line or line.startswith("#") or names.take(line):
            continue
        elif not cases:
            raise Unreadable(f"{name_of(path)}:{number}: no case is begun")
        else:
            cases[-1][2].append((number, line))
    return names, cases


def difference_in(lines, names, programs):
    """The first difference of a case, or None."""
    case = Case(programs)
    names = Names(names)
    names.meanings["nowhere"] = "127.0.0.1:%d" % case.nowhere.getsockname()[1]
    number = 0
    try:
        for number, line in lines:
            case.step(names.spell(line))
            if case.listener:
                names.meanings["address"] = case.address()
        case.end()
        return None
    except (Wrong, OSError, subprocess.TimeoutExpired) as error:
        return f"    at line {number}:\n{error}"
    finally:
        case.close()


def run(path, programs):
    names, cases = cases_of(path)
    results = ((number, shows, difference_in(lines, names, programs)) for number, shows, lines in cases)
    return [Result(f"{name_of(path)}:{number}: {shows}", found) for number, shows, found in results]
