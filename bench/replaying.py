"""What the scripts `replay-*` share: frames of requests, and timed runs of `mapd replay`.

Times are of the processor, in the program and in the system for it, so that other work beside it counts
little.
"""
import os
import subprocess
import time

START = (
    '<n1:Envelope xmlns:n1="http://www.w3.org/2003/05/soap-envelope" '
    'xmlns:n2="http://www.trustedcomputinggroup.org/2010/IFMAP/2" '
    'xmlns:n3="http://www.trustedcomputinggroup.org/2010/IFMAP-METADATA/2"><n1:Body>'
)
END = "</n1:Body></n1:Envelope>"


def session(serial):
    """The attribute of the session of this serial, where each random word is 1."""
    return f'session-id="{serial}-00000000-0000-0000-0000-000000000001"'


def address(kind, number):
    """One of 2^24 addresses of a kind."""
    return f'<mac-address value="{kind:02x}:00:00:{number >> 16:02x}:{number >> 8 & 255:02x}:{number & 255:02x}"/>'


def frame(request, client="c1"):
    """A request of a client at the moment 1000000000, with the random word 1."""
    body = START + request + END
    return f"@1000000000 {client} {1:032x} {len(body)}\n{body}"


def write_script(path, frames):
    with open(path, "w", encoding="ascii") as out:
        out.writelines(frames)


def build():
    """Where the built program stands."""
    top = os.path.dirname(os.path.dirname(os.path.abspath(__file__)))
    return subprocess.run([f"{top}/bin/build", "mapd"], check=True, capture_output=True, text=True).stdout.strip()


def run_words(words, path):
    """The seconds of the processor that a program takes with a file as its input."""
    with open(path, "rb") as script, open(os.devnull, "wb") as sink:
        child = subprocess.Popen(words, stdin=script, stdout=sink)
        _, status, usage = os.wait4(child.pid, 0)
    if status != 0:
        raise SystemExit(f"status {status}")
    return usage.ru_utime + usage.ru_stime


def run(program, path):
    """The same of the replay of a script."""
    return run_words([program, "replay"], path)


def seconds(program, path, frames):
    """The seconds of the fastest of three replays of these frames."""
    write_script(path, frames)
    return min(run(program, path) for _ in range(3))


class Replay:
    """A replay that is fed with frames, and rests between them."""

    def __init__(self, program):
        self.sink = open(os.devnull, "wb")
        self.child = subprocess.Popen([program, "replay"], stdin=subprocess.PIPE, stdout=self.sink)

    def row(self, name):
        with open(f"/proc/{self.child.pid}/{name}", encoding="ascii") as row:
            return row.read()

    def feed(self, frames):
        """The seconds of the processor until all of the frames are answered."""
        before = int(self.row("schedstat").split()[0])
        self.child.stdin.write("".join(frames).encode("ascii"))
        self.child.stdin.flush()
        asleep = 0
        while asleep < 20:
            time.sleep(0.02)
            asleep = asleep + 1 if self.row("stat").rsplit(")", 1)[1].split()[0] == "S" else 0
        return (int(self.row("schedstat").split()[0]) - before) / 1e9

    def least(self, frames, parts=5):
        """The seconds of a frame, in the fastest of so many parts of the frames."""
        each = len(frames) // parts
        return min(self.feed(frames[at : at + each]) / each for at in range(0, each * parts, each))

    def memory(self):
        """The bytes that it holds."""
        rows = dict(line.split(":", 1) for line in self.row("status").splitlines())
        return int(rows["VmRSS"].split()[0]) * 1024

    def end(self):
        self.child.communicate()
        self.sink.close()
        if self.child.returncode:
            raise SystemExit(f"mapd ended with {self.child.returncode}")
