"""The library's calls for a script that makes the cases: tests/c/calls.c makes them, and is compiled here."""
import pathlib
import subprocess
import sys

ROOT = pathlib.Path(__file__).resolve().parent.parent
SOURCE = ROOT / "tests" / "c" / "calls.c"
BEHIND = b"\xa5" * 8


def number(value):
    """An argument that is no region, for a place where a region would stand."""
    return value.to_bytes(4, "little")


def lent(region):
    """A region, bytes or an array of numbers, as the program is lent it and gives it back: eight more bytes, which no call may touch."""
    return bytes(region) + BEHIND


def case(kind, *regions):
    """A call as the program takes it: the letter that names it, and each region with how many elements the call is told that it has."""
    return kind + b"".join(number(len(region)) + number(len(lent(region))) + lent(region) for region in regions)


class Library:
    """The program. Where there is no C compiler for x86-64, the script ends with status 77, as a skipped test does."""

    def __init__(self):
        made = subprocess.run([ROOT / "tools" / "c-program", SOURCE], stdout=subprocess.PIPE)
        if made.returncode:
            sys.exit(made.returncode)
        command = [ROOT / "tools" / "program", made.stdout.decode().strip()]
        self.process = subprocess.Popen(command, stdin=subprocess.PIPE, stdout=subprocess.PIPE)

    def call(self, kind, *regions):
        """The answer, and the regions as the call left them, each with what stands behind it."""
        self.process.stdin.write(case(kind, *regions))
        self.process.stdin.flush()
        answer = int.from_bytes(self.got(8), "little")
        return answer, *(self.got(len(lent(region))) for region in regions)

    def got(self, length):
        """The next bytes that the program gives."""
        given = self.process.stdout.read(length)
        if len(given) < length:
            sys.exit(f"library: the program ended with status {self.process.wait()}")
        return given
