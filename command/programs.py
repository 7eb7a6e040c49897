"""The proved programs: each is proved and built where it is missing or older than its sources, and run."""
import os
import pathlib
import re
import shutil
import subprocess
import sys

from ends import Failed

ROOT = pathlib.Path(__file__).resolve().parent.parent
RUN, BUILD = str(ROOT / "tools" / "program"), str(ROOT / "tools" / "build")
# the programs that were found to be current, or made so, since the command began
CURRENT = set()


def path(name):
    """The file of a program."""
    return ROOT / "target" / "bin" / name


def sources():
    """Every file that a program is made of, as tools/build has them: rt puts a folder out into a crate's own, which so tells nothing."""
    crates = ROOT / "crates"
    yield ROOT / "crates.txt"
    for folder, folders, names in os.walk(crates):
        at = pathlib.Path(folder)
        if at.parent == crates:
            folders[:] = [name for name in folders if name != "out"]
        elif at != crates:
            yield at
        yield from (at / name for name in names)


def is_current(program):
    """Whether a program is there and no source is newer."""
    if not os.access(program, os.X_OK):
        return False
    made = program.stat().st_mtime_ns
    return all(source.stat().st_mtime_ns <= made for source in sources())


def say(words):
    """A line for people, which is no part of an answer."""
    print(f"tangezult: {words}", file=sys.stderr, flush=True)


def build(*names):
    """Makes the programs among these that are not current."""
    if not shutil.which("rt"):
        raise Failed("there is no rt, the command of the Rattle kit, on PATH")
    missing = [name for name in names if name not in CURRENT and not is_current(path(name))]
    if missing:
        make(missing)
    CURRENT.update(names)


def make(missing):
    """Proves and builds programs, and says a line for each crate as it is done."""
    say(f"proving and building {' and '.join(missing)}; this may take some minutes")
    printed, status = checked(missing)
    for name in missing:
        if status or not os.access(path(name), os.X_OK):
            sys.stderr.write(printed)
            raise Failed(f"{name} could not be built")


def checked(names):
    """What tools/build prints of these programs, and its status; a crate that is proved is told at once."""
    printed = []
    with subprocess.Popen([BUILD, *names], stdout=subprocess.PIPE, stderr=subprocess.STDOUT, text=True) as building:
        for line in building.stdout:
            printed.append(line)
            proved = re.match(r"build: (.* proved)", line)
            if proved:
                say(proved.group(1))
    return "".join(printed), building.returncode


def answer(name, given):
    """What a program answers to these bytes."""
    build(name)
    done = subprocess.run([RUN, name], input=given, stdout=subprocess.PIPE)
    if done.returncode:
        raise Failed(f"{name} could not be run: it ended with status {done.returncode}")
    return done.stdout


class Conversation:
    """A program that answers one packet after the other, each by as many bytes."""

    def __init__(self, name):
        build(name)
        self.name = name
        self.process = subprocess.Popen([RUN, name], stdin=subprocess.PIPE, stdout=subprocess.PIPE)

    def answer(self, packet):
        try:
            self.process.stdin.write(packet)
            self.process.stdin.flush()
            answered = self.process.stdout.read(len(packet))
        except BrokenPipeError:
            answered = b""
        if len(answered) != len(packet):
            said = answered.decode(errors="replace").strip() or f"it ended with status {self.process.wait()}"
            raise Failed(f"{self.name} could not be run: {said}")
        return answered

    def end(self):
        self.process.stdin.close()
        self.process.stdout.close()
        self.process.wait()
