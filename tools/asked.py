"""The command at the root, for the tests that ask it something and hold its answers against what they should be."""
import atexit
import fnmatch
import os
import pathlib
import shutil
import subprocess
import sys
import tempfile

ROOT = pathlib.Path(__file__).resolve().parent.parent
COMMAND = ROOT / "tangezult"
TEST = pathlib.Path(sys.argv[0]).name


class Answers:
    """How many answers there were, and how many of them were right; and a folder for files, which is removed at the end."""

    def __init__(self):
        self.good = self.all = 0
        self.folder = pathlib.Path(tempfile.mkdtemp())
        atexit.register(shutil.rmtree, self.folder)

    def kept(self, name, data):
        """A file in that folder."""
        (self.folder / name).write_bytes(data)
        return self.folder / name

    def hold(self, right, what):
        """Counts an answer, and says what it should be where it is not."""
        self.all += 1
        self.good += bool(right)
        if not right:
            print(f"{TEST}: {what}")

    def expect(self, status, out, err, *words, **settings):
        """Asks the command. Its exit status, and what it prints on standard output and standard error, which have the form of patterns."""
        done = asked(*words, **settings)
        right = done.returncode == status and like(done.stdout, out) and like(done.stderr, err)
        expected, got = (status, out, err), (done.returncode, done.stdout, done.stderr)
        self.hold(right, f"{' '.join(map(str, words))}: {expected} is expected, and not {got}")
        return done.stdout

    def end(self):
        print(f"{TEST}: {self.good} of {self.all} answers as they should be")
        sys.exit(self.good < self.all)


def asked(*words, **settings):
    """What the command does with these words."""
    # as people have it: Python's own settings, such as output that is not kept back, hide what happens to a full disk
    plain = {name: value for name, value in os.environ.items() if not name.startswith("PYTHON")}
    given = {"stdout": subprocess.PIPE, "stderr": subprocess.PIPE, "text": True, "env": plain, **settings}
    return subprocess.run([COMMAND, *map(str, words)], **given)


def like(text, pattern):
    """Whether a text has the form of a pattern, in which * stands for anything."""
    return fnmatch.fnmatchcase(text or "", pattern.replace("[", "[[]"))
