"""The processes of a comparison: some write cases, some answer them. One that fails is always told, so that nothing is compared in part."""
import contextlib
import pathlib
import subprocess


def name(command):
    return " ".join([pathlib.Path(command[0]).name, *command[1:]])


def cases(command, size):
    """The cases that a command writes. It must end well, and behind a whole case."""
    writer = subprocess.Popen(command, stdout=subprocess.PIPE)
    while len(case := writer.stdout.read(size)) == size:
        yield case
    if writer.wait() != 0 or case:
        raise SystemExit(f"compare: `{name(command)}` ended with status {writer.returncode}" + (", within a case" if case else ""))


class Program:
    """A program that answers cases, a line each: those that it is asked, or those that a second command writes."""

    def __init__(self, command, writing=None):
        self.name = name(command)
        self.writer = writing and subprocess.Popen(writing, stdout=subprocess.PIPE)
        given = self.writer.stdout if writing else subprocess.PIPE
        self.process = subprocess.Popen(command, stdin=given, stdout=subprocess.PIPE)
        if writing:
            # only the program reads there, so that the writer ends where the program does
            self.writer.stdout.close()

    def ask(self, cases):
        try:
            self.process.stdin.write(cases)
            self.process.stdin.flush()
        except BrokenPipeError:
            self.give_up()

    def answer(self):
        line = self.process.stdout.readline().decode()
        if not line.endswith("\n"):
            self.give_up()
        return line.rstrip("\n")

    def give_up(self):
        """Ends the comparison, since the program has ended and there are more cases."""
        raise SystemExit(f"compare: answers of `{self.name}` are missing: {self.failure() or 'it ended before the last case'}")

    def failure(self):
        """Waits for the end. In words, which of the two did not end with status 0; nothing where both did."""
        if self.process.stdin:
            with contextlib.suppress(BrokenPipeError):
                self.process.stdin.close()
        statuses = {"it": self.process.wait(), "the writer of its cases": self.writer.wait() if self.writer else 0}
        return ", ".join(f"{who} ended with status {status}" for who, status in statuses.items() if status != 0)

    def end(self):
        """Ends the program behind the last case. Gives whether it is at fault: it has more answers, or did not end well."""
        if self.process.stdin:
            self.process.stdin.close()
        more = self.process.stdout.read(80)
        self.process.stdout.close()
        if more:
            print(f"unexplained: `{self.name}` has more answers than cases: {more!r}")
        failure = self.failure()
        if failure:
            print(f"unexplained: `{self.name}`: {failure}")
        return bool(more or failure)
