"""The command: finds out what is asked for, and ends with a line that says what was wrong where something was."""
import os
import sys

from blank import blank
from compare import compare
from ends import BadArgument, Failed, Refused
from listing import listing
from programs import ROOT, say
from report import report
from steps import run, step

HELP = ROOT / "command" / "help"


def test(words):
    """Everything proved and tested from nothing."""
    if words:
        raise BadArgument("test takes nothing behind it")
    os.execv(ROOT / "test", [str(ROOT / "test")])


def help_on(words):
    """The page of a command, or the first page."""
    pages = {page.name for page in HELP.iterdir()}
    name = words[0] if words else "tangezult"
    if len(words) > 1 or name not in pages:
        raise BadArgument(f"help is there on {', '.join(sorted(pages - {'tangezult'}))}")
    print((HELP / name).read_text(), end="")
    return 0


COMMANDS = {
    "report": report, "blank": blank, "compare": compare, "list": listing, "run": run, "step": step, "test": test, "help": help_on,
    "-h": help_on, "--help": help_on,
}


def asked(words):
    """Calls a command with the words behind it."""
    name = words[0] if words else "help"
    if name not in COMMANDS:
        raise BadArgument(f"'{name}' is none of {', '.join(word for word in COMMANDS if word[0] != '-')}")
    if words[1:2] in (["-h"], ["--help"]):
        return help_on([name])
    status = COMMANDS[name](words[1:])
    sys.stdout.flush()
    return status


def ended(words):
    """The exit status, and a line that says why where it is not 0. What was printed before goes out first."""
    try:
        return asked(words)
    except BadArgument as error:
        say(error)
        return 2
    except (Refused, Failed) as error:
        sys.stdout.flush()
        say(error)
        return 1
    except KeyboardInterrupt:
        say("interrupted")
        return 130


def main(words):
    """The same, also where what is printed does not arrive."""
    if not sys.stdout or not sys.stderr:
        return 1
    for stream in (sys.stdout, sys.stderr):
        stream.reconfigure(errors="backslashreplace")
    try:
        return ended(words)
    except OSError as error:
        # a full disk, or a reader that has gone, who need not be told
        os.dup2(os.open(os.devnull, os.O_WRONLY), sys.stdout.fileno())
        if not isinstance(error, BrokenPipeError):
            say(f"the answer could not be printed: {error.strerror}")
        return 1
