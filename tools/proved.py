"""The proved programs in target/bin, for the Python programs that run them.

Where one is missing, whoever asks for it ends with a line that says so.
"""
import pathlib
import shutil
import sys

ROOT = pathlib.Path(__file__).resolve().parent.parent
ASKING = pathlib.Path(sys.argv[0]).name


def path(name):
    """The file of a program."""
    file = ROOT / "target" / "bin" / name
    if not file.exists():
        sys.exit(f"{ASKING}: there is no target/bin/{name}: 'tools/build {name}' makes it")
    return file


def command(name):
    """The command that runs a program on this machine."""
    path(name)
    if not shutil.which("rt"):
        sys.exit(f"{ASKING}: there is no rt, the command of the Rattle kit, on PATH")
    return [str(ROOT / "tools" / "program"), name]
