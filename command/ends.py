"""The ways in which a command ends without an answer, each with words that say why."""


class BadArgument(Exception):
    """The words of the command are wrong: exit status 2."""


class Refused(Exception):
    """A file is not what it should be, or cannot be written: exit status 1, once the other files are done."""


class Failed(Exception):
    """A program could not be built or run, so there is no answer for any file: exit status 1 at once."""
