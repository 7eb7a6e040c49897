"""The words behind a command: options, which may stand anywhere among them, and numbers, in decimal or with 0x."""
from ends import BadArgument

DECIMAL, HEXADECIMAL = "0123456789", "0123456789abcdefABCDEF"


class Number:
    """A number that an option or a place takes, from 0 up to a limit. `called` is what an error calls it."""

    def __init__(self, called, limit):
        self.called, self.limit = called, limit

    def taken(self, word):
        """The number that a word is."""
        digits, base, allowed = (word[2:], 16, HEXADECIMAL) if word[:2] in ("0x", "0X") else (word, 10, DECIMAL)
        if digits and all(digit in allowed for digit in digits):
            # Python makes no number of thousands of digits; no limit here has more than ten
            digits = digits.lstrip("0") or "0"
            value = int(digits, base) if len(digits) <= 10 else self.limit + 1
            if value <= self.limit:
                return value
        raise BadArgument(f"'{word}' is no {self.called}: 0 to {self.limit}, in decimal or with 0x in hexadecimal, are")


class Edition:
    """The number of an edition."""

    called = "number: 1 or 2"

    def taken(self, word):
        if word not in ("1", "2"):
            raise BadArgument(f"'{word}' is no edition: 1 and 2 are")
        return int(word)


class Name:
    """The name of a file."""

    called = "name of a file"

    def taken(self, word):
        if not word:
            raise BadArgument("an empty word is no name of a file")
        return word


class Each:
    """An option that may be given several times: all that it was given, in order."""

    def __init__(self, kind):
        self.kind, self.called = kind, kind.called

    def taken(self, word):
        return self.kind.taken(word)


FLAG = None
STEPS = Number("number of steps", 0xFFFFFFFF)
# an hour, and some minutes: what the cycles of a playing can be counted for
SECONDS = Number("number of seconds", 4000)
BYTE = Number("byte", 255)


def address(word):
    """An address in one to four hexadecimal digits, with or without 0x."""
    digits = word[2:] if word[:2] in ("0x", "0X") else word
    if not 1 <= len(digits) <= 4 or any(digit not in HEXADECIMAL for digit in digits):
        raise BadArgument(f"'{word}' is no address: one to four hexadecimal digits are, as 0300")
    return int(digits, 16)


def value_of(option, kind, rest):
    """What an option is given: what stands behind its '=', or else the next word."""
    name, equals, given = option.partition("=")
    if kind is FLAG:
        if equals:
            raise BadArgument(f"{name} takes nothing behind it")
        return True
    if not equals:
        if not rest:
            raise BadArgument(f"{name} takes a {kind.called}")
        given = rest.pop(0)
    return kind.taken(given)


def sorted_out(command, words, options):
    """The words that are no options, and the options that were given, by their names without the dashes. Behind '--' no word is an option.
    Of an option that is given twice the last one counts."""
    places, given, rest = [], {}, list(words)
    while rest:
        word = rest.pop(0)
        name = word.partition("=")[0]
        if word == "--":
            places, rest = places + rest, []
        elif not word.startswith("--"):
            places.append(word)
        elif name not in options:
            raise BadArgument(f"{command} takes no {name}: " + (f"it takes {', '.join(options)}" if options else "it takes no options"))
        else:
            kind = options[name]
            value = value_of(word, kind, rest)
            key = name[2:]
            given[key] = given.get(key, []) + [value] if isinstance(kind, Each) else value
    return places, given
