"""`list`: the instructions out of an SPC file, a state record, or a file of bare code bytes."""
import re

import files
from ends import BadArgument, Refused
from programs import answer, say
from words import FLAG, Number, address, sorted_out

OPTIONS = {"--count": Number("number of lines", 65536), "--bytes": FLAG}
MOST = 4096
CUT = "refused 4"
WRONG = "refused 6"


class Line:
    """A line of a listing: its address, the text of the instruction, and its bytes."""

    def __init__(self, at, text, code):
        self.at, self.text, self.code = at, text, code

    @property
    def target(self):
        """Where a branch goes that ends in a displacement: so far behind the next instruction."""
        displacement = re.search(r"[+-]\d+$", self.text)
        return (self.at + len(self.code) + int(displacement.group())) % 0x10000 if displacement else None

    def shown(self, with_bytes, with_target):
        code = f"{self.code.hex(' ').upper():<8}  " if with_bytes else ""
        if with_target and self.target is not None:
            return f"{self.at:04X} {code}{self.text:<24} ; {self.target:04X}"
        return f"{self.at:04X} {code}{self.text}"


def printed(start, code):
    """The lines that the listing program prints of some code bytes, and the refusal that it ends with, if it does."""
    lines = answer("list", start.to_bytes(2, "little") + code).decode().splitlines()
    refusal = lines.pop() if lines and lines[-1] in (CUT, WRONG) else ""
    return lines, refusal


def listed(start, code):
    """The same with the bytes of each line. An instruction ends where the next begins, and the last one with the code, or before the one or
    two bytes of an instruction that is cut."""
    lines, refusal = printed(start, code)
    tail = 0 if refusal != CUT else 2 if printed(start, code[:-1])[1] == CUT else 1
    starts = [int(line[:4], 16) for line in lines]
    places = [(at - start) % 0x10000 for at in starts]
    ends = places[1:] + [len(code) - tail]
    return [Line(at, line[5:], code[place:end]) for at, line, place, end in zip(starts, lines, places, ends)], refusal


def in_image(memory, start, most):
    """The lines from an address on, out of a memory that goes on with 0000 behind FFFF: so many, or as many as 4,096 bytes hold."""
    lines, at = [], start
    around = memory + memory
    while most is None or len(lines) < most:
        found, _ = listed(at, around[at:at + MOST])
        lines += found
        at = (found[-1].at + len(found[-1].code)) % 0x10000
        if most is None:
            return lines
    return lines[:most]


def bare(name, start, data, options):
    """A listing of code bytes. Without options it is what the program prints."""
    lines, refusal = listed(start, data[:MOST + 1])
    most = options.get("count", len(lines))
    for line in lines[:most]:
        print(line.shown("bytes" in options, "bytes" in options))
    if refusal and most >= len(lines):
        print(refusal)
    if refusal == WRONG:
        raise Refused(f"'{name}' has a wrong length: a listing is of 0 to 4,096 code bytes, of a state record or of an SPC file")
    if refusal == CUT and most >= len(lines):
        raise Refused(f"the last instruction of '{name}' is cut: its last bytes are missing")
    return 0


def listing(words):
    """The command."""
    places, options = sorted_out("list", words, OPTIONS)
    if len(places) != 2:
        raise BadArgument("list takes an address and a file: tangezult list 0300 FILE")
    start, name = address(places[0]), places[1]
    data = files.content(name)
    if len(data) <= MOST or files.fault_of(name, data):
        if data.startswith(files.ANY_VERSION):
            raise Refused(files.fault_of(name, data))
        return bare(name, start, data, options)
    image = files.Image(name, data)
    say(f"'{name}' is {image.described}")
    for line in in_image(image.memory, start, options.get("count")):
        print(line.shown("bytes" in options, True))
    return 0
