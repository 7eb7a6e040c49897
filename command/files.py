"""What a file is, told by its content: an SPC file or a state record. Both hold seven registers and 65,536 bytes of memory."""
import os

from ends import BadArgument, Refused
from texts import count

SIGNATURE = b"SNES-SPC700 Sound File Data v0.30"
ANY_VERSION = b"SNES-SPC700 Sound File Data"
SPC, RECORD, MEMORY, MAP = 66048, 65543, 65536, 8192
MOST_BEHIND = 16 * 1024 * 1024
# where a file of either kind has A X Y SP PC-low PC-high PSW, and its memory
SPC_REGISTERS, SPC_MEMORY = (39, 40, 41, 43, 37, 38, 42), 256
# where an SPC file has the 128 registers of the sound chip
SPC_SOUND = 65792
RECORD_REGISTERS, RECORD_MEMORY = tuple(range(7)), 7


class Image:
    """A file that was taken for one of the two."""

    def __init__(self, name, data):
        self.name, self.data = name, data
        self.is_spc = data[:len(SIGNATURE)] == SIGNATURE
        self.kind = "an SPC file" if self.is_spc else "a state record"
        self.places, self.at = (SPC_REGISTERS, SPC_MEMORY) if self.is_spc else (RECORD_REGISTERS, RECORD_MEMORY)

    @property
    def registers(self):
        """A X Y SP PC-low PC-high PSW."""
        return bytes(self.data[place] for place in self.places)

    @property
    def memory(self):
        return self.data[self.at:self.at + MEMORY]

    @property
    def sound(self):
        """The sound chip's registers, which an SPC file has."""
        return self.data[SPC_SOUND:SPC_SOUND + 128]

    @property
    def behind(self):
        """What stands behind the 66,048 bytes of an SPC file."""
        return self.data[SPC:] if self.is_spc else b""

    @property
    def state_record(self):
        """The same as a state record, which is what the programs `run` and `step` take."""
        return self.registers + self.memory

    def with_memory(self, memory):
        """The whole file with another memory in its place."""
        return self.data[:self.at] + memory + self.data[self.at + MEMORY:]

    @property
    def described(self):
        """What it was taken for, in words."""
        behind = f", {len(self.behind):,} of them behind the 66,048" if self.behind else ""
        return f"{self.kind} of {len(self.data):,} bytes{behind}"


def check(name):
    """Ends where a file is not there or cannot be read."""
    if not os.path.exists(name):
        raise BadArgument(f"there is no file '{name}'")
    if os.path.isdir(name):
        raise BadArgument(f"'{name}' is a folder")
    if not os.access(name, os.R_OK):
        raise BadArgument(f"'{name}' cannot be read")


def read(name, most, most_of_spc=0):
    """The first bytes of a file, and one more where it has more; of an SPC file so many more. It is read once, since it may be a pipe."""
    check(name)
    try:
        with open(name, "rb") as file:
            data = file.read(most + 1)
            return data + file.read(most_of_spc) if data.startswith(SIGNATURE) else data
    except OSError as error:
        raise Refused(f"'{name}' cannot be read: {error.strerror}") from None


def content(name):
    """The bytes of a file, as far as they have to be known to tell what it is: of an SPC file all."""
    return read(name, SPC, MOST_BEHIND)


def fault_of(name, data):
    """Why these bytes are neither an SPC file nor a state record, in words; nothing where they are one."""
    if data.startswith(SIGNATURE):
        if len(data) < SPC:
            return f"'{name}' is an SPC file that is cut: it has {len(data):,} bytes, and 66,048 or more are expected"
        if len(data) > SPC + MOST_BEHIND:
            return f"'{name}' is an SPC file with more than {MOST_BEHIND:,} bytes behind its 66,048"
        return None
    if len(data) == RECORD:
        return None
    if data.startswith(ANY_VERSION):
        return f"'{name}' is an SPC file of another version: '{SIGNATURE.decode()}' is expected at its beginning"
    length = "is empty" if not data else f"has {count(len(data), 'byte', 'bytes')}" if len(data) <= SPC else f"has more than {SPC:,} bytes"
    return (
        f"'{name}' is neither an SPC file nor a state record: it {length}, where an SPC file begins with '{SIGNATURE.decode()}' and has "
        "66,048 or more, and a state record has 65,543"
    )


def image(name):
    """The file as an image. Ends where it is none."""
    data = content(name)
    fault = fault_of(name, data)
    if fault:
        raise Refused(fault)
    return Image(name, data)


def map_in(name):
    """The map that a file holds: eight addresses to a byte, the lowest of them in the bit of value 1."""
    data = read(name, MAP)
    if len(data) != MAP:
        length = f"has {len(data):,} bytes" if len(data) < MAP else "has more"
        raise Refused(f"'{name}' is no map: a map has 8,192 bytes, and it {length}")
    return data
