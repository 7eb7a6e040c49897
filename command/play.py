"""Songs played without sound, by the proved program `play`. The layout of its packets is said in crates/player/specs/Head.antt and
Packet.antt; here bytes are put into their places and taken out of them."""
import time

from files import MAP, MEMORY
from packets import AWAKE, CLEAR, FIRST_PART, Packet, Program, devices, flag, next_budget, number, piece
from progress import Progress

CYCLES_A_SECOND = 1_024_000
HEAD, REGISTERS, ROW = 64, 128, 512
AT_BUDGET, AT_REGISTERS, AT_STEPS, AT_BESIDE, AT_CYCLES, AT_READ, AT_STORED, AT_ROM, AT_ALIKE = 1, 10, 18, 22, 23, 27, 29, 33, 50
AT_CHIP = HEAD
AT_ASKED = AT_CHIP + REGISTERS
AT_KEYED = AT_ASKED + REGISTERS
AT_MEMORY = AT_CHIP + ROW
AT_READS = AT_MEMORY + MEMORY
AT_WRITES = AT_READS + MAP
AT_FETCHED = AT_WRITES + MAP
AT_MADE = AT_FETCHED + MAP
PACKET = AT_MADE + MAP


def marked(at, length):
    """The numbers whose bytes, of so many in a packet, are 1."""
    return property(lambda packet: [i for i in range(length) if packet.data[at + i] == 1])


class Part(Packet):
    """An answered packet: how far a playing has come."""

    # A X Y SP PC-low PC-high PSW, and the number of the state: 1 where SLEEP, 2 where STOP has ended the song
    registers, stop = piece(AT_REGISTERS, 8), number(AT_REGISTERS + 7, 1)
    # how many steps this part has taken, and how many cycles have passed since the song began
    steps, cycles = number(AT_STEPS), number(AT_CYCLES)
    # the device addresses that some step has read, and those that some step has stored to
    read, stored = devices(AT_READ), devices(AT_STORED)
    # whether some step has read where the boot ROM was; whether two packets that were played side by side were alike
    rom, alike = flag(AT_ROM), flag(AT_ALIKE)
    # the sound registers, as they were stored to last, and those that the song has asked for
    sound, asked = piece(AT_CHIP, REGISTERS), marked(AT_ASKED, REGISTERS)
    # the numbers of the samples that the song has keyed on
    keyed = marked(AT_KEYED, 256)
    reads, writes = piece(AT_READS, MAP), piece(AT_WRITES, MAP)
    # the map of what the sound chip may fetch of the image, and that of what the song is made of: read, fetched, or the devices' own
    fetched, made = piece(AT_FETCHED, MAP), piece(AT_MADE, MAP)

    def asked_on(self, budget):
        """The packet that goes on from here with a budget of steps."""
        return self.data[:AT_BUDGET] + budget.to_bytes(4, "little") + self.data[AT_BUDGET + 4:]


def beginning(image, seconds, edition, beside=False):
    """The packet with which the song of an SPC file begins: it asks for no steps yet, so that its answer is the state before the first."""
    head = bytes([edition]) + bytes(4) + (seconds * CYCLES_A_SECOND).to_bytes(4, "little") + b"\0" + image.registers + AWAKE
    head += bytes(AT_BESIDE - len(head)) + bytes([beside])
    row = image.sound + bytes(ROW - REGISTERS)
    return head + bytes(HEAD - len(head)) + row + image.memory + 4 * CLEAR


class Playing:
    """What a playing in parts comes to: the last part, and the steps of all."""

    def __init__(self, part, steps):
        self.part, self.steps = part, steps

    @property
    def seconds(self):
        """How much of the song was played."""
        return self.part.cycles / CYCLES_A_SECOND


class Player(Program):
    """The program."""

    def __init__(self):
        super().__init__("play")

    def asked(self, packets):
        """The answers to a packet, or to two that are played side by side."""
        data = self.answered(b"".join(packets))
        return [Part(data[at:at + PACKET]) for at in range(0, len(data), PACKET)]

    def in_parts(self, packets, seconds, goes_on):
        """Plays on until there is nothing more to play, each part from what the part before it left: that is one playing
        (crates/host/specs/Theorems.antt). Gives the last part of each."""
        parts = self.asked(packets)
        steps, budget, end = 0, FIRST_PART, seconds * CYCLES_A_SECOND
        with Progress(seconds, "s of the song") as progress:
            while parts[0].cycles < end and not parts[0].stop and goes_on(parts[0]):
                began = time.monotonic()
                parts = self.asked([part.asked_on(budget) for part in parts])
                steps += parts[0].steps
                budget = next_budget(budget, time.monotonic() - began)
                progress.show(parts[0].cycles / CYCLES_A_SECOND)
        return [Playing(part, steps) for part in parts]

    def play(self, image, seconds, edition):
        """The song of an SPC file from its beginning, for so many seconds, or until SLEEP or STOP ends it."""
        return self.in_parts([beginning(image, seconds, edition)], seconds, lambda part: True)[0]

    def beside(self, first, second, seconds, edition):
        """Two files played side by side: both as far as they are alike."""
        both = [beginning(image, seconds, edition, True) for image in (first, second)]
        return self.in_parts(both, seconds, lambda part: part.alike)
