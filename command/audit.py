"""Runs and blanked images, made by the proved program `audit`. The layout of its packets is said in crates/auditor/specs/Packet.antt and
Audit.antt; here bytes are put into their places and taken out of them."""
import time

from files import MAP, MEMORY
from packets import AWAKE, CLEAR, FIRST_PART, Packet, Program, devices, next_budget, number, piece
from progress import Progress

HEAD = 64
AT_REGISTERS, AT_ANSWER, AT_DEVICES = 6, 14, 35
AT_MEMORY = HEAD
AT_IMAGE = AT_MEMORY + MEMORY
AT_READS = AT_IMAGE + MEMORY
AT_WRITES = AT_READS + MAP
AT_KEPT = AT_WRITES + MAP


class Answer(Packet):
    """An answered packet."""

    # A X Y SP PC-low PC-high PSW, and the number of the state
    registers = piece(AT_REGISTERS, 8)
    stop = number(AT_ANSWER, 1)
    steps, read_only, stored_only, both = (number(AT_ANSWER + 1 + 4 * i) for i in range(4))
    # how many addresses were given the byte
    blanked = number(AT_ANSWER + 17)
    # the device addresses that some step read, and the same as it stands in the packet
    devices, device_bytes = devices(AT_DEVICES), piece(AT_DEVICES, 2)
    memory = piece(AT_MEMORY, MEMORY)
    # the image, blanked
    image = piece(AT_IMAGE, MEMORY)
    reads, writes = piece(AT_READS, MAP), piece(AT_WRITES, MAP)
    # the map by which the image was blanked: the read map and the kept map, put together
    kept = piece(AT_KEPT, MAP)

    @property
    def counts(self):
        """How many addresses are read only, stored only, and both."""
        return self.read_only, self.stored_only, self.both


def packet(memory, image, registers=bytes(8), edition=1, budget=0, byte=0, devices=bytes(2), reads=CLEAR, writes=CLEAR, kept=CLEAR):
    """A packet as the program takes it. Without more words it asks for a run of no steps, from any registers and with clear maps."""
    head = bytes([edition]) + budget.to_bytes(4, "little") + bytes([byte]) + registers
    head += bytes(AT_DEVICES - len(head)) + devices
    return head + bytes(HEAD - len(head)) + memory + image + reads + writes + kept


class Run:
    """What a run in parts comes to: the last part's answer, and the steps of all."""

    def __init__(self, answer, steps):
        self.answer, self.steps = answer, steps


class Audit(Program):
    """The program."""

    def __init__(self):
        super().__init__("audit")

    def asked(self, *parts, **more):
        """The answer to a packet."""
        return Answer(self.answered(packet(*parts, **more)))

    def run(self, image, steps, edition, byte=0, kept=CLEAR):
        """A run of a file from clear maps, of at most so many steps, and its image blanked by what it read and by what the kept map marks.

        It goes in parts, each from what the part before it left: that is one run (crates/auditor/specs/Theorems.antt)."""
        same = {"edition": edition, "byte": byte, "kept": kept}
        answer = self.asked(image.memory, image.memory, image.registers + AWAKE, **same)
        done, budget = 0, FIRST_PART
        with Progress(steps, "steps") as progress:
            while done < steps and answer.stop == 0:
                began = time.monotonic()
                on = {"registers": answer.registers, "devices": answer.device_bytes, "reads": answer.reads, "writes": answer.writes}
                answer = self.asked(answer.memory, image.memory, budget=min(budget, steps - done), **on, **same)
                done += answer.steps
                budget = next_budget(budget, time.monotonic() - began)
                progress.show(done)
        return Run(answer, done)

    def blanked(self, memory, map_, byte):
        """A memory with the byte wherever a map has no mark: a run of no steps blanks by the kept map alone."""
        return self.asked(memory, memory, byte=byte, kept=map_).image

    def together(self, maps):
        """Maps put together: a run of no steps adds a read map to the kept one."""
        kept = CLEAR
        for map_ in maps:
            kept = self.asked(bytes(MEMORY), bytes(MEMORY), reads=map_, kept=kept).kept
        return kept
