"""Packets, in which the proved programs `audit` and `play` are asked and answer: bytes in their places, and how long a part is."""
from files import MAP
from programs import Conversation

CLEAR = bytes(MAP)
AWAKE = b"\x00"
# how long a part is to take, so that the progress is seen to move; the first part is short, to find out
SECONDS_A_PART, FIRST_PART, MOST = 0.25, 50_000, 0xFFFFFFFF


def piece(at, length):
    """Some bytes of a packet."""
    return property(lambda packet: packet.data[at:at + length])


def number(at, length=4):
    """A number in a packet, low byte first."""
    return property(lambda packet: int.from_bytes(packet.data[at:at + length], "little"))


def devices(at):
    """The device addresses that two bytes of a packet name, a bit each."""
    return property(lambda packet: [0xF0 + j for j in range(16) if packet.data[at + j // 8] >> j % 8 & 1])


def flag(at):
    """Whether a byte of a packet is 1."""
    return property(lambda packet: packet.data[at] == 1)


class Packet:
    """An answered packet. What stands where is said by the classes that are made of this one."""

    def __init__(self, data):
        self.data = data


class Program:
    """A program that answers packets. It is started with the first one, and serves until the end."""

    def __init__(self, name):
        self.name, self.conversation = name, None

    def answered(self, data):
        self.conversation = self.conversation or Conversation(self.name)
        return self.conversation.answer(data)

    def end(self):
        if self.conversation:
            self.conversation.end()


def next_budget(budget, took):
    """How many steps the next part has, after so many took so many seconds."""
    return min(max(int(budget * min(SECONDS_A_PART / max(took, 0.001), 8)), 1), MOST)
