"""The states that long runs begin with: a register record of seven bytes, and 65,536 bytes of memory.

A run through bytes at random soon meets SLEEP or STOP, or hangs in a branch to itself. So there are four kinds of memory, by turns:

  noise    bytes at random
  lively   the same, with few of the bytes that are SLEEP, STOP, BRK, PCALL, TCALL, a plain jump or a return
  pieces   pieces of such code, each a loop that is gone through some times and then a jump or a call to another piece
  own      pieces in pages 0 and 1, with stack and direct page among them, so that code is stored over; jumps to there elsewhere
"""
import random

# SLEEP STOP BRK; JMP and BRA; RET and RETI; PCALL and TCALL
RARE = {0xEF, 0xFF, 0x0F, 0x5F, 0x1F, 0x2F, 0x6F, 0x7F, 0x4F, *range(0x01, 0x100, 0x10)}
FREQUENT = [byte for byte in range(256) if byte not in RARE]
JMP, CALL = 0x5F, 0x3F


def lively(numbers, count):
    """Bytes at random, with one in 16 of the rare ones kept."""
    given = numbers.randbytes(count)
    return bytes(numbers.choice(FREQUENT) if byte in RARE and numbers.randrange(16) else byte for byte in given)


def piece(numbers, first, size):
    """A loop of one to eight rounds, and a jump or a call into the addresses from `first` on."""
    rounds, place = numbers.randrange(1, 9), numbers.randrange(256)
    count, back = numbers.choice([
        ([0x8D, rounds], [0xFE]),  # MOV Y,#rounds and DBNZ Y
        ([0x8F, rounds, place], [0x6E, place]),  # MOV place,#rounds and DBNZ place
    ])
    # the last instruction at random may swallow the two NOPs
    code = lively(numbers, numbers.randrange(4, 32)) + bytes([0, 0, *back])
    target = (first + numbers.randrange(size)) % 65536
    return bytes(count) + code + bytes([255 - len(code), numbers.choice([JMP, CALL]), target % 256, target // 256])


def pieces(numbers, first, size):
    """Pieces of code, one after another, that go to each other."""
    code = b""
    while len(code) < size:
        code += piece(numbers, first, size)
    return code[:size]


def own(numbers):
    """Pieces in pages 0 and 1; all other bytes are jumps to these pages."""
    jumps = b"".join(bytes([JMP, numbers.randrange(256), numbers.randrange(2)]) for _ in range(22000))
    return (pieces(numbers, 0, 512) + jumps)[:65536]


KINDS = [
    lambda numbers: numbers.randbytes(65536),
    lambda numbers: lively(numbers, 65536),
    lambda numbers: pieces(numbers, 0, 65536),
    own,
]


def state(turn):
    """The registers and the memory of the run with this number; the same on every machine."""
    numbers = random.Random(turn)
    return numbers.randbytes(7), bytearray(KINDS[turn % len(KINDS)](numbers))
