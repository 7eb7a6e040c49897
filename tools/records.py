"""What the program `run` is given and what it prints, as docs/SCOPE.md says: state records, inputs and reports."""
FLAGS = "NVPBHIZC"


def record(pieces, a=0, x=0, y=0, sp=0xEF, pc=0x0200, psw=0):
    """A state record, 65,543 bytes: the registers, and a memory of zeros with each piece at its address."""
    memory = bytearray(65536)
    for at, piece in pieces.items():
        memory[at:at + len(piece)] = piece
    return bytes([a, x, y, sp, pc % 256, pc // 256, psw]) + bytes(memory)


def budgeted(budget, state, edition=1):
    """An input: the number of the edition, the budget, low byte first, and a state record."""
    return bytes([edition]) + budget.to_bytes(4, "little") + state


def report(stop, steps, marks, a=0, x=0, y=0, sp=0xEF, pc=0x0200, psw=0):
    """The five lines of a run. The marks are three numbers: the addresses that were read, those that were written, those that are both."""
    flags = " ".join(f"{name}={psw >> 7 - i & 1}" for i, name in enumerate(FLAGS))
    return (
        f"stop {stop}\nsteps {steps}\nA={a:02X} X={x:02X} Y={y:02X} SP={sp:02X} PC={pc:04X}\n"
        f"{flags} ({psw:02X})\nread {marks[0]} written {marks[1]} both {marks[2]}\n"
    )
