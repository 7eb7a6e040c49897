"""The accesses of a step, and of each function on memory, by the definition in edition 1: which bytes are read and stored, in which order.

Our program shows which addresses were read and what was stored, but not the order of reads. The order is the definition's, so it is
taken from there: the rows are read out of crates/instructions/specs/Rows.antt itself; what a row's mode reads is Gather.antt, what its
operation stores is Effects.antt, and the phases are Step.antt, said again in Python name by name. What they do to registers and flags
is left out: that is compared on both sides' answers.
"""
import pathlib
import re

ROWS = pathlib.Path(__file__).resolve().parent.parent / "crates" / "instructions" / "specs" / "Rows.antt"
N, V, P, B, H, I, Z, C = 0x80, 0x40, 0x20, 0x10, 0x08, 0x04, 0x02, 0x01
BACKGROUND = [(address % 256 * 7 + address // 256 * 13 + 5) % 256 for address in range(65536)]


def parsed_rows():
    """The operation and the mode of each of the 256 opcodes."""
    rows = re.findall(r"^ +row (\w+) (\w+) ∷", ROWS.read_text(encoding="utf-8"), re.MULTILINE)
    if len(rows) != 256:
        raise SystemExit(f"{ROWS} has {len(rows)} rows")
    return rows


class Machine:
    """A case's registers and memory. It notes each access, in the words of the Rust side: r0200, w01FF7F.

    (X) and (Y) stand in the direct page, unless the crate's mistake D6 is to be followed. `under` is what memory holds before the
    case's own bytes are put into it; a case that ends behind its arguments has none of these.
    """

    def __init__(self, case, follow_d6=False, under=BACKGROUND):
        self.a, self.x, self.y, self.sp = case[0], case[1], case[2], case[3]
        self.pc, self.psw = case[4] | case[5] << 8, case[6]
        self.asked, self.arguments = case[7], case[8:11]
        self.under = under
        self.memory = {case[i] | case[i + 1] << 8: case[i + 2] for i in range(11, len(case) - 2, 3)}
        self.page = 0x100 if self.psw & P else 0
        self.indirect_page = 0 if follow_d6 else self.page
        self.log, self.reads, self.stores = [], set(), {}
        self.opcode = self.displacement = None

    def byte_at(self, at):
        """The byte that stands at an address now; no access."""
        return self.memory.get(at, self.under[at])

    def read(self, at):
        self.log.append(f"r{at:04X}")
        if at not in self.stores:
            self.reads.add(at)
        return self.byte_at(at)

    def store(self, at, byte):
        self.log.append(f"w{at:04X}{byte:02X}")
        self.stores[at] = self.memory[at] = byte

    def shown(self):
        """The stores and the marked reads as our program prints them."""
        stores = "".join(f"{at:04X}{byte:02X}" for at, byte in sorted(self.stores.items()))
        return "w" + stores + "r" + "".join(f"{at:04X}" for at in sorted(self.reads))


# ---- address modes, stack and branches: crates/memory/specs/Words, crates/modes/specs


def read_word(m, at):
    low = m.read(at)
    return m.read((at + 1) % 65536) << 8 | low


def write_word(m, at, word):
    m.store(at, word % 256)
    m.store((at + 1) % 65536, word // 256)


def fetch(m):
    byte = m.read(m.pc)
    m.pc = (m.pc + 1) % 65536
    return byte


def fetch_word(m):
    low = fetch(m)
    return fetch(m) << 8 | low


def immediate(m):
    at, m.pc = m.pc, (m.pc + 1) % 65536
    return at


def direct(m, index=0):
    return m.page + (fetch(m) + index) % 256


def direct_word(m):
    byte = fetch(m)
    return m.page + byte, m.page + (byte + 1) % 256


def indirect(m, register):
    return m.indirect_page + register


def pointer_x(m):
    return read_word(m, direct(m, m.x))


def pointer_y(m):
    return (read_word(m, direct(m)) + m.y) % 65536


def absolute(m, index=0):
    return (fetch_word(m) + index) % 65536


def absolute_pointer(m):
    return read_word(m, absolute(m, m.x))


def bit_read(m):
    word = fetch_word(m)
    return m.read(word % 8192) >> word // 8192 & 1


def push(m, byte):
    m.store(0x100 + m.sp, byte)
    m.sp = (m.sp - 1) % 256


def push_word(m, word):
    push(m, word // 256)
    push(m, word % 256)


def pull(m):
    m.sp = (m.sp + 1) % 256
    return m.read(0x100 + m.sp)


def pull_word(m):
    low = pull(m)
    return pull(m) << 8 | low


def branched(m):
    """Reads the displacement, and leaves PC behind it: where it leads is a matter of registers."""
    m.displacement = fetch(m)


def branched_if(m, test):
    if test:
        branched(m)


# ---- Gather.antt: what each mode reads; the operands are (at, next, low, high)


def loaded(m, at):
    return at, 0, m.read(at), 0


def target(at):
    return at, 0, 0, 0


def both_loaded(m, source, at):
    low = m.read(source)
    return at, 0, low, m.read(at)


def direct_direct(m):
    source = direct(m)
    return both_loaded(m, source, direct(m))


def direct_to_direct(m):
    source = direct(m)
    at = direct(m)
    return at, 0, m.read(source), 0


def direct_immediate(m):
    byte = fetch(m)
    at = direct(m)
    return at, 0, byte, m.read(at)


def immediate_to_direct(m):
    byte = fetch(m)
    return direct(m), 0, byte, 0


def loaded_word(m):
    at, following = direct_word(m)
    low = m.read(at)
    return at, following, low, m.read(following)


def memory_bit(m):
    word = fetch_word(m)
    at = word % 8192
    return at, 0, m.read(at), 1 << word // 8192


def pulled_three(m):
    byte = pull(m)
    return pull_word(m), 0, byte, 0


GATHER = {
    "implied": lambda m, k: target(0),
    "immediate": lambda m, k: (0, 0, fetch(m), 0),
    "direct": lambda m, k: loaded(m, direct(m)),
    "directX": lambda m, k: loaded(m, direct(m, m.x)),
    "directY": lambda m, k: loaded(m, direct(m, m.y)),
    "absolute": lambda m, k: loaded(m, absolute(m)),
    "absoluteX": lambda m, k: loaded(m, absolute(m, m.x)),
    "absoluteY": lambda m, k: loaded(m, absolute(m, m.y)),
    "atX": lambda m, k: loaded(m, indirect(m, m.x)),
    "pointerX": lambda m, k: loaded(m, pointer_x(m)),
    "pointerY": lambda m, k: loaded(m, pointer_y(m)),
    "toDirect": lambda m, k: target(direct(m)),
    "toDirectX": lambda m, k: target(direct(m, m.x)),
    "toDirectY": lambda m, k: target(direct(m, m.y)),
    "toAbsolute": lambda m, k: target(absolute(m)),
    "toAbsoluteX": lambda m, k: target(absolute(m, m.x)),
    "toAbsoluteY": lambda m, k: target(absolute(m, m.y)),
    "toX": lambda m, k: target(indirect(m, m.x)),
    "toPointerX": lambda m, k: target(pointer_x(m)),
    "toPointerY": lambda m, k: target(pointer_y(m)),
    "directDirect": lambda m, k: direct_direct(m),
    "directToDirect": lambda m, k: direct_to_direct(m),
    "directImmediate": lambda m, k: direct_immediate(m),
    "immediateToDirect": lambda m, k: immediate_to_direct(m),
    "atXatY": lambda m, k: both_loaded(m, indirect(m, m.y), indirect(m, m.x)),
    "directWord": lambda m, k: loaded_word(m),
    "toDirectWord": lambda m, k: (*direct_word(m), 0, 0),
    "memoryBit": lambda m, k: memory_bit(m),
    "word": lambda m, k: target(absolute(m)),
    "wordAtX": lambda m, k: target(absolute_pointer(m)),
    "upperPage": lambda m, k: target(0xFF00 + fetch(m)),
    "tableVector": lambda m, k: target(read_word(m, 0xFFDE - k // 16 * 2)),
    "breakVector": lambda m, k: target(read_word(m, 0xFFDE)),
    "pulled": lambda m, k: (0, 0, pull(m), 0),
    "pulledWord": lambda m, k: target(pull_word(m)),
    "pulledThree": lambda m, k: pulled_three(m),
}


# ---- Effects.antt: the byte or word that an operation stores, the byte that it pushes, whether it branches


def with_bit(wanted, bit, byte):
    return byte | bit if wanted else byte & ~bit


def bit_in(k):
    return 1 << k // 32


# the byte stored at the target, from the case m, the opcode k, and the operands low and high
STORED = {
    "orM": lambda m, k, low, high: high | low,
    "andM": lambda m, k, low, high: high & low,
    "eorM": lambda m, k, low, high: high ^ low,
    "adcM": lambda m, k, low, high: high + low + (m.psw & C),
    "sbcM": lambda m, k, low, high: high - low - 1 + (m.psw & C),
    "aslM": lambda m, k, low, high: low << 1,
    "rolM": lambda m, k, low, high: low << 1 | m.psw & C,
    "lsrM": lambda m, k, low, high: low >> 1,
    "rorM": lambda m, k, low, high: low >> 1 | (m.psw & C) << 7,
    "decM": lambda m, k, low, high: low - 1,
    "incM": lambda m, k, low, high: low + 1,
    "storeA": lambda m, k, low, high: m.a,
    "storeX": lambda m, k, low, high: m.x,
    "storeY": lambda m, k, low, high: m.y,
    "storeAInc": lambda m, k, low, high: m.a,
    "storeByte": lambda m, k, low, high: low,
    "tset1": lambda m, k, low, high: low | m.a,
    "tclr1": lambda m, k, low, high: low & ~m.a,
    "set1": lambda m, k, low, high: with_bit(True, bit_in(k), low),
    "clr1": lambda m, k, low, high: with_bit(False, bit_in(k), low),
    "not1": lambda m, k, low, high: low ^ high,
    "storeC": lambda m, k, low, high: with_bit(m.psw & C, high, low),
    "dbnzM": lambda m, k, low, high: low - 1,
}

# the word stored, low byte first
STORED_WORD = {
    "storeYA": lambda m, word: m.y << 8 | m.a,
    "incw": lambda m, word: word + 1,
    "decw": lambda m, word: word - 1,
}

PUSHED = {
    "pushA": lambda m: m.a,
    "pushX": lambda m: m.x,
    "pushY": lambda m: m.y,
    "pushPsw": lambda m: m.psw,
}

# whether the branch is taken
TAKEN = {
    "bpl": lambda m, k, low: not m.psw & N,
    "bmi": lambda m, k, low: m.psw & N,
    "bvc": lambda m, k, low: not m.psw & V,
    "bvs": lambda m, k, low: m.psw & V,
    "bcc": lambda m, k, low: not m.psw & C,
    "bcs": lambda m, k, low: m.psw & C,
    "bne": lambda m, k, low: not m.psw & Z,
    "beq": lambda m, k, low: m.psw & Z,
    "bra": lambda m, k, low: True,
    "bbs": lambda m, k, low: low & bit_in(k),
    "bbc": lambda m, k, low: not low & bit_in(k),
    "cbne": lambda m, k, low: m.a != low,
    "dbnzM": lambda m, k, low: low != 1,
    "dbnzY": lambda m, k, low: m.y != 1,
}


# ---- Step.antt: the opcode, what its row reads, its stores, and last a taken displacement


def commit(m, operation, k, operands):
    at, following, low, high = operands
    if operation in STORED:
        m.store(at, STORED[operation](m, k, low, high) % 256)
    elif operation in STORED_WORD:
        word = STORED_WORD[operation](m, high << 8 | low) % 65536
        m.store(at, word % 256)
        m.store(following, word // 256)
    elif operation in PUSHED:
        push(m, PUSHED[operation](m))
    elif operation == "call":
        push_word(m, m.pc)
    elif operation == "brk":
        push_word(m, m.pc)
        push(m, m.psw)


def step(m):
    k = m.opcode = fetch(m)
    operation, mode = ROW[k]
    operands = GATHER[mode](m, k)
    commit(m, operation, k, operands)
    if operation in TAKEN and TAKEN[operation](m, k, operands[2]):
        branched(m)


ROW = parsed_rows()

# What cases ask for, by number, from the case's first argument byte and its first argument word. Each gives what it finds: one number,
# two for `dw`, or None.
ASKED = {
    0: lambda m, low, word: step(m),
    1: lambda m, low, word: immediate(m),
    2: lambda m, low, word: direct(m, low),
    3: lambda m, low, word: direct(m),
    4: lambda m, low, word: direct(m, m.x),
    5: lambda m, low, word: direct(m, m.y),
    6: lambda m, low, word: indirect(m, m.x),
    7: lambda m, low, word: indirect(m, m.y),
    8: lambda m, low, word: pointer_x(m),
    9: lambda m, low, word: pointer_y(m),
    10: lambda m, low, word: absolute(m, low),
    11: lambda m, low, word: absolute(m),
    12: lambda m, low, word: absolute(m, m.x),
    13: lambda m, low, word: absolute(m, m.y),
    14: lambda m, low, word: direct_word(m),
    15: lambda m, low, word: bit_read(m),
    16: lambda m, low, word: read_word(m, word),
    17: lambda m, low, word: pull(m),
    18: lambda m, low, word: pull_word(m),
    19: lambda m, low, word: branched(m),
    20: lambda m, low, word: branched_if(m, low),
    21: lambda m, low, word: write_word(m, word, m.a << 8 | m.arguments[2]),
    22: lambda m, low, word: push(m, low),
    23: lambda m, low, word: push_word(m, word),
    24: lambda m, low, word: push_word(m, m.pc),
}


def performed(case, follow_d6=False, under=BACKGROUND):
    """The machine after what the case asks, and what was found, as our program prints it."""
    m = Machine(case, follow_d6, under)
    low, high, _ = m.arguments
    found = ASKED[m.asked](m, low, high << 8 | low)
    first, second = found if isinstance(found, tuple) else (found or 0, 0)
    return m, f"{first:04X}{second:04X}"
