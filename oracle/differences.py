"""Where the Rust crate and document 01 part, as far as the oracle's cases go: for a case, the label of its row in
docs/DIFFERENCES.md and our answer.

A case that no rule names must have the same answer on both sides; a case that a rule names must differ, in just this way.
"""


def status(answer, n, z, c):
    """The answer of a method with N, Z and C of its status byte replaced."""
    byte = int(answer[-2:], 16) & 0x7C | n << 7 | z << 1 | c
    return f"{answer[:-2]}{byte:02X}"


def listed(code, modes, carry):
    """D3 and D4: the lists of modes of 35 opcodes. The label of an opcode or None, and our list from the crate's."""
    if code & 0x1F in (0x02, 0x12, 0x03, 0x13):
        return "D3", [modes[1], modes[0]] + modes[2:]
    if code in (0x4A, 0x6A, 0x8A):
        return "D4", [carry] + modes
    return None, modes


def opcode(case, answer):
    """The name and the modes of an opcode."""
    name, *modes = answer.split(" ")
    label, ours = listed(case[1], modes, "1400")
    return label, " ".join([name] + ours)


def exchanged(operands):
    """The first and the last of a branch's operands, `$10` and `+5`, each with the byte of the other."""
    direct, displacement = int(operands[0][1:], 16), int(operands[-1])
    return [f"${displacement & 0xFF:02X}"] + operands[1:-1] + [f"{direct - 2 * (direct & 0x80):+}"]


def instruction(case, answer):
    """The text of an instruction: D3 and D4, and D12, the order of the operand bytes of CBNE, DBNZ, BBS and BBC."""
    code, first, second = case[1:4]
    name, blank, text = answer.partition(" ")
    label, ours = listed(code, text.split(", "), "C")
    if (code & 0x0F == 0x03 or code in (0x2E, 0x6E, 0xDE)) and first != second:
        label, ours = "D12", exchanged(ours)
    return label, name + blank + ", ".join(ours)


def cmpw_flags(ya, word):
    """The flags of CMPW, those of the 16-bit difference."""
    rest = (ya - word) & 0xFFFF
    return {"n": rest >> 15, "z": int(rest == 0), "c": int(ya >= word)}


def compared(case, answer):
    """D5: CMPW in 16 bits; the crate forgets the borrow of the low byte and the low byte's part in Z."""
    ours = status(answer, **cmpw_flags(case[3] << 8 | case[1], case[9] << 8 | case[8]))
    return ("D5", ours) if ours != answer else (None, answer)


def expected(case, answer):
    """The label of a case or None, and our answer, from the crate's answer."""
    if case[0] == 2:
        return opcode(case, answer)
    if case[0] == 4:
        return instruction(case, answer)
    if case[0] == 40:
        return compared(case, answer)
    return None, answer
