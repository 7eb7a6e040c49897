"""Where the Rust crate and the documents part on memory: for a case, the label of its row in docs/DIFFERENCES.md, and both answers.

A case that no rule names must agree in everything: registers, results, and every access in its order. A case that a rule names must
differ, in just the way the rule says. A rule takes the case, the head of the crate's answer (registers, stop, results) and the machine
of accesses.py after the case. It gives None, or a Named: its label, the head that is due from us, and the head and the accesses that
are the crate's own mistake. Parts of a head that a rule does not speak of are taken from the crate's answer, for both sides.
"""
import collections

from accesses import C, H, N, P, V, Z, Machine, performed
from differences import cmpw_flags

Named = collections.namedtuple("Named", "label due crate accesses")

# the digits of a head: A X Y SP PC PSW stop result second
PC, PSW, RESULT = slice(8, 12), slice(12, 14), slice(16, 20)


def replaced(head, part, number):
    """A head with the digits of one part replaced."""
    return f"{head[:part.start]}{number:0{part.stop - part.start}X}{head[part.stop:]}"


def head_of(case, a=None, x=None, psw=None, stop=0):
    """The head of a step that is one byte long and leaves all registers but these as they were."""
    registers = [case[0] if a is None else a, case[1] if x is None else x, case[2], case[3]]
    pc = ((case[4] | case[5] << 8) + 1) % 65536
    return "".join(f"{r:02X}" for r in registers) + f"{pc:04X}{case[6] if psw is None else psw:02X}{stop:02X}00000000"


def flags(psw, **values):
    """A status byte with some flags replaced."""
    bits = {"n": N, "v": V, "h": H, "z": Z, "c": C}
    for name, on in values.items():
        psw = psw | bits[name] if on else psw & ~bits[name]
    return psw


def branch(case, head, machine):
    """D1: the crate takes the sum of PC and displacement modulo 65,535."""
    total = machine.pc + (machine.displacement ^ 0x80) - 0x80
    if total < 65535:
        return None
    return Named("D1", replaced(head, PC, total % 65536), replaced(head, PC, total % 65535), machine.log)


def write_u16(case, head, machine):
    """D2: the crate stores the second byte of a word at 65,535 past the memory's end."""
    first, second = machine.log
    return Named("D2", head, head, [first, "w10000" + second[-2:]]) if case[8:10] == b"\xFF\xFF" else None


def cmpw(case, head, machine):
    """D5: the crate's flags are those of Y against the high byte alone."""
    high, low = (machine.byte_at(int(read[1:], 16)) for read in (machine.log[3], machine.log[2]))
    due = flags(case[6], **cmpw_flags(case[2] << 8 | case[0], high << 8 | low))
    crate = flags(case[6], n=(case[2] - high) & 0x80, z=case[2] == high, c=case[2] >= high)
    return Named("D5", replaced(head, PSW, due), replaced(head, PSW, crate), machine.log) if due != crate else None


def add(psw, l, r):
    """The sum of ADC, and its flags."""
    carry = psw & C
    total = l + r + carry
    signed = (l ^ 0x80) - 0x80 + (r ^ 0x80) - 0x80 + carry
    half = l % 16 + r % 16 + carry
    return total % 256, flags(psw, n=total & 0x80, v=not -128 <= signed <= 127, h=half > 15, z=total % 256 == 0, c=total > 255)


def combined(operation, psw, l, r):
    """OR, AND, EOR, CMP, ADC, SBC and MOV by the opcode's top three bits: the byte that results, and the flags."""
    if operation == 3:
        rest = (l - r) % 256
        return l, flags(psw, n=rest & 0x80, z=rest == 0, c=l >= r)
    if operation in (4, 5):
        return add(psw, l, r if operation == 4 else 255 - r)
    byte = {0: l | r, 1: l & r, 2: l ^ r, 7: r}[operation]
    return byte, flags(psw, n=byte & 0x80, z=byte == 0)


def indirect_head(case, opcode, page):
    """The head of an instruction with (X), (Y) or (X)+ where these stand in a page."""
    a, x, psw, before = case[0], case[1], case[6], Machine(case)
    at_x, at_y = before.byte_at(page + x), before.byte_at(page + case[2])
    raised = (x + 1) % 256
    if opcode == 0xC6:
        return head_of(case)
    if opcode == 0xAF:
        return head_of(case, x=raised)
    if opcode == 0xBF:
        return head_of(case, a=at_x, x=raised, psw=combined(7, psw, a, at_x)[1])
    if opcode & 0x1F == 0x19:
        return head_of(case, psw=combined(opcode >> 5, psw, at_x, at_y)[1])
    result, after = combined(opcode >> 5, psw, a, at_x)
    return head_of(case, a=result, psw=after)


def at_x_or_y(case, head, machine):
    """D6: the crate takes (X) and (Y) from page 0, whatever P."""
    if not case[6] & P:
        return None
    due, crate = (indirect_head(case, machine.opcode, page) for page in (0x100, 0))
    return Named("D6", due, crate, performed(case, follow_d6=True)[0].log)


def ix_or_iy(case, head, machine):
    """D6 in the functions themselves: the address that is found."""
    if not case[6] & P:
        return None
    register = case[1] if machine.asked == 6 else case[2]
    return Named("D6", replaced(head, RESULT, 0x100 + register), replaced(head, RESULT, register), machine.log)


def decw(case, head, machine):
    """D7: the crate stores the high byte only where the low one borrows."""
    low = Machine(case).byte_at(int(machine.log[2][1:], 16))
    return Named("D7", head, head, machine.log[:-1]) if low != 0 else None


def and1_inverted(case, head, machine):
    """D8: the crate inverts the conjunction, and not the bit."""
    if case[6] & C:
        return None
    return Named("D8", replaced(head, PSW, case[6]), replaced(head, PSW, case[6] | C), machine.log)


def sleep_or_stop(case, head, machine):
    """D9: the crate has no such instructions, and panics."""
    return Named("D9", head_of(case, stop=1 if machine.opcode == 0xEF else 2), "panic", machine.log)


def direct_direct(case, head, machine):
    """D10: the crate reads the source before the second operand byte. It does not show where these are the same byte."""
    opcode, first, second, source, *others = machine.log
    return Named("D10", head, head, [opcode, first, source, second, *others]) if source != second else None


def brk(case, head, machine):
    """D11: the crate pushes before it reads the vector."""
    return Named("D11", head, head, machine.log[:1] + machine.log[3:] + machine.log[1:3])


FUNCTION_RULES = {6: ix_or_iy, 7: ix_or_iy, 21: write_u16}
STEP_RULES = {0x5A: cmpw, 0x1A: decw, 0x6A: and1_inverted, 0xEF: sleep_or_stop, 0xFF: sleep_or_stop, 0x0F: brk}
STEP_RULES |= dict.fromkeys((0x06, 0x26, 0x46, 0x66, 0x86, 0xA6, 0xC6, 0xE6, 0xAF, 0xBF), at_x_or_y)
STEP_RULES |= dict.fromkeys((0x19, 0x39, 0x59, 0x79, 0x99, 0xB9), at_x_or_y)
STEP_RULES |= dict.fromkeys((0x09, 0x29, 0x49, 0x69, 0x89, 0xA9, 0xFA), direct_direct)


def expected(case, head, machine):
    """What a rule says of a case, or that both sides agree."""
    if machine.displacement is not None:
        rule = branch
    elif machine.asked == 0:
        rule = STEP_RULES.get(machine.opcode)
    else:
        rule = FUNCTION_RULES.get(machine.asked)
    named = rule(case, head, machine) if rule else None
    return named or Named(None, head, head, machine.log)
