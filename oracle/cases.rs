// The lists of cases: a sample that the repository's tests replay, and all that a comparison at scale goes through.
use crate::Case;

// Numbers that look random and are the same on every machine.
pub struct Numbers(pub u64);

impl Numbers {
    pub fn byte(&mut self) -> u8 {
        self.0 = self.0.wrapping_mul(6364136223846793005).wrapping_add(1442695040888963407);
        (self.0 >> 56) as u8
    }
}

// Methods whose answer depends on two operand bytes, on A (or X, Y) and one, on one alone, and on registers alone.
const TWO: [u8; 12] = [17, 18, 19, 20, 21, 23, 24, 38, 39, 40, 41, 42];
const WITH_A: [u8; 6] = [22, 25, 26, 27, 36, 37];
const ONE: [u8; 9] = [16, 28, 29, 30, 31, 32, 33, 34, 35];
const REGISTERS: [u8; 5] = [43, 44, 45, 46, 47];

fn arithmetic(method: u8, registers: [u8; 7], l: u8, r: u8) -> Case {
    let [a, x, y, sp, low, high, psw] = registers;
    [method, a, x, y, sp, low, high, psw, l, r, 0, 0, 0, 0, 0, 0]
}

// A case for every byte: of the status word, 0, or of an opcode, 2.
fn each_byte(kind: u8, to: &mut dyn FnMut(Case)) {
    for byte in 0..=255 {
        let mut case = [0; 16];
        (case[0], case[1]) = (kind, byte);
        to(case);
    }
}

fn texts(count: usize, numbers: &mut Numbers, to: &mut dyn FnMut(Case)) {
    for _ in 0..count {
        let mut case = [0; 16];
        case[0] = 1;
        case[1..8].fill_with(|| numbers.byte());
        to(case);
    }
}

// Every list of up to three modes, with operand bytes and a carried number that differ from case to case.
fn lists(most: u8, numbers: &mut Numbers, to: &mut dyn FnMut(Case)) {
    for count in 0..=most {
        for list in 0..24usize.pow(count as u32) {
            let mut case = [0; 16];
            case[0] = 3;
            case[1] = count;
            for i in 0..3 {
                case[2 + 2 * i] = (list / 24usize.pow(i as u32) % 24) as u8;
                case[3 + 2 * i] = numbers.byte();
            }
            case[8] = 6;
            case[9..15].fill_with(|| numbers.byte());
            to(case);
        }
    }
}

// One mode alone over every byte: all displacements, all numbers that a mode can carry.
fn single_modes(to: &mut dyn FnMut(Case)) {
    for kind in 0..24 {
        for byte in 0..=255u8 {
            let mut case = [0; 16];
            (case[0], case[1], case[2], case[3]) = (3, 1, kind, byte);
            (case[8], case[9], case[10]) = (2, byte, byte.wrapping_mul(7));
            to(case);
        }
    }
}

// An instruction and its two operand bytes.
fn instruction(opcode: u8, first: u8, second: u8) -> Case {
    let mut case = [0; 16];
    case[..4].copy_from_slice(&[4, opcode, first, second]);
    case
}

// So many instructions of each opcode, with operand bytes at random.
fn instructions(count: usize, numbers: &mut Numbers, to: &mut dyn FnMut(Case)) {
    for opcode in 0..=255 {
        for _ in 0..count {
            let first = numbers.byte();
            to(instruction(opcode, first, numbers.byte()));
        }
    }
}

// CBNE, DBNZ, BBS and BBC with every two operand bytes.
fn branches(to: &mut dyn FnMut(Case)) {
    for opcode in (0..=255).filter(|opcode| opcode % 16 == 3 || [0x2E, 0x6E, 0xDE, 0xFE].contains(opcode)) {
        for pair in 0..=65535u16 {
            let [first, second] = pair.to_le_bytes();
            to(instruction(opcode, first, second));
        }
    }
}

// Every pair of bytes for each method, under flag bytes that set each flag and its neighbour differently.
fn pairs(to: &mut dyn FnMut(Case)) {
    for flags in [0x00, 0x01, 0x08, 0x09, 0x55, 0xAA, 0xF6, 0xFF] {
        for pair in 0..=65535u16 {
            let [l, r] = pair.to_le_bytes();
            for method in TWO {
                to(arithmetic(method, [r ^ 0x5A, l, l ^ 0xA5, 0xEF, 0, 2, flags], l, r));
            }
            for method in WITH_A {
                to(arithmetic(method, [r, r, r, 0xEF, 0, 2, flags], l, 0));
            }
            for method in REGISTERS {
                to(arithmetic(method, [l, r, l ^ r, 0xEF, 0, 2, flags], 0, 0));
                to(arithmetic(method, [l, 3, r, 0xEF, 0, 2, flags], 0, 0));
            }
        }
    }
    for method in ONE {
        for flags in 0..=255 {
            for byte in 0..=255 {
                to(arithmetic(method, [byte ^ 0xFF, 1, 2, 0xEF, 0, 2, flags], byte, 0));
            }
        }
    }
}

// Registers and operands at random: words against words, and divisions of every kind.
fn random(count: usize, numbers: &mut Numbers, to: &mut dyn FnMut(Case)) {
    for _ in 0..count {
        for method in 16..=47 {
            let mut registers = [0; 7];
            registers.fill_with(|| numbers.byte());
            let l = numbers.byte();
            let r = numbers.byte();
            to(arithmetic(method, registers, l, r));
        }
    }
}

pub fn sample(to: &mut dyn FnMut(Case)) {
    let mut numbers = Numbers(1);
    each_byte(0, to);
    each_byte(2, to);
    texts(20, &mut numbers, to);
    lists(1, &mut numbers, to);
    random(40, &mut numbers, to);
    instructions(1, &mut numbers, to);
}

pub fn all(to: &mut dyn FnMut(Case)) {
    let mut numbers = Numbers(2);
    each_byte(0, to);
    each_byte(2, to);
    texts(10_000, &mut numbers, to);
    lists(3, &mut numbers, to);
    single_modes(to);
    pairs(to);
    random(100_000, &mut numbers, to);
    instructions(1_000, &mut numbers, to);
    branches(to);
}
