// Cases on memory: corners by name; and for each opcode, and for each function, states at random and at the borders.
use crate::cases::Numbers;
use crate::steps::StepCase;

const FUNCTIONS: u8 = 24;

// Steps: A X Y SP, PC, PSW, three bytes of code, and a byte elsewhere.
const CORNERS: [([u8; 4], u16, u8, [u8; 3], (u16, u8)); 26] = [
    // small inputs of D1 (and the largest sum that does not differ) and of D5 to D11
    ([0, 0, 0, 0], 0xFFEE, 0, [0x2F, 0x0F, 0], (0, 0)),
    ([0, 0, 0, 0], 0xFFEE, 0, [0x2F, 0x0E, 0], (0, 0)),
    ([0, 0, 0, 0], 0x0200, 0, [0x5A, 0x10, 0], (0x0011, 0)),
    ([0, 0, 0, 0], 0x0200, 0x20, [0xE6, 0, 0], (0x0100, 0)),
    ([0, 0, 0, 0], 0x0200, 0, [0x1A, 0x10, 0], (0x0010, 1)),
    ([0, 0, 0, 0], 0x0200, 0, [0x1A, 0x10, 0], (0x0010, 0)),
    ([0, 0, 0, 0], 0x0200, 0, [0x6A, 0, 0], (0x0000, 1)),
    ([0, 0, 0, 0], 0x0200, 0, [0xEF, 0, 0], (0, 0)),
    ([0, 0, 0, 0], 0x0200, 0, [0xFF, 0, 0], (0, 0)),
    ([0, 0, 0, 0], 0x0200, 0, [0x09, 0x10, 0x20], (0, 0)),
    ([0, 0, 0, 0], 0x0200, 0, [0x0F, 0, 0], (0, 0)),
    // d,d whose source is its own second operand byte
    ([0, 0, 0, 0], 0x0010, 0, [0x09, 0x12, 0x20], (0, 0)),
    ([0, 0, 0, 0], 0x0010, 0, [0xFA, 0x12, 0x20], (0, 0)),
    // DBNZ that stores onto its own displacement: taken, not taken, in page 1, to the end of memory
    ([0, 0, 0, 0], 0x0010, 0, [0x6E, 0x12, 0x80], (0, 0)),
    ([0, 0, 0, 0], 0x0010, 0, [0x6E, 0x12, 0x01], (0, 0)),
    ([0, 0, 0, 0], 0x0110, 0x20, [0x6E, 0x12, 0x00], (0, 0)),
    ([0, 0, 0, 0], 0x0000, 0, [0x6E, 0x02, 0xFD], (0, 0)),
    // DIV by 0, and with Y below and above 2X
    ([5, 0, 3, 0], 0x0200, 0, [0x9E, 0, 0], (0, 0)),
    ([0, 2, 1, 0], 0x0200, 0, [0x9E, 0, 0], (0, 0)),
    ([0xFF, 1, 0xFF, 0], 0x0200, 0, [0x9E, 0, 0], (0, 0)),
    // words and pointers that wrap: CALL at the stack's end, JMP [!a+X], [d]+Y from 00FF, MOVW at the page's end
    ([0, 0, 0, 0], 0x0200, 0, [0x3F, 0x34, 0x12], (0, 0)),
    ([0, 0xFF, 0, 0], 0x0200, 0, [0x1F, 0x00, 0xFF], (0xFFFF, 0x34)),
    ([0, 0, 0xFF, 0], 0x0200, 0, [0xF7, 0xFF, 0], (0x0100, 0xFF)),
    ([0, 0, 0, 0], 0x0200, 0x20, [0xDA, 0xFF, 0], (0, 0)),
    // an instruction that ends where memory begins, and a pull that wraps
    ([0, 0, 0, 0], 0xFFFE, 0, [0xE5, 0x34, 0x12], (0, 0)),
    ([0, 0, 0, 0xFE], 0x0200, 0, [0x7F, 0, 0], (0x0100, 0x12)),
];

// The k-th of the 17 bytes that a case puts into memory.
fn put(case: &mut StepCase, k: usize, place: u16, value: u8) {
    let [low, high] = place.to_le_bytes();
    case[11 + 3 * k..14 + 3 * k].copy_from_slice(&[low, high, value]);
}

fn corner(registers: [u8; 4], pc: u16, psw: u8, code: [u8; 3], elsewhere: (u16, u8)) -> StepCase {
    let mut case = [0; 64];
    case[..4].copy_from_slice(&registers);
    [case[4], case[5]] = pc.to_le_bytes();
    case[6] = psw;
    // what is not needed of the 17 repeats the byte elsewhere; the code stands over it
    for k in 0..14 {
        put(&mut case, k, elsewhere.0, elsewhere.1);
    }
    for (k, byte) in code.into_iter().enumerate() {
        put(&mut case, 14 + k, pc.wrapping_add(k as u16), byte);
    }
    case
}

// `write_u16` at an address, of the word 1234.
fn write_u16(place: u16) -> StepCase {
    let mut case = corner([0x12, 0, 0, 0], 0x0200, 0, [0, 0, 0], (0, 0));
    let [low, high] = place.to_le_bytes();
    case[7..11].copy_from_slice(&[21, low, high, 0x34]);
    case
}

// A byte that is often a border.
fn edge(numbers: &mut Numbers) -> u8 {
    match numbers.byte() % 10 {
        0 => 0x00,
        1 => 0xFF,
        2 => 0x01,
        3 => 0xFE,
        4 => 0x80,
        5 => 0x7F,
        _ => numbers.byte(),
    }
}

// Where the code stands: anywhere, at the end of memory, in page 0 (and its end), in page 1 (and its end).
fn place(turn: usize, numbers: &mut Numbers) -> u16 {
    let near = numbers.byte();
    match turn % 8 {
        1 => 0xFFF8 + (near % 8) as u16,
        2 => near as u16,
        3 => 0x100 + near as u16,
        5 => 0xFF00 + near as u16,
        6 => 0x00FB + (near % 8) as u16,
        7 => 0x01FB + (near % 8) as u16,
        _ => u16::from_le_bytes([near, numbers.byte()]),
    }
}

// Makes operands and index registers name the code itself, so that a step reads or stores over it.
fn overlap(case: &mut StepCase, operands: &mut [u8; 2], pc: u16, numbers: &mut Numbers) {
    let [low, high] = pc.wrapping_add((numbers.byte() % 4) as u16).to_le_bytes();
    match numbers.byte() % 4 {
        0 => *operands = [low, high],
        1 => *operands = [low, (pc as u8).wrapping_add(numbers.byte() % 4)],
        2 => operands[0] = low.wrapping_sub(case[1]),
        _ => (case[1], case[2], case[3]) = (low, low.wrapping_add(1), low),
    }
}

// The places that an instruction with these operands can reach; the code comes last and stands over them.
fn reached(case: &StepCase, code: [u8; 3], operands: [u8; 2], pc: u16) -> [u16; 17] {
    let [_, x, y, sp, ..] = *case;
    let page = if case[6] & 0x20 != 0 { 0x100 } else { 0 };
    let direct = |byte: u8, index: u8| page + byte.wrapping_add(index) as u16;
    let [first, second] = operands;
    let word = u16::from_le_bytes(operands);
    [
        direct(first, 0),
        direct(first, 1),
        direct(first, x),
        direct(first, x).wrapping_add(1),
        direct(second, 0),
        direct(x, 0),
        direct(y, 0),
        0x100 + sp.wrapping_add(1) as u16,
        0x100 + sp.wrapping_add(2) as u16,
        word,
        word.wrapping_add(x as u16),
        word.wrapping_add(y as u16),
        word & 0x1FFF,
        // the vector of TCALL and BRK
        0xFFDE - 2 * (code[0] >> 4) as u16 + (first & 1) as u16,
        pc,
        pc.wrapping_add(1),
        pc.wrapping_add(2),
    ]
}

// A case; the turn decides where the code stands, and P. A function finds its operands at PC itself.
fn state(asked: u8, opcode: u8, turn: usize, numbers: &mut Numbers) -> StepCase {
    let mut case = [0; 64];
    case[..4].fill_with(|| edge(numbers));
    let pc = place(turn, numbers);
    [case[4], case[5]] = pc.to_le_bytes();
    case[6] = numbers.byte() & 0xDF | if (turn + turn / 8) % 2 == 1 { 0x20 } else { 0 };
    case[7] = asked;
    case[8..11].fill_with(|| edge(numbers));
    let mut operands = [edge(numbers), edge(numbers)];
    if matches!(turn % 8, 2 | 3) || numbers.byte() % 8 == 0 {
        overlap(&mut case, &mut operands, pc, numbers);
    }
    let [first, second] = operands;
    let code = if asked == 0 { [opcode, first, second] } else { [first, second, opcode] };
    let places = reached(&case, code, operands, pc);
    for (k, place) in places.into_iter().enumerate() {
        let value = if k < 14 { edge(numbers) } else { code[k - 14] };
        put(&mut case, k, place, value);
    }
    case
}

// The corners, and so many states of each opcode, and of each function.
pub fn states(opcodes: usize, functions: usize, to: &mut dyn FnMut(StepCase)) {
    for (registers, pc, psw, code, elsewhere) in CORNERS {
        to(corner(registers, pc, psw, code, elsewhere));
    }
    to(write_u16(0xFFFE));
    to(write_u16(0xFFFF));
    let mut numbers = Numbers(3);
    for opcode in 0..=255 {
        for turn in 0..opcodes {
            to(state(0, opcode, turn, &mut numbers));
        }
    }
    for asked in 1..=FUNCTIONS {
        for turn in 0..functions {
            let byte = numbers.byte();
            to(state(asked, byte, turn, &mut numbers));
        }
    }
}
