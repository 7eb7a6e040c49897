// The crate's step and its functions on memory, by the number that a case asks for.
use super::*;

// What a function finds: a byte, a word, an address or a bit; two addresses for `dw`. 0 where it finds nothing.
pub fn ask(number: u8, cpu: &mut Processor, arguments: [u8; 3], bus: &mut impl HasAddressBus) -> [usize; 2] {
    let [low, high, further] = arguments;
    let word = u16::from_le_bytes([low, high]);
    let found = match number {
        1 => cpu.imm(bus),
        2 => cpu.d_off(low, bus),
        3 => cpu.d(bus),
        4 => cpu.dx(bus),
        5 => cpu.dy(bus),
        6 => cpu.ix(bus),
        7 => cpu.iy(bus),
        8 => cpu.idx(bus),
        9 => cpu.idy(bus),
        10 => cpu.abs_off(low, bus),
        11 => cpu.abs(bus),
        12 => cpu.absx(bus),
        13 => cpu.absy(bus),
        14 => return cpu.dw(bus),
        15 => usize::from(cpu.mb(bus)),
        16 => cpu.read_u16(word as usize, bus) as usize,
        17 => cpu.pull_from_stack_u8(bus) as usize,
        18 => cpu.pull_from_stack_u16(bus) as usize,
        _ => {
            act(number, cpu, low, word, u16::from_le_bytes([further, cpu.a]), bus);
            0
        }
    };
    [found, 0]
}

// What finds nothing: the step, branches and stores.
fn act(number: u8, cpu: &mut Processor, low: u8, word: u16, stored: u16, bus: &mut impl HasAddressBus) {
    match number {
        0 => cpu.step(bus),
        19 => cpu.branch_imm(bus),
        20 => cpu.read_and_branch_if(low != 0, bus),
        21 => cpu.write_u16(word as usize, stored, bus),
        22 => cpu.push_to_stack_u8(low, bus),
        23 => cpu.push_to_stack_u16(word, bus),
        24 => cpu.call(word, bus),
        _ => panic!("no such case"),
    }
}
