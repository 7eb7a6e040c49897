// Address modes by number, in the order of the crate's enum, the two functions on them, and the line that both make of an instruction.
use crate::{AddressMode, Case, OpcodeData, format_address_modes};
use AddressMode::*;

fn mode(kind: u8, number: u8) -> AddressMode {
    match kind {
        0 => A,
        1 => X,
        2 => XInc,
        3 => Y,
        4 => Ya,
        5 => Imm,
        6 => D,
        7 => Dx,
        8 => Dy,
        9 => Ix,
        10 => Iy,
        11 => Idx,
        12 => Idy,
        13 => Abs,
        14 => AbsX,
        15 => AbsY,
        16 => Iax,
        17 => Rel,
        18 => Mb,
        19 => Nmb,
        20 => C,
        21 => Sp,
        22 => Psw,
        _ => Encoded(number),
    }
}

// The name, and for each mode its number and what it carries.
pub fn opcode(byte: u8) -> String {
    let data = OpcodeData::from_opcode(byte);
    let mut line = data.name.to_string();
    for m in &data.addr_modes {
        let kind = (0..23).find(|k| std::mem::discriminant(&mode(*k, 0)) == std::mem::discriminant(m));
        let number = if let Encoded(n) = m { *n } else { 0 };
        line += &format!(" {:02X}{:02X}", kind.unwrap_or(23), number);
    }
    line
}

// A count, three modes with their numbers, a count of operand bytes, and at most six of them: the bytes 1 to 14.
pub fn format(case: &Case) -> String {
    let all: Vec<AddressMode> = (0..3).map(|i| mode(case[2 + 2 * i], case[3 + 2 * i])).collect();
    format_address_modes(&all[..case[1] as usize], &case[9..9 + case[8] as usize])
}

// The name and, behind a blank, the text of the modes with the operand bytes as they stand in memory. The crate has no function for this.
pub fn instruction(byte: u8, operands: &[u8]) -> String {
    let data = OpcodeData::from_opcode(byte);
    let text = format_address_modes(&data.addr_modes, operands);
    format!("{} {}", data.name, text).trim_end().to_string()
}
