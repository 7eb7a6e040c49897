// What a method of the crate, or one instruction of its `step`, makes of a record and two bytes.
use super::*;

struct Memory([u8; 65536]);

impl HasAddressBus for Memory {
    fn io(&mut self) {}
    fn read(&mut self, address: usize) -> u8 {
        self.0[address]
    }
    fn write(&mut self, address: usize, value: u8) {
        self.0[address] = value
    }
}

// One instruction at address 0x200 whose operand, if it has one, is the word at 0x10; the word afterwards.
fn step(cpu: &mut Processor, opcode: u8, low: u8, high: u8) -> (u8, u8) {
    let mut memory = Memory([0; 65536]);
    memory.0[0x200] = opcode;
    memory.0[0x201] = 0x10;
    memory.0[0x10] = low;
    memory.0[0x11] = high;
    let (pc, p) = (cpu.pc, cpu.psw.p);
    cpu.pc = 0x200;
    cpu.psw.p = false;
    cpu.step(&mut memory);
    cpu.pc = pc;
    cpu.psw.p = p;
    (memory.0[0x10], memory.0[0x11])
}

// The produced byte, or the produced word's low and high byte, and A X Y PSW.
pub fn method(number: u8, mut cpu: Processor, l: u8, r: u8) -> String {
    let mut word = (0, 0);
    match number {
        16 => cpu.set_nz(l),
        17 => cpu.set_nz_16le(l, r),
        18 => word.0 = cpu.adc(l, r),
        19 => word.0 = cpu.sbc(l, r),
        20 => word.0 = cpu.and(l, r),
        21 => word.0 = cpu.or(l, r),
        22 => cpu.or_a(l),
        23 => word.0 = cpu.eor(l, r),
        24 => cpu.cmp(l, r),
        25 => cpu.cmp_a(l),
        26 => cpu.cmp_x(l),
        27 => cpu.cmp_y(l),
        28 => word.0 = cpu.asl(l),
        29 => word.0 = cpu.lsr(l),
        30 => word.0 = cpu.rol(l),
        31 => word.0 = cpu.ror(l),
        32 => word.0 = cpu.inc(l),
        33 => word.0 = cpu.dec(l),
        34 => word.0 = cpu.mov(l),
        35 => word.0 = cpu.mov_no_flags(l),
        36 => word.0 = cpu.tclr(l),
        37 => word.0 = cpu.tset(l),
        38 => _ = step(&mut cpu, ADDW_YA_D, l, r),
        39 => _ = step(&mut cpu, SUBW_YA_D, l, r),
        40 => _ = step(&mut cpu, CMPW_YA_D, l, r),
        41 => word = step(&mut cpu, INCW_D, l, r),
        42 => word = step(&mut cpu, DECW_D, l, r),
        43 => _ = step(&mut cpu, MUL_YA, 0, 0),
        44 => _ = step(&mut cpu, DIV_YA_X, 0, 0),
        45 => _ = step(&mut cpu, DAA_A, 0, 0),
        46 => _ = step(&mut cpu, DAS_A, 0, 0),
        47 => _ = step(&mut cpu, XCN_A, 0, 0),
        _ => return "no such case".to_string(),
    }
    let Processor { a, x, y, psw, .. } = cpu;
    format!("{:02X}{:02X} {:02X}{:02X}{:02X} {:02X}", word.1, word.0, a, x, y, psw.to_byte())
}
