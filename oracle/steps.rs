// Answers to cases on memory: registers, what was found, and every access in its order.
use crate::processor::on_memory;
use crate::{HasAddressBus, Processor, ProgramStatusWord};
use std::fmt::Write;

pub type StepCase = [u8; 64];

// What memory holds before a case's own bytes are put into it.
fn background(address: usize) -> u8 {
    let (low, high) = (address % 256, address / 256 % 256);
    ((low * 7 + high * 13 + 5) % 256) as u8
}

enum Access {
    Read(usize),
    Store(usize, u8),
}

pub struct Bus {
    memory: Vec<u8>,
    accesses: Vec<Access>,
}

impl HasAddressBus for Bus {
    fn io(&mut self) {}
    fn read(&mut self, address: usize) -> u8 {
        self.accesses.push(Access::Read(address));
        self.memory[address]
    }
    fn write(&mut self, address: usize, value: u8) {
        self.accesses.push(Access::Store(address, value));
        self.memory[address] = value;
    }
}

// The addresses and values of a case's own bytes.
fn pokes(case: &StepCase) -> impl Iterator<Item = (usize, u8)> {
    case[11..62].chunks(3).map(|poke| (u16::from_le_bytes([poke[0], poke[1]]) as usize, poke[2]))
}

impl Bus {
    // Some bytes more than 65,536, so that a store past the memory's end shows as such and not as a panic.
    pub fn new() -> Bus {
        Bus { memory: (0..65536 + 8).map(background).collect(), accesses: Vec::new() }
    }

    fn clear(&mut self, case: &StepCase) {
        for access in self.accesses.drain(..) {
            if let Access::Store(address, _) = access {
                self.memory[address] = background(address);
            }
        }
        for (address, _) in pokes(case) {
            self.memory[address] = background(address);
        }
    }

    pub fn answer(&mut self, case: &StepCase) -> String {
        for (address, value) in pokes(case) {
            self.memory[address] = value;
        }
        let mut line = self.registers(case);
        for access in &self.accesses {
            match access {
                Access::Read(address) => write!(line, " r{address:04X}").unwrap(),
                Access::Store(address, value) => write!(line, " w{address:04X}{value:02X}").unwrap(),
            }
        }
        self.clear(case);
        line
    }

    // Registers, stop 0 and what was found, or `panic`.
    fn registers(&mut self, case: &StepCase) -> String {
        let mut cpu = Processor {
            a: case[0],
            x: case[1],
            y: case[2],
            sp: case[3],
            pc: u16::from_le_bytes([case[4], case[5]]),
            psw: ProgramStatusWord::from_byte(case[6]),
        };
        let asked = || on_memory::ask(case[7], &mut cpu, [case[8], case[9], case[10]], self);
        let Ok([result, second]) = std::panic::catch_unwind(std::panic::AssertUnwindSafe(asked)) else {
            return "panic".to_string();
        };
        let Processor { a, x, y, sp, pc, psw } = cpu;
        format!("{a:02X}{x:02X}{y:02X}{sp:02X}{pc:04X}{:02X}00{result:04X}{second:04X}", psw.to_byte())
    }
}
