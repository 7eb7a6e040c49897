// The Rust crate as the judge: its answers to a list of cases, one line a case.
//
//   oracle cases sample|all               writes cases, 16 bytes each, to standard output
//   oracle answers                        reads cases from standard input and writes a line for each
//   oracle step-cases OPCODES FUNCTIONS   writes cases on memory, 64 bytes each: so many of each opcode, and of each function
//   oracle step-answers                   reads cases on memory and writes a line for each
//
// The crate's files are compiled as they stand, from the folder that SPC700_SRC names. Its private methods are reached from a
// module below theirs, so that no function is edited. oracle/README.md says what the bytes of a case mean.

mod opcode_data {
    include!(concat!(env!("SPC700_SRC"), "/opcode_data.rs"));
}
mod opcodes {
    include!(concat!(env!("SPC700_SRC"), "/opcodes.rs"));
}
mod processor {
    include!(concat!(env!("SPC700_SRC"), "/processor.rs"));
    pub mod on_memory;
    pub mod reach;
}
mod program_status_word {
    include!(concat!(env!("SPC700_SRC"), "/program_status_word.rs"));
}
pub use opcode_data::{AddressMode, OpcodeData, format_address_modes};
pub use processor::*;
pub use program_status_word::ProgramStatusWord;

mod cases;
mod modes;
mod step_cases;
mod steps;

use std::io::{Read, Write};

pub type Case = [u8; 16];

// A panic of the crate is an answer too.
fn answer(case: &Case) -> String {
    let given = *case;
    std::panic::catch_unwind(move || match given[0] {
        0 => status(given[1]),
        1 => registers(&given).to_string(),
        2 => modes::opcode(given[1]),
        3 => modes::format(&given),
        4 => modes::instruction(given[1], &given[2..4]),
        _ => processor::reach::method(given[0], registers(&given), given[8], given[9]),
    })
    .unwrap_or("panic".to_string())
}

fn status(byte: u8) -> String {
    let psw = ProgramStatusWord::from_byte(byte);
    format!("{:02X} {}", psw.to_byte(), psw)
}

// A X Y SP PC-low PC-high PSW, in the bytes 1 to 7.
fn registers(case: &Case) -> Processor {
    Processor {
        a: case[1],
        x: case[2],
        y: case[3],
        sp: case[4],
        pc: u16::from_le_bytes([case[5], case[6]]),
        psw: ProgramStatusWord::from_byte(case[7]),
    }
}

// Reads cases of N bytes to the end, and writes the answer to each. Where no case is waiting the answers are handed over: whoever asked
// may need them to make the next cases.
fn answers<const N: usize>(out: &mut impl Write, mut answer: impl FnMut(&[u8; N]) -> String) {
    let mut input = std::io::BufReader::new(std::io::stdin());
    let mut case = [0; N];
    while input.read_exact(&mut case).is_ok() {
        writeln!(out, "{}", answer(&case)).unwrap();
        if input.buffer().is_empty() {
            out.flush().unwrap();
        }
    }
}

fn main() {
    std::panic::set_hook(Box::new(|_| {}));
    let args: Vec<String> = std::env::args().collect();
    let words: Vec<&str> = args.iter().skip(1).map(String::as_str).collect();
    let mut out = std::io::BufWriter::new(std::io::stdout());
    match words[..] {
        ["cases", "sample"] => cases::sample(&mut |case| out.write_all(&case).unwrap()),
        ["cases", "all"] => cases::all(&mut |case| out.write_all(&case).unwrap()),
        ["answers"] => answers(&mut out, answer),
        ["step-cases", opcodes, functions] => {
            let counts = [opcodes, functions].map(|word| word.parse().expect("a count"));
            step_cases::states(counts[0], counts[1], &mut |case| out.write_all(&case).unwrap())
        }
        ["step-answers"] => {
            let mut bus = steps::Bus::new();
            answers(&mut out, |case| bus.answer(case))
        }
        _ => {
            eprintln!("usage: oracle cases sample|all, answers, step-cases OPCODES FUNCTIONS, step-answers");
            std::process::exit(2);
        }
    }
}
