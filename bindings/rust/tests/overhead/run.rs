//! Runs a program of two slots as often as it is asked, as overhead.c does in C.

use ebpf_host::{Declaration, Error, Machine, Program};

fn main() -> Result<(), Error> {
    let slots = [0x61, 0x10, 0, 0, 0, 0, 0, 0, 0x95, 0, 0, 0, 0, 0, 0, 0]; // reads four bytes of the context and returns them
    let runs: u32 = std::env::args().nth(1).and_then(|word| word.parse().ok()).unwrap_or(0);
    let program = Program::load(&slots, Declaration { context: 4, held: 0 })?;
    let mut machine = Machine::new(1)?;
    let mut sum = 0;
    for i in 0..runs {
        sum += machine.run(&program, &i.to_le_bytes())?.exit;
    }
    println!("{sum}");
    Ok(())
}
