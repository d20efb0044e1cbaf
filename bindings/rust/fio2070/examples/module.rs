//! A whole module's end. Its line of octet-stuffed frames is standard input and output; of its inputs one changes each 50 ms, from
//! input 0 on, and after input 63 again from 0.
//!
//!     cargo build --example module
//!     socat TCP-LISTEN:2070,reuseaddr EXEC:target/debug/examples/module
use fio2070::constants::{WIRE_ADDRESS, WIRE_CONTROL, WIRE_LONGEST};
use fio2070::{wire_frame, Module, Wire, WireHeard, LONGEST_FRAME};
use std::error::Error;
use std::io::{stdin, stdout, Read, Write};
use std::time::Instant;

const CHANGE_MS: u64 = 50;

/// The levels of the inputs at a millisecond: input N in bit N. All are at 1 at first.
fn levels_at(millisecond: u64) -> u64 {
    let changes = millisecond / CHANGE_MS;
    let (rounds, rest) = (changes / 64, changes % 64);
    let levels = if rounds % 2 == 0 { u64::MAX } else { 0 };
    levels ^ ((1 << rest) - 1)
}

fn main() -> Result<(), Box<dyn Error>> {
    let mut module: Module = Module::new(2, 255).ok_or("the limits of the module")?;
    let mut wire = Wire::new(Some(WIRE_ADDRESS), Some(WIRE_CONTROL));
    let (mut read, mut answer, mut frame) = ([0; 512], [0; LONGEST_FRAME], [0; WIRE_LONGEST]);
    let (begun, mut scans) = (Instant::now(), 0);
    loop {
        let count = stdin().read(&mut read)?;
        if count == 0 {
            return Ok(());
        }
        // Firmware scans in each millisecond. Here the scans that are due are made up for before a command is answered.
        while u128::from(scans) < begun.elapsed().as_millis() {
            scans += 1;
            module.scan(levels_at(scans));
        }
        let mut octets = &read[..count];
        while let Some(heard) = wire.read(&mut octets) {
            // Damage and frames of other modules are no messages.
            if let WireHeard::Message { message, .. } = heard {
                if let Some(said) = module.receive(message, &mut answer) {
                    stdout().write_all(wire_frame(said, WIRE_ADDRESS, WIRE_CONTROL, &mut frame)?)?;
                }
            }
        }
        stdout().flush()?;
    }
}
