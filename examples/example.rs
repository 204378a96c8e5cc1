//! S -> A, A -> a built, its table driven over a, over a a, which is rejected, and over what is no token, and a room too short for the table.
#![deny(unsafe_code)]

#[allow(unsafe_code, dead_code)]
mod splicepost;

use splicepost::{build, drive, Built, Mode};
use std::error::Error;

/// 0: S -> A, 1: A -> a. S is nonterminal 0, A is 1, a is terminal 0.
const GRAMMAR: [u8; 32] = [
    0, 0, 0, 0, 0, 0, 0, 0, // production 0, position 0: nonterminal 0
    0, 0, 1, 0, 0, 0, 1, 0, // position 1: nonterminal 1
    1, 0, 0, 0, 0, 0, 1, 0, // production 1, position 0: nonterminal 1
    1, 0, 1, 0, 1, 0, 0, 0, // position 1: terminal 0
];

fn number_at(bytes: &[u8], at: usize) -> u16 {
    u16::from_le_bytes([bytes[at], bytes[at + 1]])
}

/// Builds the table in the room, prints it, and gives its records' bytes.
fn print_table(table: &mut [u8]) -> Result<&[u8], Box<dyn Error>> {
    let mut work = vec![0u64; splicepost::WORK];
    let Built { states, records } = build(Mode::Lane, &GRAMMAR, table, &mut work)?;
    println!("built {states} states {records} records");
    let records = &table[..8 * records];
    for record in records.chunks(8) {
        let kind = ['s', 'g', 'r'][record[2] as usize];
        println!("{} {kind} {} {}", number_at(record, 0), number_at(record, 4), number_at(record, 6));
    }
    Ok(records)
}

/// Drives the table over tokens, and prints steps, list length and the productions listed.
fn print_run(table: &[u8], tokens: &[u8]) -> Result<(), Box<dyn Error>> {
    let mut stack = [0u16; 64];
    let mut list = [0u16; 64];
    let run = drive(&GRAMMAR, table, tokens, 1000, &mut stack, &mut list)?;
    println!("accepted {} {}", run.steps, run.listed);
    for production in &list[..run.listed] {
        println!("{production}");
    }
    Ok(())
}

/// Prints a refusal where one is given.
fn say<T>(answer: Result<T, Box<dyn Error>>) {
    if let Err(refusal) = answer {
        println!("{refusal}");
    }
}

fn main() -> Result<(), Box<dyn Error>> {
    let mut table = vec![0u8; splicepost::TABLE];
    let records = print_table(&mut table)?;
    print_run(records, &[0])?;
    say(print_run(records, &[0, 0]));
    say(print_run(records, &[1]));
    say(print_table(&mut [0; 24]));
    Ok(())
}
