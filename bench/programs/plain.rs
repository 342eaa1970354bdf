//! The plain Rust beside which `bq_insn` and `bq_asm` are timed: the same instructions, texts and faults, written as one
//! would write them without proofs. `plain INPUT` writes a program of 4,096 slots (`slots_mixed`, `slots_alike`) or a text
//! of 4,096 lines (`lines_mixed`, `lines_labels`); `plain decode TURNS`, `plain assemble TURNS` and `plain listing TURNS`
//! read one, and do that with it so often.
mod bytes;
mod insn;
mod texts;

use std::hint::black_box;
use std::io::{self, Read, Write};
use std::time::Instant;

fn input() -> io::Result<Vec<u8>> {
    let mut input = Vec::new();
    io::stdin().read_to_end(&mut input)?;
    Ok(input)
}

/// Does the work so often, and prints the nanoseconds and the sum of what it gave.
fn timed(turns: u64, work: impl Fn() -> usize) {
    let start = Instant::now();
    let mut sum = 0;
    for _ in 0..turns {
        sum += work();
    }
    println!("{} {sum}", start.elapsed().as_nanos());
}

fn decode(turns: u64) -> io::Result<()> {
    let program = input()?;
    timed(turns, || black_box(bytes::decode(black_box(&program)).expect("a program")).len());
    Ok(())
}

fn assemble(turns: u64) -> io::Result<()> {
    let text = String::from_utf8(input()?).expect("a text");
    timed(turns, || {
        let insns = texts::assemble(black_box(&text)).expect("a program");
        black_box(&insns).iter().map(insn::Insn::slots).sum()
    });
    Ok(())
}

fn listing(turns: u64) -> io::Result<()> {
    let text = String::from_utf8(input()?).expect("a text");
    let insns = texts::assemble(&text).expect("a program");
    timed(turns, || texts::listing(black_box(&insns)).len());
    Ok(())
}

fn main() -> io::Result<()> {
    let words: Vec<String> = std::env::args().skip(1).collect();
    let words: Vec<&str> = words.iter().map(String::as_str).collect();
    let mut output = io::stdout();
    match words[..] {
        ["slots_mixed"] => output.write_all(&bytes::mixed()),
        ["slots_alike"] => output.write_all(&bytes::alike()),
        ["lines_mixed"] => output.write_all(texts::mixed().as_bytes()),
        ["lines_labels"] => output.write_all(texts::labels().as_bytes()),
        ["decode", turns] => decode(turns.parse().unwrap_or(1)),
        ["assemble", turns] => assemble(turns.parse().unwrap_or(1)),
        ["listing", turns] => listing(turns.parse().unwrap_or(1)),
        _ => Ok(()),
    }
}
