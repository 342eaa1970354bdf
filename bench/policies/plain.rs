//! The plain Rust beside which `bq_interp` is timed: a `match` on the opcode of 8-byte slots, with the same helpers and
//! without a check, and the programs that both run.
//!
//! `plain INPUT` writes a program: `alu-N` has N slots of random arithmetic, `memory-N` N slots of loads and stores on the
//! stack, `diamonds-N` N branches over one instruction each, `bits-N` the same where each sets another bit of register 0.
//! `plain switch TURNS` runs the program on standard input so often, its addresses being the machine's own, and counts the
//! instructions, since a run has to tell their number; `plain lean TURNS` does the same and counts nothing; `plain flat
//! TURNS` counts, has addresses as `bq_maps` defines them, and tries the stack first. None of them clears anything while it
//! is timed. `plain budget TURNS` finds the longest path only, and checks nothing.
mod interpreter;
mod programs;

use interpreter::{Machine, Slot, run};
use std::hint::black_box;
use std::io::{self, Read, Write};
use std::time::Instant;

fn slots() -> io::Result<Vec<Slot>> {
    let mut bytes = Vec::new();
    io::stdin().read_to_end(&mut bytes)?;
    Ok(bytes.chunks_exact(8).map(Slot::from_bytes).collect())
}

/// So many runs: the nanoseconds, and the sum of what they answered and how many instructions they took.
fn runs<const FLAT: bool, const COUNT: bool>(turns: u64) -> io::Result<()> {
    let slots = slots()?;
    let mut machine = Machine::new();
    // SAFETY: the programs of `programs` end, and touch only their stack.
    let (_, steps) = unsafe { run::<FLAT, true>(slots.as_ptr(), &mut machine) };
    let mut sum = 0u64;
    let start = Instant::now();
    for turn in 0..turns {
        machine.now = turn;
        // SAFETY: as above.
        let (r0, counted) = unsafe { run::<FLAT, COUNT>(black_box(slots.as_ptr()), &mut machine) };
        sum = sum.wrapping_add(r0).wrapping_add(u64::from(if COUNT { counted } else { steps }));
    }
    println!("{} {sum}", start.elapsed().as_nanos());
    Ok(())
}

/// How many instructions the longest path has; all jumps go forward.
#[inline(never)]
fn budget(slots: &[Slot]) -> u64 {
    let mut heights = vec![0u32; slots.len()];
    for (k, slot) in slots.iter().enumerate().rev() {
        let jumps = matches!(slot.code & 7, 5 | 6);
        heights[k] = match slot.code {
            0x95 => 1,
            0x05 => 1 + heights[k + 1 + slot.off as usize],
            _ if jumps && slot.code != 0x85 => 1 + heights[k + 1].max(heights[k + 1 + slot.off as usize]),
            _ => 1 + heights[k + 1],
        };
    }
    u64::from(heights[0])
}

fn budgets(turns: u64) -> io::Result<()> {
    let slots = slots()?;
    let mut sum = 0u64;
    let start = Instant::now();
    for _ in 0..turns {
        sum = sum.wrapping_add(budget(black_box(&slots)));
    }
    println!("{} {sum}", start.elapsed().as_nanos());
    Ok(())
}

fn main() -> io::Result<()> {
    let words: Vec<String> = std::env::args().skip(1).collect();
    let words: Vec<&str> = words.iter().map(String::as_str).collect();
    match words[..] {
        ["switch", turns] => runs::<false, true>(turns.parse().unwrap()),
        ["lean", turns] => runs::<false, false>(turns.parse().unwrap()),
        ["flat", turns] => runs::<true, true>(turns.parse().unwrap()),
        ["budget", turns] => budgets(turns.parse().unwrap()),
        [input] => io::stdout().write_all(&programs::named(input).expect("a program")),
        _ => panic!("no such words"),
    }
}
