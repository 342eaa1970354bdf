//! Writes a trace of a million lines: 32 tasks on one processor under CFS, each line an event that is not refused.

mod machine;

use machine::{Machine, Seat};
use std::io::{BufWriter, Write, stdout};

const LINES: usize = 1_000_000;
const TASKS: u16 = 32;

/// A xorshift generator, so that each run writes the same trace.
struct Random(u64);

impl Random {
    fn below(&mut self, limit: u64) -> u64 {
        self.0 ^= self.0 << 13;
        self.0 ^= self.0 >> 7;
        self.0 ^= self.0 << 17;
        self.0 % limit
    }
}

fn main() -> std::io::Result<()> {
    let mut out = BufWriter::new(stdout().lock());
    let mut random = Random(0x9e37_79b9_7f4a_7c15);
    let mut machine = Machine::new(1);
    let mut now = 0;
    let mut lines = 1;
    writeln!(out, "machine cfs 1")?;
    for id in 0..TASKS {
        let nice = (random.below(40) as i8) - 20;
        let _ = machine.admit(id, nice, 1, 3_000_000);
        writeln!(out, "admit {id} {nice} 1 3000000")?;
        lines += 1;
    }
    while lines < LINES {
        now += random.below(2_000_000);
        let kind = random.below(10);
        let asleep: Vec<u16> = (0..TASKS)
            .filter(|id| matches!(machine.seats[usize::from(*id)], Seat::Blocked(_)))
            .collect();
        let runs = machine.processors[0].current.is_some();
        if (kind < 3 || !runs) && !asleep.is_empty() && lines + 2 <= LINES {
            let id = asleep[random.below(asleep.len() as u64) as usize];
            let _ = machine.begin(0, id);
            let _ = machine.end(0, now);
            let _ = machine.drain(0, now);
            writeln!(out, "wake 0 {id} {now}")?;
            writeln!(out, "drain 0 {now}")?;
            lines += 2;
        } else if kind < 5 && runs {
            let _ = machine.block(0, now);
            writeln!(out, "block 0 {now}")?;
            lines += 1;
        } else {
            let _ = machine.tick(0, now);
            writeln!(out, "tick 0 {now}")?;
            lines += 1;
        }
    }
    out.flush()
}
