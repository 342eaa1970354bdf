//! The replay of a trace in plain Rust, as it would be written without contracts. Takes `machine cfs <P>` and the lines
//! that need no policy, and answers byte for byte what bqsim answers.

mod machine;

use machine::{Machine, Refusal};
use std::io::{BufRead, BufReader, BufWriter, Write, stdin, stdout};

const LONGEST: usize = 131_072;

enum Phase {
    Waiting,
    Over,
    Running(Machine),
}

fn number(word: &[u8], base: u32) -> Option<u64> {
    if word.is_empty() {
        return None;
    }
    let mut value: u64 = 0;
    for byte in word {
        let digit = char::from(*byte).to_digit(base)?;
        value = value
            .checked_mul(u64::from(base))?
            .checked_add(u64::from(digit))?;
    }
    Some(value)
}

fn decimal(word: &[u8]) -> Option<u64> {
    number(word, 10)
}

fn processor(word: &[u8]) -> Option<u8> {
    decimal(word)?.try_into().ok()
}

fn task(word: &[u8]) -> Option<u16> {
    decimal(word)?.try_into().ok()
}

fn mask(word: &[u8]) -> Option<u64> {
    match word.strip_prefix(b"0x") {
        Some(digits) => number(digits, 16),
        None => decimal(word),
    }
}

fn nice(word: &[u8]) -> Option<i8> {
    match word.strip_prefix(b"-") {
        Some(digits) => (-i64::try_from(decimal(digits)?).ok()?).try_into().ok(),
        None => decimal(word)?.try_into().ok(),
    }
}

fn refused(out: &mut Vec<u8>, refusal: Refusal) {
    let _ = writeln!(out, "refused {}", refusal.text());
}

/// Answers a line of a running machine; None where it is bad.
fn answer(machine: &mut Machine, words: &[&[u8]], out: &mut Vec<u8>) -> Option<()> {
    match words {
        [b"admit", id, n, m, slice] => {
            match machine.admit(task(id)?, nice(n)?, mask(m)?, decimal(slice)?) {
                Ok(()) => out.extend_from_slice(b"admit ok\n"),
                Err(refusal) => refused(out, refusal),
            }
        }
        [b"wake", c, id, now] => {
            let (c, id, now) = (processor(c)?, task(id)?, decimal(now)?);
            match machine.begin(c, id) {
                Ok(loads) => {
                    let _ = write!(out, "begin {id} loads");
                    for load in loads {
                        let _ = write!(out, " {load}");
                    }
                    out.push(b'\n');
                    end(machine, c, now, out);
                }
                Err(refusal) => refused(out, refusal),
            }
        }
        [b"begin", c, id] => {
            let (c, id) = (processor(c)?, task(id)?);
            match machine.begin(c, id) {
                Ok(loads) => {
                    let _ = write!(out, "begin {id} loads");
                    for load in loads {
                        let _ = write!(out, " {load}");
                    }
                    out.push(b'\n');
                }
                Err(refusal) => refused(out, refusal),
            }
        }
        [b"end", c, now] => end(machine, processor(c)?, decimal(now)?, out),
        [b"drain", c, now] => match machine.drain(processor(c)?, decimal(now)?) {
            Ok((count, run)) => {
                let _ = match run {
                    Some(run) => writeln!(out, "drain {count} run {run} by rule steps 0"),
                    None => writeln!(out, "drain {count} run none by rule steps 0"),
                };
            }
            Err(refusal) => refused(out, refusal),
        },
        [b"tick", c, now] => match machine.tick(processor(c)?, decimal(now)?) {
            Ok(run) => {
                let _ = match run {
                    Some(run) => writeln!(out, "tick run {run} by rule steps 0"),
                    None => writeln!(out, "tick run none by rule steps 0"),
                };
            }
            Err(refusal) => refused(out, refusal),
        },
        [b"block", c, now] => match machine.block(processor(c)?, decimal(now)?) {
            Ok((id, run)) => {
                let _ = match run {
                    Some(run) => writeln!(out, "block {id} run {run}"),
                    None => writeln!(out, "block {id} run none"),
                };
            }
            Err(refusal) => refused(out, refusal),
        },
        [b"show", c] => {
            let c = processor(c)?;
            let Some(cpu) = machine.processors.get(usize::from(c)) else {
                refused(out, Refusal::NoProcessor);
                return Some(());
            };
            let run = cpu
                .current
                .as_ref()
                .map_or(String::from("none"), |task| format!("{}:{}:0", task.id, task.v));
            let _ = write!(out, "show {c} mark {} run {run} queue", cpu.mark);
            for task in cpu.queue.values() {
                let _ = write!(out, " {}:{}:0", task.id, task.v);
            }
            out.push(b'\n');
        }
        _ => return None,
    }
    Some(())
}

fn end(machine: &mut Machine, c: u8, now: u64, out: &mut Vec<u8>) {
    match machine.end(c, now) {
        Ok((id, to)) => {
            let _ = writeln!(out, "end {id} to {to} by rule steps 0");
        }
        Err(refusal) => refused(out, refusal),
    }
}

fn is_allowed(byte: &u8) -> bool {
    (b' '..=b'~').contains(byte) || *byte == b'\t'
}

fn main() -> std::io::Result<()> {
    let mut input = BufReader::new(stdin().lock());
    let mut output = BufWriter::new(stdout().lock());
    let mut line = Vec::new();
    let mut out = Vec::new();
    let mut count: u64 = 0;
    let mut phase = Phase::Waiting;
    loop {
        line.clear();
        if input.read_until(b'\n', &mut line)? == 0 {
            break;
        }
        count = count.saturating_add(1);
        let mut text = line.as_slice();
        if let Some(front) = text.strip_suffix(b"\n") {
            text = front.strip_suffix(b"\r").unwrap_or(front);
        }
        let is_bad = text.len() > LONGEST || !text.iter().all(is_allowed);
        let mut words = [b"".as_slice(); 6];
        let mut found = 0;
        if !is_bad {
            for word in text.split(|b| *b == b' ' || *b == b'\t').filter(|word| !word.is_empty()) {
                if found < words.len() {
                    words[found] = word;
                    found += 1;
                }
            }
            if found == 0 || words[0].starts_with(b"#") {
                continue;
            }
        }
        out.clear();
        match &mut phase {
            Phase::Over => {}
            Phase::Waiting => match &words[..found] {
                [b"machine", b"cfs", size] if !is_bad => match processor(size) {
                    Some(size @ (1 | 2 | 4 | 8 | 16 | 32 | 64)) => {
                        phase = Phase::Running(Machine::new(usize::from(size)));
                    }
                    _ => {
                        writeln!(out, "bad {count}")?;
                        phase = Phase::Over;
                    }
                },
                _ => {
                    writeln!(out, "bad {count}")?;
                    phase = Phase::Over;
                }
            },
            Phase::Running(machine) => {
                if is_bad || answer(machine, &words[..found], &mut out).is_none() {
                    writeln!(out, "bad {count}")?;
                }
            }
        }
        output.write_all(&out)?;
    }
    output.flush()
}
