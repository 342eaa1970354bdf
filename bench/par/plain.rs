//! `bqsim par --rule cfs` as it would be written in plain Rust: the same locks, the same queue's work, a history in which
//! each event has its record, and a receipt of each for its thread. `plain PROCESSORS TICKS` prints the same line.

#[path = "../replay/machine.rs"]
#[allow(dead_code)]
mod machine;

use machine::{Processor, Seat, Task, shift};
use std::sync::Mutex;
use std::sync::atomic::{AtomicU64, Ordering};
use std::thread;

const BEAT: u64 = 1_000_000;

#[derive(Clone, Copy, PartialEq)]
enum Event {
    Admit { task: u16, nice: i8, mask: u64, slice: u64 },
    BeginWake { processor: u8, task: u16 },
    EndWake { processor: u8, now: u64 },
    Drain { processor: u8, now: u64 },
    Tick { processor: u8, now: u64 },
}

#[derive(Clone, PartialEq)]
enum Reply {
    Admitted,
    Begun { task: u16, loads: Vec<u16> },
    Placed { task: u16, to: u8, steps: u32 },
    Drained { count: u32, run: Option<u16>, steps: u32 },
    Ticked { run: Option<u16>, steps: u32 },
}

#[derive(Clone, Copy, PartialEq)]
enum Refusal {
    NotBlocked,
}

/// A call of a counter by a policy; no policy stands here.
#[derive(Clone, Copy, PartialEq)]
struct Call {
    counter: u8,
    amount: u64,
    answer: u64,
}

#[derive(Clone, PartialEq)]
struct Record {
    event: Event,
    reply: Result<Reply, Refusal>,
    calls: Vec<Call>,
}

struct Receipt {
    place: u64,
    record: Record,
}

struct Journal {
    records: Vec<Record>,
    loads: Vec<u16>,
}

struct Machine {
    clocks: Vec<AtomicU64>,
    processors: Vec<Mutex<Processor>>,
    inboxes: Vec<Mutex<Vec<Task>>>,
    lobby: Mutex<Vec<Seat>>,
    journal: Mutex<Journal>,
}

impl Journal {
    fn commit(&mut self, event: Event, reply: Result<Reply, Refusal>) -> Receipt {
        let place = self.records.len() as u64;
        let record = Record { event, reply, calls: Vec::new() };
        self.records.push(record.clone());
        Receipt { place, record }
    }
}

impl Machine {
    fn new(count: usize) -> Machine {
        Machine {
            clocks: (0..count).map(|_| AtomicU64::new(0)).collect(),
            processors: (0..count).map(|_| Mutex::new(Processor::new())).collect(),
            inboxes: (0..count).map(|_| Mutex::new(Vec::new())).collect(),
            lobby: Mutex::new(vec![Seat::Absent; 1024]),
            journal: Mutex::new(Journal { records: Vec::new(), loads: vec![0; count] }),
        }
    }

    fn now(&self, processor: u8) -> u64 {
        self.clocks[usize::from(processor)].fetch_add(BEAT, Ordering::SeqCst)
    }

    fn admit(&self, task: u16, nice: i8, mask: u64, slice: u64) -> Receipt {
        let mut plain = machine::Machine::new(self.processors.len());
        let _ = plain.admit(task, nice, mask, slice);
        let new = plain.seats[usize::from(task)];
        let mut lobby = self.lobby.lock().unwrap();
        lobby[usize::from(task)] = new;
        let event = Event::Admit { task, nice, mask, slice };
        self.journal.lock().unwrap().commit(event, Ok(Reply::Admitted))
    }

    fn wake(&self, processor: u8, task: u16) -> (Receipt, Option<Receipt>) {
        let mut own = self.processors[usize::from(processor)].lock().unwrap();
        let begin = {
            let mut lobby = self.lobby.lock().unwrap();
            let mut journal = self.journal.lock().unwrap();
            let event = Event::BeginWake { processor, task };
            let Seat::Blocked(found) = lobby[usize::from(task)] else {
                return (journal.commit(event, Err(Refusal::NotBlocked)), None);
            };
            lobby[usize::from(task)] = Seat::Away;
            let loads = journal.loads.clone();
            own.hand = Some((found, loads.iter().map(|load| u32::from(*load)).collect()));
            journal.commit(event, Ok(Reply::Begun { task, loads }))
        };
        let now = self.now(processor);
        let Some((found, loads)) = own.hand.take() else {
            return (begin, None);
        };
        own.charge(now);
        let to = (0..loads.len())
            .filter(|p| found.mask >> p & 1 == 1)
            .min_by_key(|p| (loads[*p], found.prev != Some(*p), *p))
            .unwrap_or(0);
        let mut inbox = self.inboxes[to].lock().unwrap();
        inbox.push(found);
        let mut journal = self.journal.lock().unwrap();
        journal.loads[to] += 1;
        let reply = Reply::Placed { task, to: to as u8, steps: 0 };
        let end = journal.commit(Event::EndWake { processor, now }, Ok(reply));
        (begin, Some(end))
    }

    fn drain(&self, processor: u8) -> Receipt {
        let mut own = self.processors[usize::from(processor)].lock().unwrap();
        let now = self.now(processor);
        let mut inbox = self.inboxes[usize::from(processor)].lock().unwrap();
        own.charge(now);
        let count = inbox.len() as u32;
        for mut task in inbox.drain(..) {
            task.v = shift(own.mark, task.rel.max(-3_000_000));
            own.queue.insert((task.v, task.id), task);
        }
        own.decide();
        let run = own.current.as_ref().map(|task| task.id);
        let reply = Reply::Drained { count, run, steps: 0 };
        self.journal.lock().unwrap().commit(Event::Drain { processor, now }, Ok(reply))
    }

    fn tick(&self, processor: u8) -> Receipt {
        let mut own = self.processors[usize::from(processor)].lock().unwrap();
        let now = self.now(processor);
        own.charge(now);
        own.decide();
        let run = own.current.as_ref().map(|task| task.id);
        let reply = Reply::Ticked { run, steps: 0 };
        self.journal.lock().unwrap().commit(Event::Tick { processor, now }, Ok(reply))
    }
}

fn drive(machine: &Machine, processor: u8, ticks: usize) -> Vec<Receipt> {
    let mut receipts = Vec::with_capacity(ticks + 4);
    let task = u16::from(processor);
    receipts.push(machine.admit(task, 0, u64::MAX, 3_000_000));
    let (begin, end) = machine.wake(processor, task);
    receipts.push(begin);
    receipts.extend(end);
    receipts.push(machine.drain(processor));
    for _ in 0..ticks {
        receipts.push(machine.tick(processor));
    }
    receipts
}

fn main() {
    let mut words = std::env::args().skip(1);
    let mut next = || words.next().and_then(|word| word.parse::<usize>().ok());
    let (Some(processors), Some(ticks)) = (next(), next()) else {
        eprintln!("plain PROCESSORS TICKS");
        std::process::exit(2);
    };
    let machine = Machine::new(processors);
    let lists: Vec<Vec<Receipt>> = thread::scope(|scope| {
        let threads: Vec<_> = (0..processors)
            .map(|processor| scope.spawn({
                let machine = &machine;
                move || drive(machine, processor as u8, ticks)
            }))
            .collect();
        threads.into_iter().map(|thread| thread.join().unwrap()).collect()
    });
    let Ok(Journal { records, loads: _ }) = machine.journal.into_inner() else {
        return;
    };
    let ticked = records.iter().filter(|record| matches!(record.event, Event::Tick { .. })).count();
    let confirmed = lists
        .iter()
        .flatten()
        .filter(|receipt| records.get(receipt.place as usize) == Some(&receipt.record))
        .count();
    println!("events {} ticks {ticked} confirmed {confirmed}", records.len());
}
