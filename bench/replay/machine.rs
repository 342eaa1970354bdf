//! The same machine in plain Rust: CFS alone, and no policies. Shared by the generator and by the programs that are
//! measured beside bqsim.

use std::collections::{BTreeMap, VecDeque};

const GREATEST: u64 = 1 << 62;
const GRANULARITY: u64 = 1_000_000;
const LATEST: u64 = (1 << 48) - 1;

const WEIGHTS: [u64; 40] = [
    88761, 71755, 56483, 46273, 36291, 29154, 23254, 18705, 14949, 11916, 9548, 7620, 6100, 4904, 3906, 3121, 2501,
    1991, 1586, 1277, 1024, 820, 655, 526, 423, 335, 272, 215, 172, 137, 110, 87, 70, 56, 45, 36, 29, 23, 18, 15,
];

#[derive(Clone, Copy)]
pub struct Task {
    pub id: u16,
    pub weight: u64,
    pub mask: u64,
    pub v: u64,
    pub rel: i64,
    pub prev: Option<usize>,
}

/// What the lobby knows of an id.
#[derive(Clone, Copy)]
pub enum Seat {
    Absent,
    Blocked(Task),
    Away,
}

pub struct Processor {
    pub queue: BTreeMap<(u64, u16), Task>,
    pub current: Option<Task>,
    pub mark: u64,
    last: u64,
    inbox: VecDeque<Task>,
    pub hand: Option<(Task, Vec<u32>)>,
}

pub enum Refusal {
    NoProcessor,
    NoTask,
    NotBlocked,
    TaskExists,
    EmptyMask,
    Nice,
    Slice,
    Idle,
    InHand,
    NothingInHand,
}

impl Refusal {
    #[allow(dead_code)]
    pub fn text(&self) -> &'static str {
        match self {
            Refusal::NoProcessor => "C1 NoProcessor",
            Refusal::NoTask => "C2 NoTask",
            Refusal::NotBlocked => "C3 NotBlocked",
            Refusal::TaskExists => "C4 TaskExists",
            Refusal::EmptyMask => "C5 EmptyMask",
            Refusal::Nice => "C6 Nice",
            Refusal::Slice => "C7 Slice",
            Refusal::Idle => "C8 Idle",
            Refusal::InHand => "C10 InHand",
            Refusal::NothingInHand => "C11 NothingInHand",
        }
    }
}

pub struct Machine {
    pub processors: Vec<Processor>,
    pub seats: Vec<Seat>,
}

pub fn shift(mark: u64, rel: i64) -> u64 {
    (mark as i128 + rel as i128).clamp(0, GREATEST as i128) as u64
}

impl Processor {
    pub fn new() -> Processor {
        Processor {
            queue: BTreeMap::new(),
            current: None,
            mark: 1 << 32,
            last: 0,
            inbox: VecDeque::new(),
            hand: None,
        }
    }

    fn least(&self) -> Option<u64> {
        self.queue.first_key_value().map(|(key, _)| key.0)
    }

    pub fn charge(&mut self, now: u64) {
        let at = self.last.max(now.min(LATEST));
        if let Some(task) = &mut self.current {
            task.v = (task.v + (at - self.last) * 1024 / task.weight).min(GREATEST);
        }
        self.last = at;
        let running = self.current.as_ref().map(|task| task.v);
        if let Some(v) = self.least().into_iter().chain(running).min() {
            self.mark = self.mark.max(v);
        }
    }

    pub fn start(&mut self) {
        if let Some((_, task)) = self.queue.pop_first() {
            self.current = Some(task);
        }
    }

    pub fn decide(&mut self) {
        let Some(current) = &mut self.current else {
            self.start();
            return;
        };
        if let Some(first) = self.queue.first_entry() {
            if first.key().0 + GRANULARITY < current.v {
                let next = *first.get();
                let old = std::mem::replace(current, next);
                first.remove();
                self.queue.insert((old.v, old.id), old);
            }
        }
    }

    fn load(&self) -> u32 {
        self.queue.len() as u32 + self.inbox.len() as u32 + self.current.is_some() as u32
    }
}

impl Machine {
    pub fn new(count: usize) -> Machine {
        Machine {
            processors: (0..count).map(|_| Processor::new()).collect(),
            seats: vec![Seat::Absent; 1024],
        }
    }

    fn at(&mut self, processor: u8) -> Result<&mut Processor, Refusal> {
        self.processors
            .get_mut(usize::from(processor))
            .ok_or(Refusal::NoProcessor)
    }

    pub fn admit(&mut self, id: u16, nice: i8, mask: u64, slice: u64) -> Result<(), Refusal> {
        if id >= 1024 {
            return Err(Refusal::NoTask);
        }
        let mask = if self.processors.len() == 64 {
            mask
        } else {
            mask & ((1 << self.processors.len()) - 1)
        };
        if mask == 0 {
            return Err(Refusal::EmptyMask);
        }
        if !(-20..=19).contains(&nice) {
            return Err(Refusal::Nice);
        }
        if !(100_000..=100_000_000).contains(&slice) {
            return Err(Refusal::Slice);
        }
        let Seat::Absent = self.seats[usize::from(id)] else {
            return Err(Refusal::TaskExists);
        };
        self.seats[usize::from(id)] = Seat::Blocked(Task {
            id,
            weight: WEIGHTS[(nice + 20) as usize],
            mask,
            v: 0,
            rel: 0,
            prev: None,
        });
        Ok(())
    }

    /// The loads of that moment.
    pub fn begin(&mut self, processor: u8, id: u16) -> Result<&[u32], Refusal> {
        let place = usize::from(processor);
        if place >= self.processors.len() {
            return Err(Refusal::NoProcessor);
        }
        if id >= 1024 {
            return Err(Refusal::NoTask);
        }
        let task = match self.seats[usize::from(id)] {
            Seat::Absent => return Err(Refusal::NoTask),
            Seat::Away => return Err(Refusal::NotBlocked),
            Seat::Blocked(task) => task,
        };
        if self.processors[place].hand.is_some() {
            return Err(Refusal::InHand);
        }
        let loads = self.processors.iter().map(Processor::load).collect();
        self.seats[usize::from(id)] = Seat::Away;
        let (_, loads) = self.processors[place].hand.insert((task, loads));
        Ok(loads)
    }

    pub fn end(&mut self, processor: u8, now: u64) -> Result<(u16, usize), Refusal> {
        let cpu = self.at(processor)?;
        let (task, loads) = cpu.hand.take().ok_or(Refusal::NothingInHand)?;
        cpu.charge(now);
        let to = (0..loads.len())
            .filter(|p| task.mask >> p & 1 == 1)
            .min_by_key(|p| (loads[*p], task.prev != Some(*p), *p))
            .unwrap_or(0);
        self.processors[to].inbox.push_back(task);
        Ok((task.id, to))
    }

    pub fn drain(&mut self, processor: u8, now: u64) -> Result<(usize, Option<u16>), Refusal> {
        let cpu = self.at(processor)?;
        cpu.charge(now);
        let count = cpu.inbox.len();
        for mut task in cpu.inbox.drain(..) {
            task.v = shift(cpu.mark, task.rel.max(-3_000_000));
            cpu.queue.insert((task.v, task.id), task);
        }
        cpu.decide();
        Ok((count, cpu.current.as_ref().map(|task| task.id)))
    }

    pub fn tick(&mut self, processor: u8, now: u64) -> Result<Option<u16>, Refusal> {
        let cpu = self.at(processor)?;
        cpu.charge(now);
        cpu.decide();
        Ok(cpu.current.as_ref().map(|task| task.id))
    }

    pub fn block(&mut self, processor: u8, now: u64) -> Result<(u16, Option<u16>), Refusal> {
        let cpu = self.at(processor)?;
        if cpu.current.is_none() {
            return Err(Refusal::Idle);
        }
        cpu.charge(now);
        let Some(mut task) = cpu.current.take() else {
            return Err(Refusal::Idle);
        };
        task.rel = (task.v as i64 - cpu.mark as i64).clamp(-(1 << 30), 1 << 30);
        task.prev = Some(usize::from(processor));
        cpu.start();
        let run = cpu.current.as_ref().map(|task| task.id);
        self.seats[usize::from(task.id)] = Seat::Blocked(task);
        Ok((task.id, run))
    }
}
