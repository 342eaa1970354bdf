//! Run queues in plain Rust, by `BTreeMap`: the choice, its way out of the queue, its charge, and its way back in.
//!
//! Under CFS one map by (v, id) serves. Under EEVDF a second one by (deadline, id) gives the choice, as the first member
//! that is eligible; the one by (v, id) is what gives a queue's tasks in their order. `deadlines` times that second map
//! by itself, which chooses and no more.

use std::collections::BTreeMap;
use std::hint::black_box;
use std::io::Read;
use std::time::Instant;

const GREATEST: u64 = 1 << 62;
const SLICE: u64 = 3_000_000;
const TIME: u64 = 1_000_000;

#[derive(Clone, Copy)]
struct Task {
    id: u16,
    weight: u32,
    v: u64,
    deadline: u64,
    slice: u64,
    mask: u64,
    rel: i64,
    prev: Option<u8>,
}

fn advance(v: u64, time: u64, weight: u32) -> u64 {
    (v + time * 1024 / u64::from(weight)).min(GREATEST)
}

/// The tasks that a queue begins with.
fn tasks(count: u16, deadlines: bool) -> Vec<Task> {
    (0..count)
        .map(|id| {
            let v = (1 << 32) + u64::from(id) * 7919 % 10_000_000;
            let deadline = if deadlines { advance(v, SLICE, 1024) } else { 0 };
            Task { id, weight: 1024, v, deadline, slice: SLICE, mask: 1, rel: 0, prev: None }
        })
        .collect()
}

trait Queue {
    fn insert(&mut self, task: Task);
    fn choice(&self) -> Option<u16>;
    fn take(&mut self, id: u16) -> Option<Task>;
    fn charge(&self, task: &mut Task, time: u64);
}

/// By (v, id), with the v of each id beside it.
struct Cfs {
    map: BTreeMap<(u64, u16), Task>,
    times: Box<[u64; 1024]>,
}

impl Queue for Cfs {
    fn insert(&mut self, task: Task) {
        self.times[usize::from(task.id)] = task.v;
        self.map.insert((task.v, task.id), task);
    }

    fn choice(&self) -> Option<u16> {
        self.map.first_key_value().map(|(key, _)| key.1)
    }

    fn take(&mut self, id: u16) -> Option<Task> {
        self.map.remove(&(self.times[usize::from(id)], id))
    }

    fn charge(&self, task: &mut Task, time: u64) {
        task.v = advance(task.v, time, task.weight);
    }
}

/// The weights of a queue's tasks together, and each v times its weight together.
#[derive(Default)]
struct Sums {
    weight: u64,
    moment: u128,
}

impl Sums {
    fn add(&mut self, task: &Task) {
        self.weight += u64::from(task.weight);
        self.moment += u128::from(task.weight) * u128::from(task.v);
    }

    fn remove(&mut self, task: &Task) {
        self.weight -= u64::from(task.weight);
        self.moment -= u128::from(task.weight) * u128::from(task.v);
    }

    /// Whether a v is at most the mean.
    fn allow(&self, v: u64) -> bool {
        u128::from(self.weight) * u128::from(v) <= self.moment
    }
}

/// A task under EEVDF has run for a time, and gets a new deadline once its v has reached the old one.
fn charge_and_renew(task: &mut Task, time: u64) {
    task.v = advance(task.v, time, task.weight);
    if task.deadline <= task.v {
        task.deadline = advance(task.v, task.slice, task.weight);
    }
}

/// By (v, id), by (deadline, id), and the sums.
struct Eevdf {
    map: BTreeMap<(u64, u16), Task>,
    due: BTreeMap<(u64, u16), u64>,
    times: Box<[u64; 1024]>,
    sums: Sums,
}

impl Queue for Eevdf {
    fn insert(&mut self, task: Task) {
        self.times[usize::from(task.id)] = task.v;
        self.sums.add(&task);
        self.due.insert((task.deadline, task.id), task.v);
        self.map.insert((task.v, task.id), task);
    }

    fn choice(&self) -> Option<u16> {
        self.due
            .iter()
            .find(|(_, v)| self.sums.allow(**v))
            .map(|(key, _)| key.1)
    }

    fn take(&mut self, id: u16) -> Option<Task> {
        let task = self.map.remove(&(self.times[usize::from(id)], id))?;
        self.due.remove(&(task.deadline, id));
        self.sums.remove(&task);
        Some(task)
    }

    fn charge(&self, task: &mut Task, time: u64) {
        charge_and_renew(task, time);
    }
}

/// By (deadline, id) alone, and the sums.
struct Deadlines {
    map: BTreeMap<(u64, u16), Task>,
    times: Box<[u64; 1024]>,
    sums: Sums,
}

impl Queue for Deadlines {
    fn insert(&mut self, task: Task) {
        self.times[usize::from(task.id)] = task.deadline;
        self.sums.add(&task);
        self.map.insert((task.deadline, task.id), task);
    }

    fn choice(&self) -> Option<u16> {
        self.map
            .values()
            .find(|task| self.sums.allow(task.v))
            .map(|task| task.id)
    }

    fn take(&mut self, id: u16) -> Option<Task> {
        let task = self.map.remove(&(self.times[usize::from(id)], id))?;
        self.sums.remove(&task);
        Some(task)
    }

    fn charge(&self, task: &mut Task, time: u64) {
        charge_and_renew(task, time);
    }
}

/// So many turns, and which tasks ran in them.
#[inline(never)]
fn turns<Q: Queue>(queue: &mut Q, count: u64) -> u64 {
    let mut ran = 0u64;
    for _ in 0..count {
        let Some(id) = queue.choice() else { break };
        let Some(mut task) = queue.take(id) else { break };
        queue.charge(&mut task, TIME);
        queue.insert(task);
        ran = ran.wrapping_mul(31).wrapping_add(u64::from(id));
    }
    ran
}

fn measure<Q: Queue>(mut queue: Q, tasks: Vec<Task>, count: u64) {
    for task in tasks {
        queue.insert(task);
    }
    let start = Instant::now();
    let ran = black_box(turns(&mut queue, count));
    println!("{} {ran}", start.elapsed().as_nanos());
}

fn main() {
    let words: Vec<String> = std::env::args().skip(1).collect();
    if words.len() == 1 {
        print!("{}", words[0].replace('-', " "));
        return;
    }
    let count = words[1].parse().unwrap();
    let mut text = String::new();
    std::io::stdin().read_to_string(&mut text).unwrap();
    let size = text.split(' ').last().unwrap().parse().unwrap();
    let times = Box::new([0; 1024]);
    let sums = Sums::default();
    match words[0].as_str() {
        "cfs" => measure(Cfs { map: BTreeMap::new(), times }, tasks(size, false), count),
        "eevdf" => {
            let due = BTreeMap::new();
            measure(Eevdf { map: BTreeMap::new(), due, times, sums }, tasks(size, true), count)
        }
        "deadlines" => {
            measure(Deadlines { map: BTreeMap::new(), times, sums }, tasks(size, true), count)
        }
        word => panic!("no such queue: {}", word),
    }
}
