//! What one lock for all commits allows at best: threads that each do some work of their own and then take one lock, under
//! which a number is raised and a word of a small row is set, and nothing else. `lock EVENTS STEPS` prints the time of an
//! event with 1, 2 and 4 threads, and how many events they make in the time of one; a step takes some 2.5 ns.

use std::hint::black_box;
use std::sync::Mutex;
use std::thread;
use std::time::Instant;

#[repr(align(128))]
struct Journal(Mutex<(u64, [u64; 8])>);

/// Work that no other thread sees, and that no compiler shortens.
fn work(steps: u64, seed: u64) -> u64 {
    (0..steps).fold(seed, |x, _| black_box(x.wrapping_mul(6_364_136_223_846_793_005).wrapping_add(1)))
}

fn drive(journal: &Journal, events: u64, steps: u64, seed: u64) {
    let mut own = seed;
    for at in 0..events {
        own = work(steps, own);
        let mut content = journal.0.lock().unwrap();
        content.0 += 1;
        content.1[at as usize % 8] = own;
    }
    black_box(own);
}

/// The least time of seven runs, in nanoseconds an event.
fn least(threads: u64, events: u64, steps: u64) -> f64 {
    (0..7)
        .map(|_| {
            let journal = Journal(Mutex::new((0, [0; 8])));
            let start = Instant::now();
            thread::scope(|scope| {
                for seed in 0..threads {
                    let journal = &journal;
                    scope.spawn(move || drive(journal, events, steps, seed));
                }
            });
            start.elapsed().as_secs_f64() * 1e9 / (threads * events) as f64
        })
        .fold(f64::INFINITY, f64::min)
}

fn main() {
    let mut words = std::env::args().skip(1).map(|word| word.parse::<u64>());
    let (Some(Ok(events)), Some(Ok(steps))) = (words.next(), words.next()) else {
        eprintln!("lock EVENTS STEPS");
        std::process::exit(2);
    };
    let one = least(1, events, steps);
    for threads in [1, 2, 4] {
        let time = if threads == 1 { one } else { least(threads, events, steps) };
        println!("{threads} threads: {time:6.1} ns an event, {:.2} times the events of one", one / time);
    }
}
