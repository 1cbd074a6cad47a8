//! Rounds of threads that decide by the file consensus.rs, over objects of the table in table.rs, as shape.rs says: rounds ROUNDS
//! After a second it goes on to LEAST rounds only, for a machine with other work.
#[macro_use]
mod shape;
mod consensus;
mod table;

use consensus::{Consensus, Object, Process, PROCESSES};
use std::sync::atomic::{AtomicU64, AtomicU8, Ordering::SeqCst};
use std::sync::Arc;
use std::thread;
use std::time::{Duration, Instant};

const LEAST: u64 = 100;

/// An object: its state.
struct Cell(AtomicU8);

impl Cell {
    fn new(state: usize) -> Self {
        Cell(AtomicU8::new(state as u8))
    }
}

impl Object for Cell {
    fn apply(&self, operation: usize) -> usize {
        let row = &table::ROWS[operation];
        let next = |state: u8| Some(row[usize::from(state)].1);
        let state = self.0.fetch_update(SeqCst, SeqCst, next).unwrap();
        row[usize::from(state)].0
    }

    if_read! {
        fn read(&self) -> usize {
            usize::from(self.0.load(SeqCst))
        }
    }
}

/// What the processes share: how many times one has come to a round, which round is behind the last one, and when it is late.
struct Shared {
    come: AtomicU64,
    end: AtomicU64,
    late: Instant,
}

impl Shared {
    /// Waits until all processes have come to this round. Process 0 says before whether it is the last one.
    fn meet(&self, process: u64, round: u64) {
        if process == 0 && round >= LEAST && Instant::now() > self.late {
            self.end.store(round + 1, SeqCst);
        }
        self.come.fetch_add(1, SeqCst);
        let all = (round + 1) * PROCESSES as u64;
        let mut looks = 0;
        while self.come.load(SeqCst) < all {
            looks += 1;
            if looks > 1000 {
                thread::sleep(Duration::from_micros(20));
            } else if looks > 100 {
                thread::yield_now();
            }
        }
    }
}

fn main() {
    let word = std::env::args().nth(1).expect("usage: rounds ROUNDS");
    let rounds: u64 = word.parse().expect("ROUNDS is a number");
    // For each process its handles, by round.
    let mut all = [(); PROCESSES].map(|_| Vec::new());
    for _ in 0..rounds {
        for handle in Consensus::processes(Cell::new, Arc::new) {
            all[handle.number()].push(handle);
        }
    }
    let (come, end) = (AtomicU64::new(0), AtomicU64::new(rounds));
    let late = Instant::now() + Duration::from_secs(1);
    let (shared, n) = (&Shared { come, end, late }, PROCESSES as u64);
    // In round r of n processes, process p proposes rn + p.
    let decide_all = |handles: Vec<Process<Arc<Consensus<Cell>>>>| -> Vec<u64> {
        let mut decided = Vec::new();
        for (round, one) in (0..).zip(handles) {
            let process = one.number() as u64;
            if round >= shared.end.load(SeqCst) {
                break;
            }
            shared.meet(process, round);
            decided.push(one.decide(round * n + process));
        }
        decided
    };
    let decided: Vec<Vec<u64>> = thread::scope(|scope| {
        let threads = all.map(|handles| scope.spawn(move || decide_all(handles)));
        threads.into_iter().map(|it| it.join().unwrap()).collect()
    });
    let mut firsts = vec![false; PROCESSES];
    let rounds = shared.end.load(SeqCst);
    for round in 0..rounds {
        let value = decided[0][round as usize];
        assert!(decided.iter().all(|it| it[round as usize] == value), "round {round}: no agreement");
        assert_eq!(value / n, round, "no value of round {round}");
        firsts[(value % n) as usize] = true;
    }
    println!("{rounds} rounds: {}", if firsts.iter().filter(|it| **it).count() > 1 { "agreed, with several winners" } else { "one winner" });
}
