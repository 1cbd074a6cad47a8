//! Three threads agree by the instructions `fetch_or` and `fetch_and` on three bits of a word: `three_agree ROUNDS`
//! runs so many rounds and checks each of them. The protocol stands in `consensus.rs`, which cnum writes:
//!
//!     ./cnum show --as rust catalogue/fetch_or_and_3bit.json catalogue/fetch_or_and_3bit.toml
//!
//! It is plain Rust: nothing here is proved.
mod consensus;

use consensus::{check_object, Consensus, Object, Process, OPERATIONS, PROCESSES};
use std::sync::atomic::{AtomicU8, Ordering::SeqCst};
use std::sync::{Arc, Barrier};

/// Three bits. The number of a state, and that of a response, is the number that the bits write.
struct Bits(AtomicU8);

impl Bits {
    fn new(state: usize) -> Bits {
        Bits(AtomicU8::new(state as u8))
    }
}

impl Object for Bits {
    fn apply(&self, operation: usize) -> usize {
        let before = match OPERATIONS[operation] {
            "or110" => self.0.fetch_or(0b110, SeqCst),
            "and100" => self.0.fetch_and(0b100, SeqCst),
            name => unreachable!("{name} is no operation of the table"),
        };
        usize::from(before)
    }

    fn read(&self) -> usize {
        usize::from(self.0.load(SeqCst))
    }
}

fn main() {
    let word = std::env::args().nth(1).expect("usage: three_agree ROUNDS");
    let rounds: u64 = word.parse().expect("ROUNDS is a number");
    check_object(Bits::new);
    // For each process its handles, by round.
    let mut handles: [Vec<Process<Arc<Consensus<Bits>>>>; PROCESSES] = Default::default();
    for _ in 0..rounds {
        let made = Consensus::processes(Bits::new, Arc::new);
        handles.iter_mut().zip(made).for_each(|(all, handle)| all.push(handle));
    }
    let barrier = Barrier::new(PROCESSES);
    // In round r process p proposes 3r + p.
    let decide_all = |handles: Vec<Process<_>>| -> Vec<u64> {
        let mut decided = Vec::new();
        for (round, handle) in (0..).zip(handles) {
            barrier.wait();
            let process = handle.number() as u64;
            decided.push(handle.decide(3 * round + process));
        }
        decided
    };
    let [x, y, z] = std::thread::scope(|scope| {
        let start = |handles| scope.spawn(|| decide_all(handles));
        handles.map(start).map(|thread| thread.join().unwrap())
    });
    for (round, ((x, y), z)) in (0..rounds).zip(x.iter().zip(&y).zip(&z)) {
        let is_input = x / 3 == round;
        assert!(x == y && y == z && is_input, "round {round}: {x}, {y}, {z}");
    }
    println!("{rounds} rounds: all three threads agreed in each");
}
