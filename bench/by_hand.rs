//! Consensus among eight processes by compare-and-swap, as one writes it by hand. A process takes
//! three steps, as in the program that `cnum show --shortest --as rust` writes of `cas_9`.
use std::array;
use std::sync::atomic::{AtomicU64, AtomicUsize, Ordering::SeqCst};

pub const PROCESSES: usize = 8;

pub struct Consensus {
    /// 0, or one more than the number of the first process.
    first: AtomicUsize,
    registers: [AtomicU64; PROCESSES],
}

impl Consensus {
    pub fn new() -> Self {
        Consensus { first: AtomicUsize::new(0), registers: array::from_fn(|_| AtomicU64::new(0)) }
    }

    pub fn decide(&self, process: usize, value: u64) -> u64 {
        self.registers[process].store(value, SeqCst);
        let first = match self.first.compare_exchange(0, process + 1, SeqCst, SeqCst) {
            Ok(_) => process,
            Err(other) => other - 1,
        };
        self.registers[first].load(SeqCst)
    }
}
