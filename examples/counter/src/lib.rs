//! A counter modulo 3 of four threads. It is wait-free: a call ends after a bounded number of steps
//! of its own thread, wherever the others stop. `consensus.rs` is what cnum writes for a
//! compare-and-swap of nine values and the table of the counter.
mod consensus;

use consensus::{Caller, Object, Renew, Universal, PROCESSES};
use std::sync::atomic::{AtomicUsize, Ordering::SeqCst};
use std::sync::Arc;

pub use consensus::Full;

/// A word of the type `cas_9`: its operation k puts k + 1 in if 0 is there, and responds with what
/// was there.
struct Word(AtomicUsize);

impl Word {
    fn new(state: usize) -> Word {
        Word(AtomicUsize::new(state))
    }
}

impl Object for Word {
    fn apply(&self, operation: usize) -> usize {
        let swapped = self.0.compare_exchange(0, operation + 1, SeqCst, SeqCst);
        swapped.unwrap_or_else(|before| before)
    }
}

impl Renew for Word {
    fn renew(&self, state: usize) {
        self.0.store(state, SeqCst);
    }
}

/// The counter, for one of its threads.
pub struct Counter(Caller<Arc<Universal<Word>>>);

impl Counter {
    /// A counter that is 0, for each of its threads.
    pub fn all() -> [Counter; PROCESSES] {
        Universal::callers(Word::new, Arc::new).map(Counter)
    }

    /// Adds 1, and returns the count before. If another thread has been idle for long, it is `Full`
    /// until that one catches up.
    pub fn increment(&mut self) -> Result<usize, Full> {
        self.0.call(0)
    }

    /// For a thread that has been idle.
    pub fn catch_up(&mut self) -> Result<(), Full> {
        self.0.catch_up()
    }
}

#[cfg(test)]
mod tests {
    use super::*;
    use std::thread;

    #[test]
    fn word_keeps_to_its_table() {
        consensus::check_object(Word::new);
    }

    #[test]
    fn four_threads_count() {
        let mut counts = [0; 3];
        let threads = Counter::all().map(|mut counter| thread::spawn(move || counts_of(&mut counter)));
        for found in threads.map(|it| it.join().unwrap()) {
            (0..3).for_each(|count| counts[count] += found[count]);
        }
        assert_eq!(counts, [40_000; 3]);
    }

    /// How often a thread finds each count in 30,000 calls.
    fn counts_of(counter: &mut Counter) -> [usize; 3] {
        let mut found = [0; 3];
        for _ in 0..30_000 {
            let mut count = counter.increment();
            while count.is_err() {
                thread::yield_now();
                count = counter.increment();
            }
            found[count.unwrap()] += 1;
        }
        found
    }
}
