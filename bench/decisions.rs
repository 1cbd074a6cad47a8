//! Times decisions of the programs that `cnum show` writes, and of one by hand: `bench/measure decisions` compiles this file
//! with the programs beside it. Each line has a program, the nanoseconds of a decision of process 7 alone, and those of a decision
//! of each of eight threads that decide one after another of many instances.
use std::array::from_fn;
use std::sync::Barrier;
use std::sync::atomic::{AtomicUsize, Ordering::SeqCst};
use std::thread;
use std::time::Instant;

mod by_hand;
mod cas;
mod chain;
mod sticky;

const PROCESSES: usize = 8;
const INSTANCES: usize = 100_000;

/// A word that keeps what is put first: of a sticky bit and of compare-and-swap.
struct Word(AtomicUsize);

impl Word {
    fn new(state: usize) -> Self {
        Word(AtomicUsize::new(state))
    }

    /// The value before, as compare-and-swap answers.
    fn put(&self, value: usize) -> usize {
        self.0.compare_exchange(0, value, SeqCst, SeqCst).unwrap_or_else(|before| before)
    }

    /// The bit that was first, as a sticky bit answers.
    fn stick(&self, operation: usize) -> usize {
        match self.put(operation + 1) {
            0 => operation,
            before => before - 1,
        }
    }
}

impl chain::Object for Word {
    fn apply(&self, operation: usize) -> usize {
        self.stick(operation)
    }

    fn read(&self) -> usize {
        self.0.load(SeqCst)
    }
}

impl sticky::Object for Word {
    fn apply(&self, operation: usize) -> usize {
        self.stick(operation)
    }
}

impl cas::Object for Word {
    fn apply(&self, operation: usize) -> usize {
        self.put(operation + 1)
    }
}

/// The handle of a process on a decision by hand.
struct Hand(&'static by_hand::Consensus, usize);

/// Puts a decision where it stays, so that to drop a handle takes no time.
fn kept<T>(decision: T) -> &'static T {
    Box::leak(Box::new(decision))
}

fn by_hand() -> [Hand; PROCESSES] {
    let decision = kept(by_hand::Consensus::new());
    from_fn(|process| Hand(decision, process))
}

/// Nanoseconds of a call of `decide` for each handle.
fn timed<H>(handles: Vec<H>, decide: impl Fn(H) -> u64) -> (f64, Vec<u64>) {
    let (count, began) = (handles.len() as f64, Instant::now());
    let decided = handles.into_iter().map(decide).collect();
    (began.elapsed().as_nanos() as f64 / count, decided)
}

/// The handles of each process on all instances.
fn made<H>(make: impl Fn() -> [H; PROCESSES]) -> [Vec<H>; PROCESSES] {
    let mut all = from_fn(|_| Vec::with_capacity(INSTANCES));
    for _ in 0..INSTANCES {
        all.iter_mut().zip(make()).for_each(|(handles, handle)| handles.push(handle));
    }
    all
}

fn measure<H: Send>(name: &str, make: impl Fn() -> [H; PROCESSES], decide: impl Fn(H, u64) -> u64 + Sync) {
    let last = made(&make).into_iter().next_back().expect("there are processes");
    let (alone, _) = timed(last, |it| decide(it, 5));
    let (decide, barrier) = (&decide, &Barrier::new(PROCESSES));
    let told: Vec<(f64, Vec<u64>)> = thread::scope(|scope| {
        let begun: Vec<_> = (0..)
            .zip(made(&make))
            .map(|(process, handles)| {
                scope.spawn(move || {
                    barrier.wait();
                    timed(handles, |it| decide(it, process))
                })
            })
            .collect();
        begun.into_iter().map(|it| it.join().unwrap()).collect()
    });
    assert!(told.iter().all(|(_, decided)| *decided == told[0].1), "{name}: two processes differ");
    let together = told.iter().map(|(time, _)| time).sum::<f64>() / PROCESSES as f64;
    println!("{name} {alone:.0} {together:.0}");
}

fn main() {
    measure("chain", || chain::Consensus::processes(Word::new, kept), |it, value| it.decide(value));
    measure("sticky", || sticky::Consensus::processes(Word::new, kept), |it, value| it.decide(value));
    measure("cas", || cas::Consensus::processes(Word::new, kept), |it, value| it.decide(value));
    measure("by_hand", by_hand, |Hand(decision, process), value| decision.decide(process, value));
}
