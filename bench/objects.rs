//! Times calls of a counter modulo 3: of the wait-free objects that `cnum show` writes, of one in a mutex, and of one by a loop of
//! compare-and-swap. `bench/measure objects` compiles this file with the programs beside it. Each line has a number of threads, and for
//! each object the calls of all threads in a second, in thousands: of the first with blocks of 32 slots and of 1,024. With the word
//! `alone` it tells instead the nanoseconds of processor time of a call that one thread makes alone: of the wait-free objects for two, four
//! and eight, in a mutex, and by the loop. With `memory` it tells the most memory, in KiB, after 4,000 calls of four threads, and after
//! ten million.
use std::sync::atomic::{AtomicUsize, Ordering::SeqCst};
use std::sync::{Arc, Barrier, Mutex};
use std::thread;
use std::time::Instant;

mod eight;
mod four;
mod two;

const CALLS: usize = 200_000;
const ALONE: u32 = 1_000_000;
const FEW: usize = 1_000;
const MANY: usize = 2_499_000;

/// A word that keeps what is put first.
struct Word(AtomicUsize);

impl Word {
    fn new(state: usize) -> Self {
        Word(AtomicUsize::new(state))
    }

    fn put(&self, value: usize) -> usize {
        self.0.compare_exchange(0, value, SeqCst, SeqCst).unwrap_or_else(|before| before)
    }
}

/// Runs a call of each thread so many times. Answers the calls of all threads in a second, in thousands.
fn measured<C: FnMut() -> usize + Send, const N: usize>(calls: [C; N], times: usize) -> f64 {
    let (barrier, began) = (&Barrier::new(N), Instant::now());
    let counts: [usize; N] = thread::scope(|scope| {
        let begun = calls.map(|mut call| {
            scope.spawn(move || {
                barrier.wait();
                (0..times).map(|_| call()).filter(|count| *count == 0).count()
            })
        });
        begun.map(|it| it.join().unwrap())
    });
    let (all, zeros) = (N * times, counts.iter().sum::<usize>());
    assert_eq!(zeros, (all + 2) / 3, "a count is skipped or told twice");
    all as f64 / began.elapsed().as_secs_f64() / 1000.0
}

fn in_mutex<const N: usize>() -> f64 {
    let shared = Arc::new(Mutex::new(0));
    measured([(); N].map(|_| {
        let shared = Arc::clone(&shared);
        move || next(&mut shared.lock().unwrap())
    }), CALLS)
}

/// Counts on, and answers the count before.
fn next(count: &mut usize) -> usize {
    let before = *count;
    *count = (before + 1) % 3;
    before
}

fn by_loop<const N: usize>() -> f64 {
    let shared = Arc::new(AtomicUsize::new(0));
    measured([(); N].map(|_| {
        let shared = Arc::clone(&shared);
        move || shared.fetch_update(SeqCst, SeqCst, |count| Some((count + 1) % 3)).unwrap()
    }), CALLS)
}

/// The wait-free object of a program, with blocks of so many slots.
macro_rules! wait_free {
    ($program:ident) => {
        impl $program::Object for Word {
            fn apply(&self, operation: usize) -> usize {
                self.put(operation + 1)
            }
        }

        impl $program::Renew for Word {
            fn renew(&self, state: usize) {
                self.0.store(state, SeqCst);
            }
        }

        impl $program::Full {
            fn alone() -> f64 {
                let [mut caller, ..] = $program::Universal::<Word, 1024>::callers(Word::new, Arc::new);
                alone(|| caller.call(0).unwrap())
            }

            fn measured<const SLOTS: usize>(times: usize) -> f64 {
                let callers = $program::Universal::<Word, SLOTS>::callers(Word::new, Arc::new);
                measured(callers.map(|mut caller| {
                    move || loop {
                        match caller.call(0) {
                            Ok(count) => return count,
                            Err($program::Full) => thread::yield_now(),
                        }
                    }
                }), times)
            }
        }
    };
}

wait_free!(two);
wait_free!(four);
wait_free!(eight);

/// Nanoseconds of processor time of a call.
fn alone(mut call: impl FnMut() -> usize) -> f64 {
    let began = processor_time();
    (0..ALONE).for_each(|count| assert_eq!(call(), count as usize % 3));
    (processor_time() - began) / f64::from(ALONE)
}

/// The processor time of this thread so far, in nanoseconds.
fn processor_time() -> f64 {
    let told = std::fs::read_to_string("/proc/thread-self/schedstat").unwrap();
    told.split_whitespace().next().unwrap().parse().unwrap()
}

/// The most memory of this process so far, in KiB.
fn most_memory() -> String {
    let told = std::fs::read_to_string("/proc/self/status").unwrap();
    let line = told.lines().find(|it| it.starts_with("VmHWM:")).unwrap();
    line.split_whitespace().nth(1).unwrap().into()
}

fn main() {
    if std::env::args().nth(1).as_deref() == Some("alone") {
        let (count, shared) = (Mutex::new(0), AtomicUsize::new(0));
        let in_mutex = alone(|| next(&mut count.lock().unwrap()));
        let by_loop = alone(|| shared.fetch_update(SeqCst, SeqCst, |count| Some((count + 1) % 3)).unwrap());
        let programs = [two::Full::alone(), four::Full::alone(), eight::Full::alone()];
        return println!("{} {in_mutex:.0} {by_loop:.0}", programs.map(|it| format!("{it:.0}")).join(" "));
    }
    if std::env::args().nth(1).as_deref() == Some("memory") {
        four::Full::measured::<1024>(FEW);
        let few = most_memory();
        four::Full::measured::<1024>(MANY);
        return println!("{few} {}", most_memory());
    }
    let program = |short, long| format!("{short:.0} {long:.0}");
    let two = program(two::Full::measured::<32>(CALLS), two::Full::measured::<1024>(CALLS));
    println!("2 {two} {:.0} {:.0}", in_mutex::<2>(), by_loop::<2>());
    let four = program(four::Full::measured::<32>(CALLS), four::Full::measured::<1024>(CALLS));
    println!("4 {four} {:.0} {:.0}", in_mutex::<4>(), by_loop::<4>());
    let eight = program(eight::Full::measured::<32>(CALLS), eight::Full::measured::<1024>(CALLS));
    println!("8 {eight} {:.0} {:.0}", in_mutex::<8>(), by_loop::<8>());
}
