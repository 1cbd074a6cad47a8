//! Calls of the wait-free object in consensus.rs, step by step, by random events: events SLOTS BLOCKS SEED LISTS EVENTS
//! For each list a line: the events, the answers (process, slot, response), how often a call was full, and whether all calls have ended.
//! The atomics and the objects are stand-ins, which wait for their turn before each step. A step at the end of a block, of `reached` or of a
//! renewal is no event.
mod table;

/// The file, and what the driver has to see of it.
mod consensus {
    include!("consensus.rs");

    use std::ops::Range;

    impl<O, const SLOTS: usize, const BLOCKS: usize> Universal<O, SLOTS, BLOCKS> {
        /// Whether a step at this address is an event of the log: at an announcement, or in a slot.
        pub fn is_event(&self, address: usize) -> bool {
            let (blocks, block) = (range_of(&self.blocks), &self.blocks[0][0]);
            let begin = range_of(block).start;
            let within = begin + address.wrapping_sub(begin) % std::mem::size_of_val(block);
            let in_slot = blocks.contains(&address) && range_of(&block.slots).contains(&within);
            in_slot || range_of(&self.registers.announcements).contains(&address)
        }
    }

    fn range_of<T>(it: &T) -> Range<usize> {
        let begin = it as *const T as usize;
        begin..begin + std::mem::size_of_val(it)
    }

    impl<P> Caller<P>
    where
        P: Deref,
        P::Target: AsRef<Registers>,
    {
        /// How many slots the process has gone through, with so many in a block.
        pub fn position(&self, slots: usize) -> usize {
            (self.block as usize - 1) * slots + self.slot
        }
    }
}

/// What stands there for the atomics and the objects.
mod mock {
    use super::{step, Step};
    use std::cell::Cell;

    pub struct SeqCst;
    #[derive(Debug)]
    pub struct AtomicU64(Cell<u64>);
    #[derive(Debug)]
    pub struct AtomicBool(Cell<bool>);
    #[derive(Debug)]
    pub struct Mock(Cell<usize>);

    // One process at a time takes a step: `step` waits for its turn.
    unsafe impl Sync for AtomicU64 {}
    unsafe impl Sync for AtomicBool {}
    unsafe impl Sync for Mock {}

    fn address<T>(it: &T) -> usize {
        it as *const T as usize
    }

    impl AtomicU64 {
        pub fn new(value: u64) -> Self {
            AtomicU64(Cell::new(value))
        }

        pub fn store(&self, value: u64, _: SeqCst) {
            // A register of a round holds a batch, and none is 0: a 0 is written by a renewal alone.
            step(if value > 0 { Step::At(address(self)) } else { Step::Apart });
            self.0.set(value);
        }

        pub fn load(&self, _: SeqCst) -> u64 {
            step(Step::At(address(self)));
            self.0.get()
        }
    }

    impl AtomicBool {
        pub fn new(value: bool) -> Self {
            AtomicBool(Cell::new(value))
        }

        pub fn swap(&self, value: bool, _: SeqCst) -> bool {
            self.0.replace(value)
        }

        pub fn store(&self, value: bool, _: SeqCst) {
            self.0.set(value);
        }

        pub fn load(&self, _: SeqCst) -> bool {
            self.0.get()
        }
    }

    impl Mock {
        pub fn new(state: usize) -> Self {
            Mock(Cell::new(state))
        }
    }

    impl crate::consensus::Object for Mock {
        fn apply(&self, operation: usize) -> usize {
            step(Step::At(address(self)));
            let (response, next) = crate::table::ROWS[operation][self.0.get()];
            self.0.set(next);
            response
        }

        fn read(&self) -> usize {
            step(Step::At(address(self)));
            self.0.get()
        }
    }

    impl crate::consensus::Renew for Mock {
        fn renew(&self, state: usize) {
            step(Step::Apart);
            self.0.set(state);
        }
    }
}

use consensus::{Caller, Universal, OBJECT_OPERATIONS, PROCESSES};
use mock::Mock;
use std::cell::RefCell;
use std::fmt::Write;
use std::sync::mpsc::{channel, Receiver, Sender};
use std::sync::Arc;
use std::thread;

/// What a process is about to do: a step at an address, or one that is no event wherever it is.
pub enum Step {
    At(usize),
    Apart,
}

/// What a process tells the driver.
enum Report {
    Next(Step),
    /// Its call has ended, with the slot and the response, or has found no block; and where it is now.
    Ended(Result<(usize, usize), consensus::Full>, usize),
}

thread_local! {
    /// In the thread of a process, by which it tells its next step and waits for its turn.
    static TURNS: RefCell<Option<(Sender<Report>, Receiver<()>)>> = const { RefCell::new(None) };
}

fn step(next: Step) {
    TURNS.with(|turns| {
        if let Some((reports, turns)) = &*turns.borrow() {
            reports.send(Report::Next(next)).unwrap();
            turns.recv().unwrap();
        }
    });
}

/// A random number below a bound, by xorshift.
struct Random(u64);

impl Random {
    fn below(&mut self, bound: usize) -> usize {
        self.0 ^= self.0 << 13;
        self.0 ^= self.0 >> 7;
        self.0 ^= self.0 << 17;
        ((self.0 >> 11) % bound as u64) as usize
    }
}

type Shared<const SLOTS: usize, const BLOCKS: usize> = Arc<Universal<Mock, SLOTS, BLOCKS>>;

/// A process, as the driver sees it.
struct Seen {
    calls: Sender<usize>,
    turns: Sender<()>,
    reports: Receiver<Report>,
    /// Its next step, if it is in a call, and the operation of the call.
    next: Option<Step>,
    operation: usize,
    position: usize,
}

fn calls<const SLOTS: usize, const BLOCKS: usize>(
    mut caller: Caller<Shared<SLOTS, BLOCKS>>,
    asked: Receiver<usize>,
    reports: Sender<Report>,
    turns: Receiver<()>,
) {
    let told = reports.clone();
    TURNS.with(|it| *it.borrow_mut() = Some((reports, turns)));
    for operation in asked {
        let answer = caller.call(operation);
        let position = caller.position(SLOTS);
        let _ = told.send(Report::Ended(answer.map(|response| (position - 1, response)), position));
    }
    TURNS.with(|it| *it.borrow_mut() = None);
}

struct List {
    events: String,
    answers: String,
    full: usize,
}

impl List {
    /// Goes on to the next report of a process.
    fn await_report(&mut self, process: usize, seen: &mut Seen) -> bool {
        match seen.reports.recv().unwrap() {
            Report::Next(step) => seen.next = Some(step),
            Report::Ended(answer, position) => {
                (seen.next, seen.position) = (None, position);
                match answer {
                    Ok((slot, response)) => write!(self.answers, "{process} {slot} {response};").unwrap(),
                    Err(_) => {
                        self.full += 1;
                        return true;
                    }
                }
            }
        }
        false
    }

    /// A process takes its next step, an event or not.
    fn go<const SLOTS: usize, const BLOCKS: usize>(&mut self, process: usize, seen: &mut Seen, shared: &Shared<SLOTS, BLOCKS>, first: &mut bool) -> bool {
        let is_event = match seen.next.take().unwrap() {
            Step::At(address) => shared.is_event(address),
            Step::Apart => false,
        };
        if is_event && *first {
            write!(self.events, "i{process}:{},", seen.operation).unwrap();
        } else if is_event {
            write!(self.events, "s{process},").unwrap();
        }
        *first &= !is_event;
        seen.turns.send(()).unwrap();
        self.await_report(process, seen)
    }
}

fn drive<const SLOTS: usize, const BLOCKS: usize>(random: &mut Random, steps: usize) -> (List, bool) {
    let mut shared: Option<Shared<SLOTS, BLOCKS>> = None;
    let callers = Universal::callers(Mock::new, |it| {
        let it = Arc::new(it);
        shared = Some(it.clone());
        it
    });
    let shared = shared.unwrap();
    let mut list = List { events: String::new(), answers: String::new(), full: 0 };
    let mut firsts = [true; PROCESSES];
    // Each process has a weight: some are slow, and some lists have processes that never move.
    let weights: Vec<usize> = (0..PROCESSES).map(|_| [0, 1, 4, 16][random.below(4)]).collect();
    let drains = random.below(2) == 0;
    thread::scope(|scope| {
        let mut all: Vec<Seen> = Vec::new();
        for caller in callers {
            let ((calls_in, asked), (turns, turned), (told, reports)) = (channel(), channel(), channel());
            scope.spawn(move || calls(caller, asked, told, turned));
            all.push(Seen { calls: calls_in, turns, reports, next: None, operation: 0, position: 0 });
        }
        let mut chosen: Vec<usize> = weights.iter().enumerate().flat_map(|(process, weight)| vec![process; *weight]).collect();
        if chosen.is_empty() {
            chosen = (0..PROCESSES).collect();
        }
        for _ in 0..steps {
            let process = chosen[random.below(chosen.len())];
            let seen = &mut all[process];
            let full = if seen.next.is_some() {
                list.go(process, seen, &shared, &mut firsts[process])
            } else {
                seen.operation = random.below(OBJECT_OPERATIONS.len());
                firsts[process] = true;
                seen.calls.send(seen.operation).unwrap();
                list.await_report(process, seen)
            };
            if full {
                judge_full(process, &all, SLOTS, BLOCKS);
            }
        }
        while drains && all.iter().any(|it| it.next.is_some()) {
            let process = random.below(PROCESSES);
            if all[process].next.is_some() && list.go(process, &mut all[process], &shared, &mut firsts[process]) {
                judge_full(process, &all, SLOTS, BLOCKS);
            }
        }
        // Who is still in a call ends it unseen.
        for (process, seen) in all.iter_mut().enumerate() {
            let mut unseen = List { events: String::new(), answers: String::new(), full: 0 };
            while seen.next.is_some() {
                unseen.go(process, seen, &shared, &mut firsts[process]);
            }
        }
    });
    (list, drains)
}

/// A process whose call was full is more than (BLOCKS - 2) * SLOTS slots in front of another one.
fn judge_full(process: usize, all: &[Seen], slots: usize, blocks: usize) {
    let last = all.iter().map(|it| it.position).min().unwrap();
    assert!(all[process].position > last + (blocks - 2) * slots, "full too early");
}

fn lists<const SLOTS: usize, const BLOCKS: usize>(words: &[usize]) {
    let mut random = Random(words[0] as u64 * 0x9e37_79b9_7f4a_7c15 + 1);
    for _ in 0..words[1] {
        let (list, drains) = drive::<SLOTS, BLOCKS>(&mut random, words[2]);
        println!("{}|{}|{}|{drains}", list.events, list.answers, list.full);
    }
}

fn main() {
    let words: Vec<usize> = std::env::args().skip(1).map(|it| it.parse().unwrap()).collect();
    match words[..2] {
        [2, 2] => lists::<2, 2>(&words[2..]),
        [2, 3] => lists::<2, 3>(&words[2..]),
        [3, 2] => lists::<3, 2>(&words[2..]),
        [64, 2] => lists::<64, 2>(&words[2..]),
        _ => panic!("no such numbers of slots and blocks"),
    }
}
