//! Uses of the file consensus.rs by threads, over objects of the table in table.rs, as shape.rs says: uses WHAT [NUMBER]
//!   calls ROUNDS   in each round all processes call the wait-free object at once: each response is that of one sequential run, in the order of
//!                  the log, which keeps the order of calls that do not overlap; after a second it ends
//!   many CALLS     so many calls take no memory; tells the time of one
//!   full           a process that stops, or makes no calls, or is dropped: when the others get Full
//!   election       values of any type: each process gets one and the same, each is dropped once
//!   check          check_object passes right objects and refuses wrong ones
#[macro_use]
mod shape;
mod table;

/// The file, and what the uses have to see of it.
mod consensus {
    include!("consensus.rs");

    impl<P> Caller<P>
    where
        P: Deref,
        P::Target: AsRef<Registers>,
    {
        /// How many slots the process has gone through, with so many in a block.
        pub fn position(&self, slots: usize) -> usize {
            (self.block as usize - 1) * slots + self.slot
        }
    }
}

use consensus::*;
use std::alloc::{GlobalAlloc, Layout, System};
use std::panic::{catch_unwind, set_hook};
use std::sync::atomic::{AtomicU64, AtomicU8, AtomicUsize, Ordering::SeqCst};
use std::sync::{Arc, Barrier, Mutex};
use std::thread;
use std::time::{Duration, Instant};

/// Counts allocations.
struct Counting;

static ALLOCATIONS: AtomicUsize = AtomicUsize::new(0);

unsafe impl GlobalAlloc for Counting {
    unsafe fn alloc(&self, layout: Layout) -> *mut u8 {
        ALLOCATIONS.fetch_add(1, SeqCst);
        System.alloc(layout)
    }

    unsafe fn dealloc(&self, at: *mut u8, layout: Layout) {
        System.dealloc(at, layout);
    }
}

#[global_allocator]
static GLOBAL: Counting = Counting;

/// An object: its state.
#[derive(Debug)]
struct Cell(AtomicU8);

impl Cell {
    fn new(state: usize) -> Self {
        Cell(AtomicU8::new(state as u8))
    }
}

type Row = (usize, usize);

fn applied(state: &AtomicU8, row: &[Row]) -> usize {
    let next = |it: u8| Some(row[usize::from(it)].1 as u8);
    let before = state.fetch_update(SeqCst, SeqCst, next).unwrap();
    row[usize::from(before)].0
}

impl Object for Cell {
    fn apply(&self, operation: usize) -> usize {
        applied(&self.0, &table::ROWS[operation])
    }

    if_read! {
        fn read(&self) -> usize {
            usize::from(self.0.load(SeqCst))
        }
    }
}

impl Renew for Cell {
    fn renew(&self, state: usize) {
        self.0.store(state as u8, SeqCst);
    }
}

type Handle<const SLOTS: usize, const BLOCKS: usize> = Caller<Arc<Universal<Cell, SLOTS, BLOCKS>>>;

fn handles<const SLOTS: usize, const BLOCKS: usize>() -> [Handle<SLOTS, BLOCKS>; PROCESSES] {
    Universal::callers(Cell::new, Arc::new)
}

/// A call that was answered: its slot, process, operation and response, and when it began and ended.
#[derive(Clone, Copy, PartialEq, Eq, PartialOrd, Ord)]
struct Answered {
    slot: usize,
    process: usize,
    operation: usize,
    response: usize,
    begin: u64,
    end: u64,
}

/// The calls of a process in a round, and between them it catches up now and then.
fn called(mut caller: Handle<4, 3>, count: usize, clock: &AtomicU64, start: &Barrier) -> Vec<Answered> {
    let mut answered = Vec::new();
    start.wait();
    for call in 0..count {
        let operation = (call + caller.number()) % OBJECT_OPERATIONS.len();
        if call % 5 == caller.number() % 5 {
            // If it is full, another process is further behind.
            let _ = caller.catch_up();
        }
        let begin = clock.fetch_add(1, SeqCst);
        let response = loop {
            match caller.call(operation) {
                Ok(response) => break response,
                Err(Full) => thread::yield_now(),
            }
        };
        let (slot, process) = (caller.position(4) - 1, caller.number());
        answered.push(Answered { slot, process, operation, response, begin, end: clock.fetch_add(1, SeqCst) });
    }
    answered
}

/// All calls of a round, in the order of the log.
fn round(count: usize) -> Vec<Answered> {
    let (clock, start) = (&AtomicU64::new(0), &Barrier::new(PROCESSES));
    let mut all: Vec<Answered> = thread::scope(|scope| {
        let threads = handles::<4, 3>().map(|caller| scope.spawn(move || called(caller, count, clock, start)));
        threads.into_iter().flat_map(|it| it.join().unwrap()).collect()
    });
    all.sort();
    all
}

fn judge_round(all: &[Answered]) -> bool {
    let (mut state, mut latest) = (OBJECT_START, 0);
    for it in all {
        let (response, next) = table::OBJECT_ROWS[it.operation][state];
        assert_eq!(it.response, response, "a response of another run");
        assert!(it.end > latest, "a call stands behind one that began later than it ended");
        (state, latest) = (next, latest.max(it.begin));
    }
    // Whether some batch had calls of several processes.
    all.windows(2).any(|pair| pair[0].slot == pair[1].slot)
}

fn calls(rounds: usize) {
    let (late, mut shared, mut done) = (Instant::now() + Duration::from_secs(1), 0, 0);
    while done < rounds && (done < 50 || Instant::now() < late) {
        shared += usize::from(judge_round(&round(20)));
        done += 1;
    }
    println!("{done} rounds: {}", if shared > 0 { "linearized, with shared slots" } else { "no shared slot" });
}

fn many(count: usize) {
    let (start, callers) = (Barrier::new(PROCESSES + 1), handles::<64, 8>());
    let each = count / PROCESSES;
    let (before, time) = thread::scope(|scope| {
        let start = &start;
        for mut caller in callers {
            scope.spawn(move || {
                start.wait();
                for _ in 0..each {
                    while caller.call(0).is_err() {
                        thread::yield_now();
                    }
                }
                drop(caller);
                start.wait();
            });
        }
        start.wait();
        let (before, began) = (ALLOCATIONS.load(SeqCst), Instant::now());
        start.wait();
        (before, began.elapsed())
    });
    let taken = ALLOCATIONS.load(SeqCst) - before;
    let made = each * PROCESSES;
    println!("{made} calls, {taken} allocations, {} bytes, {} ns each", std::mem::size_of::<Universal<Cell, 64, 8>>(), time.as_nanos() / made as u128);
}

/// How many calls a process makes until one is full, of at most so many.
fn until_full<const SLOTS: usize, const BLOCKS: usize>(caller: &mut Handle<SLOTS, BLOCKS>, most: usize) -> usize {
    (0..most).take_while(|_| caller.call(0).is_ok()).count()
}

/// Alone, process 0 has one block less than the others: the log begins with it.
fn judge_full<const SLOTS: usize, const BLOCKS: usize>() {
    let most = 100 * SLOTS * BLOCKS;
    for process in 0..PROCESSES {
        let mut all: Vec<_> = handles::<SLOTS, BLOCKS>().into_iter().collect();
        let mut one = all.remove(process);
        let first = (BLOCKS - usize::from(process == 0)) * SLOTS + 1;
        assert_eq!(until_full(&mut one, most), first, "Full at another call");
        let position = one.position(SLOTS);
        assert_eq!((one.call(0), one.position(SLOTS)), (Err(Full), position), "a call that was full has changed something");
        // All others catch up. Then the process makes calls again, and those who were behind do too.
        for other in &mut all {
            other.catch_up().unwrap();
            assert_eq!(other.position(SLOTS), position, "not caught up");
        }
        let again = until_full(&mut one, most);
        assert!(again > (BLOCKS - 2) * SLOTS && again <= BLOCKS * SLOTS, "Full at another call than the bound says");
        // One of the others makes calls, then stops; those who are dropped hold nobody up.
        let mut stopped = all.pop().unwrap();
        drop(all);
        assert!(stopped.call(0).is_ok(), "who is behind finds no block");
        stopped.catch_up().unwrap();
        assert!(until_full(&mut one, most) > (BLOCKS - 2) * SLOTS, "a dropped handle holds a process up");
        drop(stopped);
        assert_eq!(until_full(&mut one, most), most, "a dropped handle holds a process up");
    }
}

fn full() {
    judge_full::<2, 2>();
    judge_full::<2, 3>();
    judge_full::<3, 4>();
    judge_full::<16, 2>();
    println!("full at the bound");
}

/// A value that tells when it is dropped.
#[derive(Debug)]
struct Told(usize, Arc<AtomicUsize>);

impl Drop for Told {
    fn drop(&mut self) {
        self.1.fetch_add(1, SeqCst);
    }
}

fn election() {
    let mut winners = [false; PROCESSES];
    for round in 0..500 {
        let (dropped, start) = (Arc::new(AtomicUsize::new(0)), Barrier::new(PROCESSES));
        let candidates = Election::candidates(Cell::new, Arc::new);
        let elected: Vec<usize> = thread::scope(|scope| {
            let (dropped, start) = (&dropped, &start);
            let threads = candidates.map(|it| {
                scope.spawn(move || {
                    let number = it.number();
                    start.wait();
                    if round % 2 == 0 && number > 0 {
                        thread::yield_now();
                    }
                    let elected = it.decide(Told(10 * number, dropped.clone()));
                    assert_eq!(elected.value().0, 10 * elected.number());
                    assert_eq!(dropped.load(SeqCst), 0, "a value is dropped too early");
                    start.wait();
                    elected.number()
                })
            });
            threads.into_iter().map(|it| it.join().unwrap()).collect()
        });
        assert!(elected.iter().all(|it| *it == elected[0]), "no agreement");
        assert_eq!(dropped.load(SeqCst), PROCESSES, "each value is dropped once");
        winners[elected[0]] = true;
    }
    // Whoever hands out one election twice gets no second value of a process.
    set_hook(Box::new(|_| ()));
    let kept: Mutex<Option<&'static Election<Cell, u8>>> = Mutex::new(None);
    let share = |it: Election<Cell, u8>| *kept.lock().unwrap().get_or_insert_with(|| Box::leak(Box::new(it)));
    let (mut first, mut second) = (Vec::from(Election::candidates(Cell::new, share)), Vec::from(Election::candidates(Cell::new, share)));
    first.remove(0).decide(7);
    let twice = second.remove(0);
    assert!(catch_unwind(std::panic::AssertUnwindSafe(|| twice.decide(8))).is_err(), "a second value of a process");
    println!("elected");
}

/// An object with another start state, or another entry.
struct Wrong {
    cell: Cell,
    entry: (usize, usize),
    instead: Row,
}

impl Wrong {
    fn row(&self, operation: usize) -> Vec<Row> {
        let mut row = table::ROWS[operation].to_vec();
        if operation == self.entry.0 {
            row[self.entry.1] = self.instead;
        }
        row
    }
}

impl Object for Wrong {
    fn apply(&self, operation: usize) -> usize {
        applied(&self.cell.0, &self.row(operation))
    }

    if_read! {
        fn read(&self) -> usize {
            self.cell.read()
        }
    }
}

/// What check_object says of an object whose entry for an operation and a state is another.
fn told(entry: (usize, usize), instead: Row) -> Option<String> {
    let make = |state| Wrong { cell: Cell::new(state), entry, instead };
    catch_unwind(|| check_object(make)).err().map(|it| *it.downcast::<String>().unwrap())
}

/// The states to which operations lead.
fn reached() -> [bool; STATES.len()] {
    let mut reached = [false; STATES.len()];
    for start in STARTS {
        reached[start] = true;
    }
    for _ in STATES {
        for state in 0..STATES.len() {
            for row in &table::ROWS {
                reached[row[state].1] |= reached[state];
            }
        }
    }
    reached
}

/// Whether a response shows at once in which of two states an object is.
fn differ(one: usize, other: usize) -> bool {
    shape::READS && one != other || table::ROWS.iter().any(|row| row[one].0 != row[other].0)
}

fn check() {
    set_hook(Box::new(|_| ()));
    check_object(Cell::new);
    let (mut refused, reached) = (0, reached());
    for (operation, state) in (0..OPERATIONS.len()).flat_map(|o| (0..STATES.len()).map(move |s| (o, s))) {
        let (response, next) = table::ROWS[operation][state];
        for instead in (0..RESPONSES.len()).map(|it| (it, next)).chain((0..STATES.len()).map(|it| (response, it))) {
            let told = told((operation, state), instead);
            if !reached[state] || instead == (response, next) {
                assert_eq!(told, None, "a right object is refused");
            } else if instead.0 != response || differ(instead.1, next) {
                let told = told.expect("a wrong object passes");
                // Where nobody reads, a wrong response shows behind the operation before, whose state is told.
                assert!(told.contains(OPERATIONS[operation]) && (!shape::READS || told.contains(STATES[state])), "{told}");
                refused += 1;
            }
        }
    }
    for other in (0..STATES.len()).filter(|it| differ(*it, STARTS[0])) {
        let is_wrong = catch_unwind(|| check_object(|state| Cell::new(if state == STARTS[0] { other } else { state })));
        assert!(is_wrong.is_err(), "another start state passes");
    }
    assert!(refused > 0);
    println!("checked");
}

fn main() {
    let words: Vec<String> = std::env::args().skip(1).collect();
    let number = || words[1].parse().unwrap();
    match words[0].as_str() {
        "calls" => calls(number()),
        "many" => many(number()),
        "full" => full(),
        "election" => election(),
        "check" => check(),
        _ => panic!("no such use"),
    }
}
