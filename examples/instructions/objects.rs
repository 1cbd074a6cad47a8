//! Objects of types by what machines have, each held to its table by `check_object`: prints the
//! type of each.
//!
//! cnum writes the modules, and `rustc --edition 2021 -O examples/instructions/objects.rs` compiles
//! all:
//!
//!     ./cnum show --as rust --shortest types/test_and_set.toml > examples/instructions/test_and_set.rs
//!     ./cnum show --as rust catalogue/fetch_or_and_3bit.json catalogue/fetch_or_and_3bit.toml > examples/instructions/fetch_or_and.rs
//!     ./cnum show --as rust --shortest catalogue/fetch_add_mod4.toml > examples/instructions/fetch_add.rs
//!     ./cnum show --as rust --shortest catalogue/swap_3.toml > examples/instructions/swap.rs
//!     ./cnum show --as rust --shortest catalogue/cas_9.toml > examples/instructions/compare_and_swap.rs
//!     ./cnum show --as rust --shortest types/sticky_bit.toml > examples/instructions/sticky_bit.rs
//!
//! All of a state is in one word, and each call is one method of an atomic, so one step. There is
//! none of load-linked and store-conditional: Rust has no method for either, and a pair in assembly
//! would not be two steps of an object, since what the compiler puts between them may break the
//! link for good. On machines that have the two, `compare_exchange` is made of them.
use std::sync::atomic::{AtomicBool, AtomicU8, AtomicUsize, Ordering::SeqCst};

mod compare_and_swap;
mod fetch_add;
mod fetch_or_and;
mod sticky_bit;
mod swap;
mod test_and_set;

/// A test-and-set bit. `swap` writes `true` and takes what was there, in one step.
struct Bit(AtomicBool);

impl test_and_set::Object for Bit {
    fn apply(&self, _: usize) -> usize {
        usize::from(self.0.swap(true, SeqCst))
    }
}

/// Three bits that are set and cleared by masks: `fetch_or` and `fetch_and` change all of them and
/// take what was there, in one step. To read them is another step, one load of the word: what other
/// threads do between the two, the protocol allows for.
struct Bits(AtomicU8);

impl fetch_or_and::Object for Bits {
    fn apply(&self, operation: usize) -> usize {
        let before = match fetch_or_and::OPERATIONS[operation] {
            "or110" => self.0.fetch_or(0b110, SeqCst),
            "and100" => self.0.fetch_and(0b100, SeqCst),
            name => unreachable!("{name} is no operation of the table"),
        };
        usize::from(before)
    }

    fn read(&self) -> usize {
        usize::from(self.0.load(SeqCst))
    }
}

/// A count modulo 4. `fetch_add` wraps at 256, which is a multiple of 4: so the byte modulo 4 is
/// the state, and one step changes it.
struct Count(AtomicU8);

impl fetch_add::Object for Count {
    fn apply(&self, operation: usize) -> usize {
        usize::from(self.0.fetch_add(operation as u8 + 1, SeqCst) % 4)
    }
}

/// A word that is exchanged: `swap` writes a value and takes the one before, in one step.
struct Cell(AtomicUsize);

impl swap::Object for Cell {
    fn apply(&self, operation: usize) -> usize {
        self.0.swap(operation, SeqCst)
    }
}

/// A word that is compared with 0. `compare_exchange` looks at it and changes it, or looks and does
/// not, in one step. It does not fail where 0 is there, as `compare_exchange_weak` may.
struct Word(AtomicUsize);

impl Word {
    /// Puts a value in if 0 is there, and answers what was there.
    fn put(&self, value: usize) -> usize {
        let swapped = self.0.compare_exchange(0, value, SeqCst, SeqCst);
        swapped.unwrap_or_else(|before| before)
    }
}

impl compare_and_swap::Object for Word {
    fn apply(&self, operation: usize) -> usize {
        self.put(operation + 1)
    }
}

/// A sticky bit: 0 is unset, and a bit is put in as its value and 1. The response is found in what
/// the one step of `put` took.
struct Sticky(Word);

impl sticky_bit::Object for Sticky {
    fn apply(&self, operation: usize) -> usize {
        match self.0.put(operation + 1) {
            0 => operation,
            before => before - 1,
        }
    }
}

fn main() {
    test_and_set::check_object(|state| Bit(AtomicBool::new(state == 1)));
    println!("test-and-set");
    fetch_or_and::check_object(|state| Bits(AtomicU8::new(state as u8)));
    println!("fetch-and-or and fetch-and-and");
    fetch_add::check_object(|state| Count(AtomicU8::new(state as u8)));
    println!("fetch-and-add");
    swap::check_object(|state| Cell(AtomicUsize::new(state)));
    println!("swap");
    compare_and_swap::check_object(|state| Word(AtomicUsize::new(state)));
    println!("compare-and-swap");
    sticky_bit::check_object(|state| Sticky(Word(AtomicUsize::new(state))));
    println!("sticky bit");
}
