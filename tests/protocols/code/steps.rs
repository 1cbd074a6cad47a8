//! The next step of a process by the file consensus.rs, after what it has observed, as shape.rs says: steps PROCESS VALUE OBSERVATION..
//! Without words it tells the numbers of processes, of nodes and of registers of a node, and the state in which each object starts.
#[macro_use]
mod shape;
mod consensus;

use consensus::{Consensus, Object, NODES, PROCESSES, STARTS, TEAMS};

/// What stands there for std's atomics, and for the objects.
mod mock {
    use crate::consensus::TEAMS;
    use std::sync::atomic::{AtomicUsize, Ordering::Relaxed};

    pub struct SeqCst;
    /// A register, by its number.
    #[derive(Debug)]
    pub struct AtomicU64(usize);
    /// A flag of a value of any type, which no process has here.
    #[derive(Debug)]
    pub struct AtomicBool(());
    /// An object, by its node.
    #[derive(Debug)]
    pub struct Mock(pub usize);

    static REGISTERS: AtomicUsize = AtomicUsize::new(0);
    static STEPS: AtomicUsize = AtomicUsize::new(0);

    /// What the process observes by its next step. The program ends with the first step whose observation is not known.
    fn observed(step: String) -> u64 {
        let known = std::env::args().nth(3 + STEPS.fetch_add(1, Relaxed));
        known.unwrap_or_else(|| end(&step)).parse().unwrap()
    }

    pub fn end(told: &str) -> ! {
        println!("{told}");
        std::process::exit(0)
    }

    impl AtomicU64 {
        pub fn new(_: u64) -> AtomicU64 {
            AtomicU64(REGISTERS.fetch_add(1, Relaxed))
        }

        /// The team and the node of the register.
        fn place(&self) -> String {
            format!("{} of node {}", self.0 % TEAMS, self.0 / TEAMS)
        }

        pub fn store(&self, value: u64, _: SeqCst) {
            observed(format!("writes {value} to {}", self.place()));
        }

        pub fn load(&self, _: SeqCst) -> u64 {
            observed(format!("takes from {}", self.place()))
        }
    }

    impl AtomicBool {
        pub fn new(_: bool) -> AtomicBool {
            AtomicBool(())
        }

        pub fn swap(&self, _: bool, _: SeqCst) -> bool {
            unreachable!()
        }

        pub fn store(&self, _: bool, _: SeqCst) {}

        pub fn load(&self, _: SeqCst) -> bool {
            unreachable!()
        }
    }

    impl super::Object for Mock {
        fn apply(&self, operation: usize) -> usize {
            observed(format!("applies {operation} at node {}", self.0)) as usize
        }

        if_read! {
            fn read(&self) -> usize {
                observed(format!("reads at node {}", self.0)) as usize
            }
        }
    }
}

fn main() {
    let words: Vec<u64> = std::env::args().skip(1).map(|it| it.parse().unwrap()).collect();
    let [process, value, ..] = words[..] else {
        mock::end(&format!("{PROCESSES} {NODES} {TEAMS} {}", STARTS.map(|it| it.to_string()).join(" ")));
    };
    let mut nodes = 0..NODES;
    let processes = Consensus::processes(|_| mock::Mock(nodes.next().unwrap()), std::sync::Arc::new);
    let one = processes.into_iter().nth(process as usize).unwrap();
    mock::end(&format!("decides {}", one.decide(value)));
}
