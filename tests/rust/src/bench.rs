//! sat_bench: times the archive's ledger calls beside the Rust on the same bodies, in one process,
//! or makes one kind of call alone for a counter of instructions. README.md tells the use.

extern crate alloc;

#[path = "bench/calls.rs"]
mod calls;
mod error;
mod gen;
mod hex;
#[path = "bench/sets.rs"]
mod sets;
mod tables;
#[path = "bench/times.rs"]
mod times;
mod traits;

use calls::{Call, Room};
use sets::Set;

const USE: &str = "use: sat_bench [sets | count CALL SET]
     CALL is parse, rust-ledger, write, rust-plain or read; SET is one of those that sets prints";

fn main() {
    let args: Vec<String> = std::env::args().skip(1).collect();
    match args.iter().map(String::as_str).collect::<Vec<_>>()[..] {
        [] => times::tables(&sets::NAMES.map(set)),
        ["sets"] => println!("{}", sets::NAMES.join("\n")),
        ["count", call, name] if sets::NAMES.contains(&name) => match Call::named(call) {
            Some(call) => count(call, &set(name)),
            None => fail(),
        },
        _ => fail(),
    }
}

fn fail() -> ! {
    eprintln!("{USE}");
    std::process::exit(2);
}

/// The bodies of a name, after the archive's answers to them were found right.
fn set(name: &str) -> Set {
    let set = sets::set(name);
    set.cases.iter().for_each(calls::check);
    set
}

/// Makes one call on every body, some times over, and prints how many calls that were.
fn count(call: Call, set: &Set) {
    let turns = set.turns(400_000);
    calls::counted(call, &set.cases, turns, &mut Room::default());
    println!("{}", turns * set.cases.len());
}
