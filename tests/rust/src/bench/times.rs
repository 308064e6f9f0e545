//! The timing: rounds in which every call has its turn, and the tables of their results.

use crate::calls::{counted, Call, Room};
use crate::sets::Set;

const ROUNDS: usize = 15;
/// Bytes of bodies that a call goes through in one round.
const BYTES: usize = 1_000_000;

#[repr(C)]
struct Span {
    seconds: i64,
    nanoseconds: i64,
}

extern "C" {
    fn clock_gettime(clock: i32, now: *mut Span) -> i32;
}

/// Nanoseconds that this thread had a core, which leaves out those when another one had it.
fn now() -> f64 {
    const THREAD_CPU_TIME: i32 = 3;
    let mut now = Span { seconds: 0, nanoseconds: 0 };
    // SAFETY: the span is laid out as Linux on 64 bits has it.
    assert_eq!(unsafe { clock_gettime(THREAD_CPU_TIME, &mut now) }, 0);
    now.seconds as f64 * 1e9 + now.nanoseconds as f64
}

/// What each round gave, smallest first.
struct Found(Vec<f64>);

impl Found {
    fn new(mut rounds: Vec<f64>) -> Self {
        rounds.sort_by(f64::total_cmp);
        Found(rounds)
    }

    fn median(&self, digits: usize) -> String {
        format!("{:.digits$}", self.0[self.0.len() / 2])
    }

    /// The median, and the smallest and the largest round.
    fn text(&self, digits: usize) -> String {
        let (least, most) = (self.0[0], self.0[self.0.len() - 1]);
        format!("{} ({least:.digits$}–{most:.digits$})", self.median(digits))
    }
}

/// Nanoseconds a body for each call and round; the calls follow each other within a round.
fn rounds(set: &Set) -> [Vec<f64>; 5] {
    let turns = set.turns(BYTES);
    let mut room = Room::default();
    let mut found: [Vec<f64>; 5] = Default::default();
    for _ in 0..ROUNDS {
        for (call, times) in Call::ALL.into_iter().zip(&mut found) {
            let start = now();
            counted(call, &set.cases, turns, &mut room);
            times.push((now() - start) / (turns * set.cases.len()) as f64);
        }
    }
    found
}

/// Round by round, how many times the time of `ours` the other one took.
fn ratio(other: &[f64], ours: &[f64]) -> Found {
    Found::new(other.iter().zip(ours).map(|(o, w)| o / w).collect())
}

fn line(set: &Set, cells: &[String]) -> String {
    format!("| {} | {} |\n", set.name, cells.join(" | "))
}

/// What each set has.
fn bodies(sets: &[Set]) -> String {
    let row = |set: &Set| {
        let bytes = set.bytes() / set.cases.len();
        line(set, &[set.what.to_string(), format!("{} of {bytes} bytes", set.cases.len())])
    };
    let rows: String = sets.iter().map(row).collect();
    format!("| Set | What | Bodies |\n|---|---|---|\n{rows}")
}

pub fn tables(sets: &[Set]) {
    let head = |names: &str, columns: usize| {
        format!("| Set | {names} |\n|---|{}\n", "---|".repeat(columns))
    };
    let mut written = head(
        "Rust parse | Rust parse + ledger | `sat_ledger_write` | (parse + ledger) / write \
         | parse / write",
        5,
    );
    let mut read = head("Rust body writing | `sat_ledger_read` | body writing / read", 3);
    for set in sets {
        let times = rounds(set);
        let [parse, ledger, ours, plain, back] = &times;
        let ns = |call: &[f64]| Found::new(call.to_vec()).text(0);
        let like = ratio(ledger, ours).text(2);
        let harder = ratio(parse, ours).median(2);
        written += &line(set, &[ns(parse), ns(ledger), ns(ours), like, harder]);
        read += &line(set, &[ns(plain), ns(back), ratio(plain, back).text(2)]);
    }
    println!("Nanoseconds a body: median (smallest to largest) of {ROUNDS} rounds.\n");
    println!("{}\n{written}\n{read}", bodies(sets));
}
