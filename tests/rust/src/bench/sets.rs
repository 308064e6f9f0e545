//! The bodies: those of each table with 4,096 bytes, and a mix of short ones. All are accepted, and
//! no clock has an extension above 299, which the Rust would accept too.

use crate::gen::{self, Clocks};
use crate::tables::sat::helper::{self, Value};
use crate::tables::sat::SatBody;

const SEED: u64 = 77;
const LENGTH: usize = 4096;
/// Bodies of a set; of the mix, whose bodies are cut at 400 bytes.
const WANTED: usize = 8;
const MIXED: usize = 4000;
const MIXED_LENGTH: usize = 400;

pub const NAMES: [&str; 14] = [
    "0", "1", "1-list", "2", "3", "3-mode0", "3-mode1", "3-mode2", "3-mode3", "3-bitmap", "4",
    "4-list", "9", "mix",
];

/// A body with all that the calls start from or must give.
pub struct Case {
    pub id: u8,
    pub body: Vec<u8>,
    pub sat: SatBody,
    pub ledger: Vec<u8>,
    pub plain: Vec<u8>,
}

pub struct Set {
    pub name: String,
    pub what: &'static str,
    pub cases: Vec<Case>,
}

impl Set {
    pub fn bytes(&self) -> usize {
        self.cases.iter().map(|c| c.body.len()).sum()
    }

    /// How often to go over the set, so that about that many bytes are read.
    pub fn turns(&self, bytes: usize) -> usize {
        1 + bytes / self.bytes()
    }
}

pub fn set(name: &str) -> Set {
    let (what, cases) = match name {
        "0" => ("id 0", long(0, 0, LENGTH, |_| true)),
        "1" => ("id 1", long(1, 0, LENGTH, |_| true)),
        "1-list" => ("id 1, one big list", long(1, 1, LENGTH, |_| true)),
        "2" => ("id 2, its one record", long(2, 0, 19, |_| true)),
        "3" => ("id 3, all modes", long(3, 0, LENGTH, |_| true)),
        "3-mode0" => ("id 3, mode 0", plans(0)),
        "3-mode1" => ("id 3, mode 1", plans(1)),
        "3-mode2" => ("id 3, mode 2", plans(2)),
        "3-mode3" => ("id 3, mode 3", plans(3)),
        "3-bitmap" => ("id 3, one big bitmap", long(3, 1, LENGTH, |b| b[6] & 3 == 1)),
        "4" => ("id 4", long(4, 0, LENGTH, |_| true)),
        "4-list" => ("id 4, one big list", long(4, 1, LENGTH, |_| true)),
        "9" => ("id 9, raw", long(9, 0, LENGTH, |_| true)),
        _ => ("the mix", mix()),
    };
    assert!(!cases.is_empty(), "no body of {what}");
    Set { name: name.to_string(), what, cases }
}

/// The largest extension that S-23 lets pass.
const LARGEST: u64 = 299;

/// Whether a clock has an extension above 299. The generator draws none, but damaged bodies may.
fn beyond(sat: &SatBody, body: &[u8]) -> bool {
    helper::fields(sat, body).fields.iter().any(|field| match field.value {
        Value::Bits { value, .. } => field.name.ends_with("_ext") && value > LARGEST,
        _ => false,
    })
}

/// None if the Rust refuses the body, or S-23 does.
fn case(id: u8, body: &[u8]) -> Option<Case> {
    let sat = helper::read(id, body).ok().filter(|sat| !beyond(sat, body))?;
    let ledger = helper::ledger(id, body).ok()?;
    let plain = helper::plain_body(&sat).ok()?;
    Some(Case { id, body: body.to_vec(), sat, ledger, plain })
}

/// Long cases of an id in one of the generator's forms (0: many entries, 1: one big list), cut at
/// that length.
fn long(id: u8, form: u64, length: usize, fit: impl Fn(&[u8]) -> bool) -> Vec<Case> {
    let first = u64::from(id.min(5)) + 6 * form;
    let cases = (0..2000u64).map(|i| gen::long_case(SEED, first + 24 * i, Clocks::Within));
    let whole = cases.filter(|c| c.len() > length && fit(&c[1..]));
    whole.filter_map(|c| case(id, &c[1..=length])).take(WANTED).collect()
}

/// Bodies of plans of one mode: the plans of long cases, joined while they fit.
fn plans(mode: u8) -> Vec<Case> {
    let mut pool = Vec::new();
    for case in (0..80u64).map(|i| gen::long_case(SEED, 3 + 24 * i, Clocks::Within)) {
        let mut at = 1;
        for length in helper::plan_lengths(&case[1..]) {
            let plan = &case[at..case.len().min(at + 6 + length)];
            if plan.len() > 6 && plan[6] & 3 == mode {
                pool.push(plan.to_vec());
            }
            at += plan.len();
        }
    }
    (0..pool.len()).filter_map(|i| joined(&pool[i..])).take(WANTED).collect()
}

/// A body of 4,096 bytes, if those that no plan takes are too few for one more.
fn joined(plans: &[Vec<u8>]) -> Option<Case> {
    let mut body = Vec::new();
    for plan in plans {
        if body.len() + plan.len() > LENGTH {
            break;
        }
        body.extend_from_slice(plan);
    }
    if body.len() + 6 <= LENGTH {
        return None;
    }
    body.resize(LENGTH, 0);
    case(3, &body)
}

/// Bodies of all ids as the generator makes them.
fn mix() -> Vec<Case> {
    let cases = (0..).map(|i| gen::case(SEED, i, MIXED_LENGTH, Clocks::Within));
    cases.filter_map(|c| case(c[0], &c[1..])).take(MIXED).collect()
}
