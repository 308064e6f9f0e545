//! Counts what a list of cases reaches, to show that the generator leaves nothing out.

use crate::tables::sat::helper::{self, Field, List, Value};
use std::collections::BTreeMap;
use std::fmt::Write;

#[derive(Default)]
pub struct Tally {
    /// By id (5 stands for all raw ids) and outcome (0 is acceptance).
    outcomes: BTreeMap<(u8, u8), usize>,
    /// Branches of accepted bodies, by name.
    branches: BTreeMap<String, usize>,
}

impl Tally {
    pub fn add(&mut self, id: u8, body: &[u8]) {
        let row = id.min(5);
        match helper::read(id, body) {
            Err(refusal) => *self.outcomes.entry((row, refusal.number)).or_default() += 1,
            Ok(sat) => {
                *self.outcomes.entry((row, 0)).or_default() += 1;
                let list = helper::fields(&sat, body);
                self.fields(row, &list);
                self.ends(row, body, &list);
            }
        }
    }

    fn note(&mut self, name: String) {
        *self.branches.entry(name).or_default() += 1;
    }

    /// Branches that single fields tell.
    fn fields(&mut self, id: u8, list: &List) {
        let mut flags = String::new();
        for field in &list.fields {
            let last = field.name.rsplit('.').next().unwrap_or("");
            match (last, &field.value) {
                ("position_system", Value::Bits { value, .. }) => {
                    self.note(format!("id 0 position_system {value}"));
                }
                ("first_occurrence", Value::Bits { value, .. }) => {
                    self.note(format!("id 1 first_occurrence {value}"));
                }
                ("association_type", Value::Bits { value, .. }) => {
                    self.note(format!("id 2 association_type {value:2}"));
                }
                ("time_plan_mode", Value::Bits { value, .. }) => {
                    self.note(format!("id 3 mode {value}"));
                }
                ("centre_latitude" | "centre_longitude", Value::Signed { width, value }) => {
                    self.edge(last, *width, *value);
                }
                (name, Value::Bits { value, .. }) if id == 4 && name.ends_with("_flag") => {
                    if name != "interpolation_flag" {
                        flags.push(if *value == 1 { '1' } else { '0' });
                    }
                    if name == "covariance_flag" {
                        self.note(format!("id 4 flags {flags}"));
                        flags.clear();
                    }
                }
                _ => {}
            }
            self.sizes(id, field);
        }
    }

    /// Smallest and largest values of the signed fields.
    fn edge(&mut self, name: &str, width: u8, value: i64) {
        let half = 1i64 << (width - 1);
        if value == -half || value == half - 1 {
            self.note(format!("id 1 {name} {value}"));
        }
    }

    /// Lists by their size: none, one, few, many.
    fn sizes(&mut self, id: u8, field: &Field) {
        let count = match field.value {
            Value::Bits { value, .. } if field.name.ends_with(".len") => value as usize,
            Value::Bits { value, .. } if field.name.ends_with(".bit_map_size") => value as usize,
            Value::Count(n) => n,
            _ => return,
        };
        let size = match count {
            0 => "0",
            1 => "1",
            2..=9 => "2 to 9",
            _ => "10 and more",
        };
        let mut name = field.name.replace(|c: char| c.is_ascii_digit(), "");
        name = name.replace("[]", "");
        self.note(format!("id {id} {name}: {size}"));
    }

    /// What stands behind the last entry, and how plans end.
    fn ends(&mut self, id: u8, body: &[u8], list: &List) {
        let end = match id {
            0 | 1 | 2 | 4 => list.wire_bits() / 8,
            3 => self.plans(body, list),
            _ => return,
        };
        if end < body.len() {
            let over = body.len() - end;
            let over = if over > 5 { "more than 5".to_string() } else { over.to_string() };
            self.note(format!("id {id} leftover bytes {over}"));
        }
    }

    /// Walks the plans by their lengths; gives the place where the last one ends.
    fn plans(&mut self, body: &[u8], list: &List) -> usize {
        let used = plan_bytes(list);
        let mut at = 0;
        for (length, (raw, fields)) in helper::plan_lengths(body).into_iter().zip(used) {
            let end = at + 6 + length;
            let kind = if raw { "raw plan" } else { "plan" };
            let how = if end > body.len() {
                "past the data"
            } else if end == body.len() {
                "at the data's end"
            } else {
                "within the data"
            };
            self.note(format!("id 3 {kind} ends {how}"));
            if end == body.len() + 1 {
                self.note(format!("id 3 {kind} ends one byte past the data"));
            }
            if !raw && end <= body.len() && length > fields {
                self.note("id 3 plan with filler".to_string());
            }
            if padding_set(&body[at..]) {
                self.note("id 3 plan with padding bits set".to_string());
            }
            at = end;
        }
        at
    }

    pub fn text(&self) -> String {
        let mut out = String::from("outcome     id 0    id 1    id 2    id 3    id 4     raw     all\n");
        for number in 0..=21u8 {
            let name = if number == 0 { "accepted".to_string() } else { format!("R {number}") };
            let _ = write!(out, "{name:<8}");
            let row: Vec<usize> = (0..=5u8)
                .map(|id| self.outcomes.get(&(id, number)).copied().unwrap_or(0))
                .collect();
            for n in &row {
                let _ = write!(out, "{n:8}");
            }
            let _ = writeln!(out, "{:8}", row.iter().sum::<usize>());
        }
        out.push_str("\nin accepted bodies:\n");
        for (name, n) in &self.branches {
            let _ = writeln!(out, "{n:8}  {name}");
        }
        out
    }
}

/// Whether an accepted plan is a bitmap whose last byte has bits behind the last slot.
fn padding_set(plan: &[u8]) -> bool {
    if plan[6] & 3 != 1 {
        return false;
    }
    let size = usize::from(plan[19] & 0x7f) << 8 | usize::from(plan[20]);
    size % 8 != 0 && plan[23 + size / 8] & 0xff >> (size % 8) != 0
}

/// For each plan: is it raw, and how many bytes behind plan_length do its fields take.
fn plan_bytes(list: &List) -> Vec<(bool, usize)> {
    let mut found = Vec::new();
    for field in &list.fields {
        let Some(now) = field.name.strip_prefix("plans[") else { continue };
        let name = now.split_once("].").map_or("", |(_, rest)| rest);
        match (name, &field.value) {
            ("time_plan_mode", Value::Bits { value, .. }) => {
                found.push((*value == 3, 13 + [12, 4, 24, 0][*value as usize]));
            }
            ("mode.bit_map_size", Value::Bits { value, .. }) => {
                if let Some(plan) = found.last_mut() {
                    plan.1 += (*value as usize).div_ceil(8);
                }
            }
            _ => {}
        }
    }
    found
}
