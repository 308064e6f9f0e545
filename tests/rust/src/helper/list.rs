//! The sink that keeps every field with its name, for the listing and the tally.

use super::at::At;
use super::sink::{Sink, Value};

pub struct Field<'a> {
    pub name: String,
    pub value: Value<'a>,
}

#[derive(Default)]
pub struct List<'a> {
    pub fields: Vec<Field<'a>>,
}

impl<'a> Sink<'a> for List<'a> {
    fn put(&mut self, name: &At<'_>, value: Value<'a>) {
        self.fields.push(Field { name: name.to_string(), value });
    }

    fn remark(&mut self, name: &At<'_>, value: impl FnOnce() -> Value<'a>) {
        self.put(name, value());
    }
}

impl List<'_> {
    /// One line a field: name, blank, value.
    pub fn listing(&self) -> String {
        self.fields.iter().map(|f| format!("{} {}\n", f.name, f.value.text())).collect()
    }

    /// Bits that the fields take in the body, plan lengths and padding left out.
    pub fn wire_bits(&self) -> usize {
        self.fields.iter().map(|f| f.value.wire_bits()).sum()
    }
}

impl Value<'_> {
    fn text(&self) -> String {
        match self {
            Value::Bits { value, .. } => value.to_string(),
            Value::Signed { value, .. } => value.to_string(),
            Value::Slots(slots) => {
                dash(slots.iter().map(|&on| if on { '1' } else { '0' }).collect())
            }
            Value::Bytes(bytes) => dash(crate::hex::text(bytes)),
            Value::Count(n) | Value::Shown(n) => n.to_string(),
            Value::Absent => "none".to_string(),
        }
    }

    fn wire_bits(&self) -> usize {
        match self {
            Value::Bits { width, .. } | Value::Signed { width, .. } => usize::from(*width),
            Value::Slots(slots) => slots.len(),
            Value::Bytes(bytes) => bytes.len() * 8,
            Value::Count(_) | Value::Shown(_) | Value::Absent => 0,
        }
    }
}

/// An empty text would leave a line without a value.
fn dash(text: String) -> String {
    if text.is_empty() {
        "-".to_string()
    } else {
        text
    }
}
