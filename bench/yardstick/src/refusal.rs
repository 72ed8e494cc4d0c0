//! Why a job is refused.

use serde_json::{json, Value};

pub enum Refusal {
    UnknownColumn { number: usize },
    Malformed { at: Vec<usize>, rule: &'static str },
    Unsupported { at: Vec<usize> },
    BadRange { start: usize, end: usize },
    OutOfBounds { index: usize, len: usize },
    LengthMismatch { expected: usize, found: usize },
    MismatchedTypes,
    BadCast { row: usize },
    Unsorted,
}

impl Refusal {
    pub fn to_json(&self) -> Value {
        match self {
            Refusal::UnknownColumn { number } => json!({"error": "UnknownColumn", "number": number}),
            Refusal::Malformed { at, rule } => {
                json!({"error": "Malformed", "at": at, "rule": rule})
            }
            Refusal::Unsupported { at } => json!({"error": "Unsupported", "at": at}),
            Refusal::BadRange { start, end } => {
                json!({"error": "BadRange", "start": start, "end": end})
            }
            Refusal::OutOfBounds { index, len } => {
                json!({"error": "OutOfBounds", "index": index, "len": len})
            }
            Refusal::LengthMismatch { expected, found } => {
                json!({"error": "LengthMismatch", "expected": expected, "found": found})
            }
            Refusal::MismatchedTypes => json!({"error": "MismatchedTypes"}),
            Refusal::BadCast { row } => json!({"error": "BadCast", "row": row}),
            Refusal::Unsorted => json!({"error": "Unsorted"}),
        }
    }
}
