//! What either side answers to a call.

use crate::ffi::{Date, DateTime, Duration, Time};

/// What a call gives.
#[derive(Clone, Debug, PartialEq, Eq)]
pub enum Value {
    Date(Date),
    Time(Time),
    DateTime(DateTime),
    Duration(Duration),
    Numbers(Vec<i64>),
    Text(String),
    /// The bits of a float.
    Float(u64),
    /// A value at the front of a text, and how many bytes it takes.
    Front(Box<Value>, usize),
}

/// A value, or the name of an error.
pub type Answer = Result<Value, String>;

/// In place of an error: the Rust crate panicked.
pub const PANIC: &str = "panic";

/// In place of an error: the text has no such value at its front, whatever the error.
pub const NO_FRONT: &str = "no such front";

/// Whether the answer is the error of this name.
pub fn is_fault(answer: &Answer, name: &str) -> bool {
    answer.as_ref().is_err_and(|fault| fault == name)
}
