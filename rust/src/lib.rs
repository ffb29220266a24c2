//! Parses dates, times, date-times and durations, and prints them, as the Rust crate `speedate` 0.18.0 does and by its
//! API. What is parsed, printed and calculated is handed over to a library whose every function is proved, through its
//! C functions.
//!
//! ```
//! use speedate::{Date, DateTime, Duration, ParseError};
//!
//! assert_eq!(Date::parse_str("2020-02-29")?, Date { year: 2020, month: 2, day: 29 });
//! assert_eq!(Date::parse_str("2021-02-29"), Err(ParseError::OutOfRangeDay));
//!
//! let start = DateTime::parse_str("2026-11-22T23:30:00+01:00")?;
//! assert_eq!(start.in_timezone(0)?.to_string(), "2026-11-22T22:30:00Z");
//! assert_eq!(Duration::parse_str("PT90M")?.after(&start)?.to_string(), "2026-11-23T01:00:00+01:00");
//! # Ok::<(), ParseError>(())
//! ```
//!
//! # Values out of range
//!
//! Fields are public, so `Date { year: 2021, month: 2, day: 29 }` compiles. What a method does with such a value depends
//! on what it returns: a `Result` is the error of the first field that is out of range, as `Err(OutOfRangeDay)`; an
//! `Option` is `None`; anything else, and Display, panics with the field's name. `==`, hashes and Debug take any value, and so
//! do the orders of dates and of durations.
#![cfg_attr(not(feature = "std"), no_std)]
#![deny(missing_docs)]
#![warn(clippy::missing_errors_doc, clippy::must_use_candidate, clippy::return_self_not_must_use)]
#![deny(unsafe_code)]

mod column;
mod config;
mod date;
mod datetime;
mod duration;
mod error;
#[allow(unsafe_code)]
mod ffi;
mod numbers;
mod time;
mod value;

pub use column::{
    duration_microseconds, print_column, read_column, read_texts, DatePrinter, DateReader, DateTimeClockPrinter,
    DateTimeClockReader, DateTimeOffsetReader, DateTimeParser, DateTimePrinter, DateTimeReader, DurationPrinter,
    DurationReader, LineConfig, LinePrinter, LineReader, Progress, TextReader, TimeOffsetReader, TimeParser,
    TimePrinter, TimeReader, LINE_MAX,
};
pub use config::{
    DateConfig, DateConfigBuilder, DateTimeConfig, DateTimeConfigBuilder, Form, TimeConfig, TimeConfigBuilder,
    TimestampUnit,
};
pub use date::Date;
pub use datetime::DateTime;
pub use duration::Duration;
pub use error::{ConfigError, Fault, ParseError, Refused};
pub use numbers::{float_parse_bytes, float_parse_str, int_parse_bytes, int_parse_str, IntFloat};
pub use time::{MicrosecondsPrecisionOverflowBehavior, Time};
