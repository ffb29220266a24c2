//! Rows of printers, which write into a buffer with Display.

use std::fmt::{self, Display, Write};

use speedate::{Date, DateTime, Duration, ParseError, Time};
use speedate_diff::draw::Draw;

use crate::row::{Table, side};
use crate::texts::{clock, date, fraction_and_offset, iso_duration, iso_fraction, microseconds, texts, z};

/// A buffer for a text, which Display fills.
struct Buffer {
    bytes: [u8; 64],
    length: usize,
}

impl Write for Buffer {
    fn write_str(&mut self, text: &str) -> fmt::Result {
        let end = self.length + text.len();
        let room = self.bytes.get_mut(self.length..end).ok_or(fmt::Error)?;
        room.copy_from_slice(text.as_bytes());
        self.length = end;
        Ok(())
    }
}

fn displayed(value: &impl Display) -> Option<Buffer> {
    let mut buffer = Buffer { bytes: [0; 64], length: 0 };
    write!(buffer, "{value}").ok()?;
    Some(buffer)
}

pub fn rows(table: &mut Table) {
    row(table, "print date", date, Date::parse_str, proved::Date::parse_str);
    row(table, "print time", clock, Time::parse_str, proved::Time::parse_str);
    let fraction = |draw: &mut Draw| clock(draw) + &microseconds(draw);
    row(table, "print time, fraction", fraction, Time::parse_str, proved::Time::parse_str);
    row(table, "print date-time, Z", z, DateTime::parse_str, proved::DateTime::parse_str);
    let name = "print date-time, fraction, offset";
    row(table, name, fraction_and_offset, DateTime::parse_str, proved::DateTime::parse_str);
    row(table, "print duration", iso_duration, Duration::parse_str, proved::Duration::parse_str);
    row(table, "print duration, fraction", iso_fraction, Duration::parse_str, proved::Duration::parse_str);
}

/// A row that prints the values of texts: those of the Rust crate, and those of this library.
fn row<R: Display + 'static, O: Display + 'static>(
    table: &mut Table,
    name: &str,
    text: fn(&mut Draw) -> String,
    rust: fn(&str) -> Result<R, ParseError>,
    ours: fn(&str) -> Result<O, proved::ParseError>,
) {
    let both = |text: String| (rust(&text).expect("a text of the kind"), ours(&text).expect("a text of the kind"));
    let values: Vec<(R, O)> = texts(text).into_iter().map(both).collect();
    let rust = side("Rust crate", |(value, _): &(R, O)| displayed(value));
    let ours = side("this library", |(_, value): &(R, O)| displayed(value));
    table.row(name, &values, rust, ours, vec![]);
}
