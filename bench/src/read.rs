//! Rows of readers.

use proved::{MicrosecondsPrecisionOverflowBehavior::Error, TimeConfig};
use speedate::{Date, DateTime, Duration, Time};
use speedate_diff::draw::Draw;

use crate::peers;
use crate::row::{Side, Table, side};
use crate::texts::*;

pub fn rows(table: &mut Table) {
    date_rows(table);
    time_rows(table);
    date_time_rows(table);
    timestamp_rows(table);
    number_rows(table);
    duration_rows(table);
    front_rows(table);
}

fn rust<T: 'static>(read: impl Fn(&[u8]) -> T + 'static) -> Side<String> {
    side("Rust crate", move |text: &String| read(text.as_bytes()))
}

fn ours<T: 'static>(read: impl Fn(&[u8]) -> T + 'static) -> Side<String> {
    side("this library", move |text: &String| read(text.as_bytes()))
}

fn date_rows(table: &mut Table) {
    let mut row = |name: &str, text: fn(&mut Draw) -> String| {
        let ours = ours(proved::Date::parse_bytes_rfc3339);
        table.row(name, &texts(text), rust(Date::parse_bytes_rfc3339), ours, peers::date());
    };
    row("date", date);
    row("date, refused", refused_date);
}

fn time_rows(table: &mut Table) {
    let mut row = |name: &str, text: fn(&mut Draw) -> String, others: Vec<Side<String>>| {
        let ours = ours(proved::Time::parse_bytes);
        table.row(name, &texts(text), rust(Time::parse_bytes), ours, others);
    };
    row("time", clock, peers::time());
    row("time, Z", |draw| clock(draw) + "Z", vec![]);
    row("time, fraction", |draw| clock(draw) + &microseconds(draw), peers::time_with_fraction());
    row("time, milliseconds", |draw| clock(draw) + &milliseconds(draw), peers::time_with_fraction());
    row("time, minutes", |draw| clock(draw)[..5].to_owned(), vec![]);
    row("time, comma", |draw| clock(draw) + &microseconds(draw).replace('.', ","), vec![]);
    row("time, 1 to 5 digits", one_to_five_digits, peers::time_with_fraction());
    row("time, fraction, offset", |draw| clock(draw) + &microseconds(draw) + &offset(draw), vec![]);
    row("time, refused", refused_clock, peers::time());
    let strict = ours(|text| proved::Time::parse_bytes_strict(text, Error));
    table.row("time, Z, strict", &texts(|draw| clock(draw) + "Z"), rust(Time::parse_bytes), strict, vec![]);
}

fn date_time_rows(table: &mut Table) {
    let mut row = |name: &str, text: fn(&mut Draw) -> String, others: Vec<Side<String>>| {
        let ours = ours(proved::DateTime::parse_bytes);
        table.row(name, &texts(text), rust(DateTime::parse_bytes), ours, others);
    };
    row("date-time, Z", z, peers::date_time_in_utc());
    row("date-time, milliseconds, Z", |draw| date_time(draw, milliseconds) + "Z", peers::date_time_in_utc());
    row("date-time, offset", |draw| date_time(draw, offset), peers::date_time());
    row("date-time, space, no offset", |draw| date(draw) + " " + &clock(draw), vec![]);
    row("date-time, fraction, offset", fraction_and_offset, peers::date_time());
    row("date-time, refused", refused_date_time, peers::date_time_in_utc());
    let mut row = |name: &str, text: fn(&mut Draw) -> String| {
        let strict = ours(|text| proved::DateTime::parse_bytes_strict(text, Error));
        table.row(name, &texts(text), rust(DateTime::parse_bytes_rfc3339), strict, vec![]);
    };
    row("date-time, Z, strict", z);
    row("date-time, fraction, offset, strict", fraction_and_offset);
}

fn timestamp_rows(table: &mut Table) {
    let mut row = |name: &str, text: fn(&mut Draw) -> String| {
        let ours = ours(proved::DateTime::parse_bytes);
        table.row(name, &texts(text), rust(DateTime::parse_bytes), ours, vec![]);
    };
    row("timestamp, seconds", |draw| draw.within(1_000_000_000..=3_000_000_000).to_string());
    row("timestamp, milliseconds", |draw| draw.within(1_654_646_404_123..=1_656_646_404_123).to_string());
    row("timestamp, decimal", |draw| {
        let count = 1 + draw.below(6);
        format!("{}.{}", draw.within(0..=2_000_000_000), draw.digits(count))
    });
}

fn number_rows(table: &mut Table) {
    let numbers = texts(|draw| draw.within(1_000_000_000..=3_000_000_000).to_string());
    table.row("whole number", &numbers, rust(speedate::int_parse_bytes), ours(proved::int_parse_bytes), vec![]);
    let floats: Vec<f64> = numbers.iter().map(|number| number.parse::<f64>().expect("a number") / 7.0).collect();
    let rust = side("Rust crate", |float: &f64| DateTime::from_float_with_config(*float, &Default::default()));
    let ours =
        side("this library", |float: &f64| proved::DateTime::from_float_with_config(*float, &Default::default()));
    table.row("timestamp, float", &floats, rust, ours, vec![]);
}

fn duration_rows(table: &mut Table) {
    let mut row = |name: &str, text: fn(&mut Draw) -> String, others: Vec<Side<String>>| {
        let ours = ours(proved::Duration::parse_bytes);
        table.row(name, &texts(text), rust(Duration::parse_bytes), ours, others);
    };
    row("duration, clock", clock, vec![]);
    row("duration, clock, fraction", |draw| clock(draw) + &microseconds(draw), vec![]);
    row("duration, whole days", |draw| format!("{}d", draw.within(1..=99_999)), vec![]);
    row("duration, days", days, vec![]);
    row("duration, ISO 8601", iso_duration, peers::duration());
    row("duration, ISO 8601, fraction", iso_fraction, vec![]);
}

/// A line, and the value at its front, because the Rust crate can parse only the value.
type Line = (String, String);

fn lines(value: fn(&mut Draw) -> String) -> Vec<Line> {
    texts(value).into_iter().map(|value| (value.clone() + " GET /index.html 200", value)).collect()
}

fn front_rows(table: &mut Table) {
    let rust = side("Rust crate", |(_, value): &Line| Date::parse_bytes_rfc3339(value.as_bytes()));
    let ours = side("this library", |(line, _): &Line| proved::Date::parse_front(line.as_bytes()));
    let whole = side("alone", |(_, value): &Line| proved::Date::parse_bytes_rfc3339(value.as_bytes()));
    table.row("date at the front", &lines(date), rust, ours, vec![whole]);
    let config = TimeConfig::default();
    let rust = side("Rust crate", |(_, value): &Line| Time::parse_bytes(value.as_bytes()));
    let ours = side("this library", move |(line, _): &Line| proved::Time::parse_front(line.as_bytes(), &config));
    let whole = side("alone", |(_, value): &Line| proved::Time::parse_bytes(value.as_bytes()));
    table.row("time at the front", &lines(|draw| clock(draw) + "Z"), rust, ours, vec![whole]);
    let config = TimeConfig::default();
    let rust = side("Rust crate", |(_, value): &Line| DateTime::parse_bytes_rfc3339(value.as_bytes()));
    let ours = side("this library", move |(line, _): &Line| proved::DateTime::parse_front(line.as_bytes(), &config));
    let whole = side("alone", |(_, value): &Line| proved::DateTime::parse_bytes_rfc3339(value.as_bytes()));
    table.row("date-time at the front", &lines(z), rust, ours, vec![whole]);
}
