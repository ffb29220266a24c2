//! The calls that are compared, drawn with their arguments.

use std::fmt;
use std::ops::Deref;

use crate::answer::Value;
use crate::draw::Draw;
use crate::ffi::{Config, Date, DateTime, Duration, ORDER_LAX, ORDER_STRICT, Time};
use crate::text::{FIRST_SECOND, KINDS, Kind, LAST_SECOND};

/// A text, which shows its bytes escaped and in hex.
#[derive(Clone)]
pub struct Bytes(pub(crate) Vec<u8>);

impl Deref for Bytes {
    type Target = [u8];

    fn deref(&self) -> &[u8] {
        &self.0
    }
}

impl fmt::Debug for Bytes {
    fn fmt(&self, f: &mut fmt::Formatter<'_>) -> fmt::Result {
        write!(f, "\"{}\" (in hex ", self.escape_ascii())?;
        self.iter().try_for_each(|byte| write!(f, "{byte:02x}"))?;
        write!(f, ")")
    }
}

/// A call with its arguments.
#[derive(Clone, Debug)]
pub enum Call {
    Read {
        kind: Kind,
        text: Bytes,
        config: Config,
    },
    ReadFront {
        kind: Kind,
        text: Bytes,
        config: Config,
    },
    /// The duration of a text, in the order of the configuration.
    ReadInOrder {
        text: Bytes,
        config: Config,
    },
    /// What Debug shows of the answer to a text.
    Debug {
        kind: Kind,
        text: Bytes,
        config: Config,
    },
    WholeNumber(Bytes),
    Number(Bytes),
    /// The unit and the behavior of a name.
    Names(String),
    Print(Value),
    Compare(Value, Value),
    /// The timestamps of a date or a date-time, the totals of a time or a duration.
    Totals(Value),
    InTimezone(Value, i32),
    WithOffset(Value, Option<i32>),
    DateFromTimestamp {
        timestamp: i64,
        is_exact: bool,
        config: Config,
    },
    TimeFromTimestamp {
        second: u32,
        microsecond: u32,
        config: Config,
    },
    DateTimeFromTimestamp {
        timestamp: i64,
        microsecond: u32,
        config: Config,
    },
    FromFloat {
        timestamp: f64,
        config: Config,
    },
    NewDuration(Duration),
    CompareDates(Date, Date),
    DayNumber(Date),
    FromDayNumber(u32),
    AddDays(Date, i32),
    DaysSince(Date, Date),
    Between(DateTime, DateTime),
    After(Duration, DateTime),
    Before(Duration, DateTime),
    BetweenDates(Date, Date),
    AfterDate(Duration, Date),
    BeforeDate(Duration, Date),
    Negated(Duration),
}

impl Call {
    /// A call: three in four read a text.
    pub fn drawn(draw: &mut Draw) -> Self {
        match draw.below(16) {
            0..=10 => Self::read(draw),
            11 => Self::read_number(draw),
            12 => Self::read_front(draw),
            13 => Self::from_timestamp(draw),
            14 => Self::of_values(draw),
            _ => Self::composed(draw),
        }
    }

    /// The call that a line of the program is.
    pub fn of_line(kind: Kind, text: Vec<u8>) -> Self {
        Call::Read { kind, text: Bytes(text), config: Config::default() }
    }

    fn read(draw: &mut Draw) -> Self {
        let (kind, config) = (draw.pick(&KINDS), config(draw));
        let text = Bytes(draw.text(kind));
        match kind {
            Kind::Duration if draw.once_in(8) => {
                let iso_order = draw.pick(&[ORDER_LAX, ORDER_STRICT]);
                Call::ReadInOrder { text, config: Config { iso_order, ..config } }
            }
            // The others differ by rows, which explain values.
            Kind::Date | Kind::Time | Kind::DateTimeRfc3339 if draw.once_in(16) => Call::Debug { kind, text, config },
            _ => Call::Read { kind, text, config },
        }
    }

    fn read_number(draw: &mut Draw) -> Self {
        match draw.below(5) {
            0 => Call::Names(draw.name()),
            1 | 2 => Call::WholeNumber(Bytes(draw.number_text())),
            _ => Call::Number(Bytes(draw.number_text())),
        }
    }

    fn read_front(draw: &mut Draw) -> Self {
        let kind = draw.pick(&[Kind::DateRfc3339, Kind::Time, Kind::DateTimeRfc3339]);
        let mut text = draw.text(kind);
        if draw.once_in(2) {
            text.extend(draw.text(kind));
        }
        Call::ReadFront { kind, text: Bytes(text), config: Config { timestamp_offset: 0, ..config(draw) } }
    }

    fn from_timestamp(draw: &mut Draw) -> Self {
        let (timestamp, config) = (draw.timestamp(), config(draw));
        let microsecond = draw.inside(0..=u32::MAX.into()) as u32 >> draw.below(16);
        match draw.below(4) {
            0 => Call::DateFromTimestamp { timestamp, is_exact: draw.once_in(2), config },
            1 => Call::TimeFromTimestamp { second: draw.near(0..=86_400).max(0) as u32, microsecond, config },
            2 => Call::DateTimeFromTimestamp { timestamp, microsecond, config },
            _ => Call::FromFloat { timestamp: draw.float(), config },
        }
    }

    fn of_values(draw: &mut Draw) -> Self {
        let first = value(draw);
        match draw.below(5) {
            0 => Call::Print(first),
            1 => Call::Totals(first),
            2 => Call::Compare(first.clone(), if draw.once_in(8) { first } else { value_like(draw, &first) }),
            3 => Call::WithOffset(value_with_offset(draw), (!draw.once_in(8)).then(|| new_offset(draw))),
            _ => Call::InTimezone(value_with_offset(draw), new_offset(draw)),
        }
    }

    /// Calls that stand in the Rust crate for several.
    fn composed(draw: &mut Draw) -> Self {
        match draw.below(13) {
            0 => Call::NewDuration(duration_numbers(draw)),
            1 => Call::FromDayNumber(draw.near(0..=3_652_424).max(0) as u32),
            2 => Call::AddDays(date(draw), draw.inside(-4_000_000..=4_000_000) as i32),
            3 => Call::DaysSince(date(draw), date(draw)),
            4 => Call::Between(date_time(draw), date_time(draw)),
            5 => Call::After(duration(draw), date_time(draw)),
            6 => Call::Before(duration(draw), date_time(draw)),
            7 => Call::BetweenDates(date(draw), date(draw)),
            8 => Call::AfterDate(whole_days(draw), date(draw)),
            9 => Call::BeforeDate(whole_days(draw), date(draw)),
            10 => Call::CompareDates(date(draw), date(draw)),
            11 => Call::DayNumber(date(draw)),
            _ => Call::Negated(duration(draw)),
        }
    }

    /// The word under which the call is counted.
    pub fn group(&self) -> &'static str {
        match self {
            Call::Read { kind, .. } | Call::Debug { kind, .. } => match kind {
                Kind::Date | Kind::DateRfc3339 => "texts of dates",
                Kind::Time => "texts of times",
                Kind::DateTime | Kind::DateTimeRfc3339 => "texts of date-times",
                Kind::Duration => "texts of durations",
            },
            Call::ReadInOrder { .. } => "texts of durations",
            Call::ReadFront { .. } => "texts with a value at their front",
            Call::WholeNumber(_) | Call::Number(_) | Call::Names(_) => "texts of numbers and names",
            _ => "calls without a text",
        }
    }

    /// The configuration, where the call has one.
    pub fn config(&self) -> Option<&Config> {
        match self {
            Call::Read { config, .. }
            | Call::ReadFront { config, .. }
            | Call::ReadInOrder { config, .. }
            | Call::Debug { config, .. }
            | Call::DateFromTimestamp { config, .. }
            | Call::TimeFromTimestamp { config, .. }
            | Call::DateTimeFromTimestamp { config, .. }
            | Call::FromFloat { config, .. } => Some(config),
            _ => None,
        }
    }
}

/// A configuration that both sides have, but for an offset of a day or more now and then.
fn config(draw: &mut Draw) -> Config {
    if draw.once_in(2) {
        return Config::default();
    }
    Config {
        timestamp_unit: draw.below(3) as u8,
        overflow_behavior: draw.below(2) as u8,
        has_timestamp_offset: draw.below(2) as u8,
        timestamp_offset: if draw.once_in(64) { draw.number() as i32 } else { offset(draw) },
        ..Config::default()
    }
}

fn value(draw: &mut Draw) -> Value {
    match draw.below(4) {
        0 => Value::Date(date(draw)),
        1 => Value::Time(time(draw)),
        2 => Value::DateTime(date_time(draw)),
        _ => Value::Duration(duration(draw)),
    }
}

/// A value of the same type.
fn value_like(draw: &mut Draw, other: &Value) -> Value {
    match other {
        Value::Date(_) => Value::Date(date(draw)),
        Value::Time(_) => Value::Time(time(draw)),
        Value::DateTime(_) => Value::DateTime(date_time(draw)),
        _ => Value::Duration(duration(draw)),
    }
}

fn date(draw: &mut Draw) -> Date {
    let day = draw.inside(FIRST_SECOND..=LAST_SECOND).div_euclid(86_400);
    crate::rust::date_of_day(day).expect("a day between the first and the last second")
}

fn time(draw: &mut Draw) -> Time {
    let has_offset = draw.below(4).min(1) as u8;
    Time {
        hour: draw.inside(0..=23) as u8,
        minute: draw.inside(0..=59) as u8,
        second: draw.inside(0..=59) as u8,
        microsecond: draw.inside(0..=999_999) as u32,
        has_offset,
        offset: if has_offset == 1 { offset(draw) } else { 0 },
    }
}

fn date_time(draw: &mut Draw) -> DateTime {
    DateTime { date: date(draw), time: time(draw) }
}

fn duration(draw: &mut Draw) -> Duration {
    Duration {
        negative: draw.below(2) as u32,
        day: draw.inside(0..=999_999_999) as u32 >> draw.below(24),
        second: draw.inside(0..=86_399) as u32,
        microsecond: draw.inside(0..=999_999) as u32,
    }
}

fn value_with_offset(draw: &mut Draw) -> Value {
    if draw.once_in(2) { Value::Time(time(draw)) } else { Value::DateTime(date_time(draw)) }
}

/// A duration, mostly of whole days.
fn whole_days(draw: &mut Draw) -> Duration {
    let duration = duration(draw);
    if draw.once_in(4) { duration } else { Duration { second: 0, microsecond: 0, ..duration } }
}

/// Numbers of any size, for a duration.
fn duration_numbers(draw: &mut Draw) -> Duration {
    let mut number = || draw.inside(0..=u32::MAX.into()) as u32 >> draw.below(24);
    let (day, second, microsecond) = (number(), number(), number());
    Duration { negative: draw.below(2) as u32, day, second, microsecond }
}

/// An offset of less than a day.
fn offset(draw: &mut Draw) -> i32 {
    match draw.below(4) {
        0 => 0,
        1 => draw.inside(-86_399..=86_399) as i32,
        _ => draw.inside(-1_439..=1_439) as i32 * 60,
    }
}

/// An offset to move to, now and then of a day or more.
fn new_offset(draw: &mut Draw) -> i32 {
    match draw.below(16) {
        0 => draw.pick(&[i32::MIN, i32::MIN + 1, i32::MAX, 86_400, -86_400]),
        _ => offset(draw),
    }
}
