//! The answers of the Rust crate. For a call that it does not have they are put together from its calls.

use std::cell::Cell;
use std::panic::{self, AssertUnwindSafe};

use speedate as api;
use speedate::{Date, DateConfig, DateTime, DateTimeConfig, Duration, ParseError, TimeConfig, TimestampUnit};

use crate::answer::{Answer, NO_FRONT, PANIC, Value};
use crate::call::Call;
use crate::ffi::{self, Config};
use crate::ours;
use crate::text::{FIRST_SECOND, Kind};

#[path = "side.rs"]
mod side;

use side::shown;
pub use side::{read, reply};

const SECONDS_A_DAY: i64 = 86_400;

thread_local! {
    /// Whether a call of the crate is under way, whose panic is an answer.
    static IS_CALLED: Cell<bool> = const { Cell::new(false) };
}

/// From now on a panic of the crate is not printed.
pub fn hide_panics() {
    let print = panic::take_hook();
    panic::set_hook(Box::new(move |panic| {
        if !IS_CALLED.get() {
            print(panic);
        }
    }));
}

/// The answer to a call.
pub fn answer(call: &Call) -> Answer {
    IS_CALLED.set(true);
    let answer = panic::catch_unwind(AssertUnwindSafe(|| called(call)));
    IS_CALLED.set(false);
    answer.unwrap_or_else(|_| Err(PANIC.to_owned()))
}

fn called(call: &Call) -> Answer {
    match call {
        Call::ReadFront { kind, text, config } => read_front(*kind, text, config),
        Call::ReadInOrder { text, config } => read(Kind::Duration, text, config),
        Call::CompareDates(first, second) => called(&Call::Compare(Value::Date(*first), Value::Date(*second))),
        Call::DayNumber(date) => {
            let seconds = Date::from(*date).timestamp() - FIRST_SECOND;
            Ok(Value::Numbers(vec![seconds / SECONDS_A_DAY]))
        }
        Call::FromDayNumber(number) => date_at(FIRST_SECOND / SECONDS_A_DAY + i64::from(*number)),
        Call::AddDays(date, days) => date_at(Date::from(*date).timestamp() / SECONDS_A_DAY + i64::from(*days)),
        Call::DaysSince(date, earlier) => {
            let seconds = Date::from(*date).timestamp() - Date::from(*earlier).timestamp();
            Ok(Value::Numbers(vec![seconds / SECONDS_A_DAY]))
        }
        Call::Between(earlier, later) => between(&DateTime::from(*earlier), &DateTime::from(*later)),
        Call::After(duration, start) => after(&Duration::from(*duration), &DateTime::from(*start)),
        Call::Before(duration, start) => after(&negated(*duration), &DateTime::from(*start)),
        Call::BetweenDates(earlier, later) => between(&midnight(*earlier), &midnight(*later)),
        Call::AfterDate(duration, start) => after_date(&Duration::from(*duration), &Date::from(*start)),
        Call::BeforeDate(duration, start) => after_date(&negated(*duration), &Date::from(*start)),
        Call::Negated(duration) => Ok(Value::from(&negated(*duration))),
        _ => side::answer(call).expect("a call that the crate has"),
    }
}

/// The longest front of the text that is a value. Where this library finds none, there may be a shorter one, since a
/// value that goes on has to go on without an error; but the whole text must not be a value.
fn read_front(kind: Kind, text: &[u8], config: &Config) -> Answer {
    let shortest = if ours::read_front(kind, text, config).is_ok() { 0 } else { text.len() };
    let front = |size| Some(Value::Front(Box::new(read(kind, &text[..size], config).ok()?), size));
    (shortest..=text.len()).rev().find_map(front).ok_or_else(|| NO_FRONT.to_owned())
}

/// The date so many days after 1970-01-01.
pub fn date_of_day(day: i64) -> Option<ffi::Date> {
    let config = DateConfig { timestamp_unit: TimestampUnit::Second };
    Date::from_timestamp(day * SECONDS_A_DAY, true, &config).ok().map(|date| (&date).into())
}

fn date_at(day: i64) -> Answer {
    date_of_day(day).map(Value::Date).ok_or_else(|| "no_such_date".to_owned())
}

fn between(earlier: &DateTime, later: &DateTime) -> Answer {
    let instant = |value: &DateTime| value.timestamp_tz() * 1_000_000 + i64::from(value.time.microsecond);
    let length = instant(later) - instant(earlier);
    let (second, microsecond) = (length.abs() / 1_000_000, length.abs() % 1_000_000);
    let (day, second) = (second / SECONDS_A_DAY, second % SECONDS_A_DAY);
    shown(Duration::new(length >= 0, day as u32, second as u32, microsecond as u32))
}

fn after(duration: &Duration, start: &DateTime) -> Answer {
    let second = start.timestamp() + duration.signed_total_seconds();
    let microsecond = i128::from(start.time.microsecond) + i128::from(duration.signed_microseconds());
    date_time_at(i128::from(second) * 1_000_000 + microsecond, start.time.tz_offset)
}

fn after_date(duration: &Duration, start: &Date) -> Answer {
    if duration.second != 0 || duration.microsecond != 0 {
        return Err(ParseError::DateNotExact.to_string());
    }
    let config = DateConfig { timestamp_unit: TimestampUnit::Second };
    shown(Date::from_timestamp(start.timestamp() + duration.signed_total_seconds(), true, &config))
}

fn negated(it: ffi::Duration) -> Duration {
    let duration = Duration::from(it);
    Duration { positive: !duration.positive, ..duration }
}

fn midnight(date: ffi::Date) -> DateTime {
    ffi::DateTime { date, time: ffi::Time::default() }.into()
}

/// The date-time so many microseconds after 1970-01-01T00:00:00, with an offset that shifts nothing.
pub fn date_time_at(microseconds: i128, offset: Option<i32>) -> Answer {
    let second = microseconds.div_euclid(1_000_000).clamp(i64::MIN.into(), i64::MAX.into()) as i64;
    let microsecond = microseconds.rem_euclid(1_000_000) as u32;
    let time_config = TimeConfig { unix_timestamp_offset: offset, ..TimeConfig::default() };
    let config = DateTimeConfig { timestamp_unit: TimestampUnit::Second, time_config };
    shown(DateTime::from_timestamp_with_config(second, microsecond, &config))
}
