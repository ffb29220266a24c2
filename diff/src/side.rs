//! The calls that both sides have. This file is a module of each: `super::api` is the Rust crate in the one, and the
//! package of this repository in the other.

use std::cmp::Ordering;
use std::fmt::{Debug, Display};

use super::api::{
    self, Date, DateConfig, DateTime, DateTimeConfig, DateTimeConfigBuilder, Duration, IntFloat,
    MicrosecondsPrecisionOverflowBehavior, ParseError, Time, TimeConfig, TimeConfigBuilder, TimestampUnit,
};
use crate::answer::{Answer, Value};
use crate::call::Call;
use crate::ffi::{self, Config};
use crate::text::Kind;

/// The answer to a call, if both sides have it.
pub fn answer(call: &Call) -> Option<Answer> {
    Some(match call {
        Call::Read { kind, text, config } => read(*kind, text, config),
        Call::Debug { kind, text, config } => Ok(debug(*kind, text, config)),
        Call::Print(value) => Ok(print(value)),
        Call::Compare(first, second) => compare(first, second).ok_or_else(|| "no order".to_owned()),
        Call::Totals(value) => Ok(Value::Numbers(totals(value))),
        Call::InTimezone(Value::Time(time), offset) => shown(Time::from(*time).in_timezone(*offset)),
        Call::InTimezone(Value::DateTime(value), offset) => shown(DateTime::from(*value).in_timezone(*offset)),
        Call::WithOffset(Value::Time(time), offset) => shown(Time::from(*time).with_timezone_offset(*offset)),
        Call::WithOffset(Value::DateTime(value), offset) => shown(DateTime::from(*value).with_timezone_offset(*offset)),
        Call::DateFromTimestamp { timestamp, is_exact, config } => {
            shown(Date::from_timestamp(*timestamp, *is_exact, &date_config(config)))
        }
        Call::TimeFromTimestamp { second, microsecond, config } => {
            shown(Time::from_timestamp_with_config(*second, *microsecond, &time_config(config)))
        }
        Call::DateTimeFromTimestamp { timestamp, microsecond, config } => {
            shown(DateTime::from_timestamp_with_config(*timestamp, *microsecond, &date_time_config(config)))
        }
        Call::FromFloat { timestamp, config } => {
            shown(DateTime::from_float_with_config(*timestamp, &date_time_config(config)))
        }
        Call::NewDuration(it) => shown(Duration::new(it.negative == 0, it.day, it.second, it.microsecond)),
        Call::WholeNumber(text) => api::int_parse_bytes(text).map(number).ok_or_else(|| "no number".to_owned()),
        Call::Number(text) => match api::float_parse_bytes(text) {
            IntFloat::Int(int) => Ok(number(int)),
            IntFloat::Float(float) => Ok(Value::Float(float.to_bits())),
            IntFloat::Err => Err("no number".to_owned()),
        },
        Call::Names(text) => Ok(names(text)),
        _ => return None,
    })
}

/// The answer to a text, under the parts of the configuration that both sides have.
pub fn read(kind: Kind, text: &[u8], config: &Config) -> Answer {
    match kind {
        Kind::Date => shown(Date::parse_bytes_with_config(text, &date_config(config))),
        Kind::DateRfc3339 => shown(Date::parse_bytes_rfc3339(text)),
        Kind::Time => shown(Time::parse_bytes_with_config(text, &time_config(config))),
        Kind::DateTime => shown(DateTime::parse_bytes_with_config(text, &date_time_config(config))),
        Kind::DateTimeRfc3339 => shown(DateTime::parse_bytes_rfc3339_with_config(text, &time_config(config))),
        Kind::Duration => shown(Duration::parse_bytes_with_config(text, &time_config(config))),
    }
}

/// What Debug shows of the answer to a text, and of the configuration, its builder and its builder's default.
fn debug(kind: Kind, text: &[u8], config: &Config) -> Value {
    let time_config = time_config(config);
    let offset = TimeConfigBuilder::new().unix_timestamp_offset(time_config.unix_timestamp_offset);
    let built = DateTimeConfigBuilder::new().time_config(offset.clone().build());
    let built = built.timestamp_unit(date_config(config).timestamp_unit);
    let builders = (DateTimeConfigBuilder::default(), offset, built.clone(), built.build());
    match kind {
        Kind::Date => text_of((Date::parse_bytes_with_config(text, &date_config(config)), builders)),
        Kind::Time => text_of((Time::parse_bytes_with_config(text, &time_config), builders)),
        Kind::DateTimeRfc3339 => text_of((DateTime::parse_bytes_rfc3339_with_config(text, &time_config), builders)),
        _ => unreachable!("{kind:?} is not shown by Debug"),
    }
}

/// What the program answers to a line, by the answer to its text.
pub fn reply(answer: &Answer) -> String {
    match answer {
        Ok(value) => format!("ok {}", printed(value)),
        Err(fault) => format!("err {fault}"),
    }
}

/// What Display shows of a value, also in a wide field, and Debug.
fn print(value: &Value) -> Value {
    let value = printed(value);
    Value::Text(format!("{value} {value:>40} {value:?}"))
}

trait Printed: Display + Debug {}

impl<T: Display + Debug> Printed for T {}

/// The value as one of a type of this side, which prints it.
fn printed(value: &Value) -> Box<dyn Printed> {
    match value {
        Value::Date(date) => Box::new(Date::from(*date)),
        Value::Time(time) => Box::new(Time::from(*time)),
        Value::DateTime(value) => Box::new(DateTime::from(*value)),
        Value::Duration(duration) => Box::new(Duration::from(*duration)),
        _ => unreachable!("{value:?} has no text"),
    }
}

/// The unit and the behavior that a text names.
fn names(text: &str) -> Value {
    let unit = text.parse::<TimestampUnit>().map_err(|error| (error.to_string(), error));
    let behavior = text.parse::<MicrosecondsPrecisionOverflowBehavior>().map_err(|error| (error.to_string(), error));
    text_of((unit, behavior))
}

fn text_of(value: impl Debug) -> Value {
    Value::Text(format!("{value:?}"))
}

fn number(number: i64) -> Value {
    Value::Numbers(vec![number])
}

fn compare(first: &Value, second: &Value) -> Option<Value> {
    let order = match (first, second) {
        (Value::Date(first), Value::Date(second)) => Date::from(*first).partial_cmp(&Date::from(*second)),
        (Value::Time(first), Value::Time(second)) => Time::from(*first).partial_cmp(&Time::from(*second)),
        (Value::DateTime(first), Value::DateTime(second)) => {
            DateTime::from(*first).partial_cmp(&DateTime::from(*second))
        }
        (Value::Duration(first), Value::Duration(second)) => {
            Duration::from(*first).partial_cmp(&Duration::from(*second))
        }
        _ => unreachable!("{first:?} and {second:?} have no order"),
    };
    order.map(|order| Value::Numbers(vec![order_number(order)]))
}

fn order_number(order: Ordering) -> i64 {
    match order {
        Ordering::Less => -1,
        Ordering::Equal => 0,
        Ordering::Greater => 1,
    }
}

fn totals(value: &Value) -> Vec<i64> {
    match value {
        Value::Date(date) => {
            let date = Date::from(*date);
            vec![date.timestamp(), date.timestamp_ms(), date.ordinal_day().into()]
        }
        Value::Time(time) => {
            let time = Time::from(*time);
            vec![time.total_seconds().into(), time.total_ms().into()]
        }
        Value::DateTime(value) => {
            let value = DateTime::from(*value);
            vec![value.timestamp(), value.timestamp_ms(), value.timestamp_tz(), value.timestamp_tz_ms()]
        }
        Value::Duration(duration) => {
            let duration = Duration::from(*duration);
            let microseconds = duration.signed_microseconds().into();
            vec![duration.signed_total_seconds(), duration.signed_total_ms(), microseconds]
        }
        _ => unreachable!("{value:?} has no totals"),
    }
}

pub fn shown<T>(answer: Result<T, ParseError>) -> Answer
where
    for<'a> Value: From<&'a T>,
{
    match answer {
        Ok(value) => Ok(Value::from(&value)),
        Err(fault) => Err(fault.to_string()),
    }
}

pub fn date_config(config: &Config) -> DateConfig {
    DateConfig { timestamp_unit: unit(config.timestamp_unit) }
}

pub fn time_config(config: &Config) -> TimeConfig {
    TimeConfig {
        microseconds_precision_overflow_behavior: match config.overflow_behavior {
            ffi::OVERFLOW_TRUNCATE => MicrosecondsPrecisionOverflowBehavior::Truncate,
            _ => MicrosecondsPrecisionOverflowBehavior::Error,
        },
        unix_timestamp_offset: config.offset(),
    }
}

fn date_time_config(config: &Config) -> DateTimeConfig {
    DateTimeConfig { timestamp_unit: unit(config.timestamp_unit), time_config: time_config(config) }
}

fn unit(number: u8) -> TimestampUnit {
    match number {
        ffi::UNIT_SECOND => TimestampUnit::Second,
        ffi::UNIT_MILLISECOND => TimestampUnit::Millisecond,
        _ => TimestampUnit::Infer,
    }
}

impl From<ffi::Date> for Date {
    fn from(it: ffi::Date) -> Self {
        Date { year: it.year, month: it.month, day: it.day }
    }
}

impl From<ffi::Time> for Time {
    fn from(it: ffi::Time) -> Self {
        let (hour, minute, second) = (it.hour, it.minute, it.second);
        Time { hour, minute, second, microsecond: it.microsecond, tz_offset: it.offset() }
    }
}

impl From<ffi::DateTime> for DateTime {
    fn from(it: ffi::DateTime) -> Self {
        DateTime { date: it.date.into(), time: it.time.into() }
    }
}

impl From<ffi::Duration> for Duration {
    fn from(it: ffi::Duration) -> Self {
        Duration { positive: it.negative == 0, day: it.day, second: it.second, microsecond: it.microsecond }
    }
}

impl From<&Date> for ffi::Date {
    fn from(it: &Date) -> Self {
        ffi::Date { year: it.year, month: it.month, day: it.day }
    }
}

impl From<&Time> for ffi::Time {
    fn from(it: &Time) -> Self {
        ffi::Time {
            hour: it.hour,
            minute: it.minute,
            second: it.second,
            has_offset: it.tz_offset.is_some().into(),
            microsecond: it.microsecond,
            offset: it.tz_offset.unwrap_or(0),
        }
    }
}

impl From<&Date> for Value {
    fn from(it: &Date) -> Self {
        Value::Date(it.into())
    }
}

impl From<&Time> for Value {
    fn from(it: &Time) -> Self {
        Value::Time(it.into())
    }
}

impl From<&DateTime> for Value {
    fn from(it: &DateTime) -> Self {
        Value::DateTime(ffi::DateTime { date: (&it.date).into(), time: (&it.time).into() })
    }
}

impl From<&Duration> for Value {
    fn from(it: &Duration) -> Self {
        Value::Duration(ffi::Duration {
            negative: (!it.positive).into(),
            day: it.day,
            second: it.second,
            microsecond: it.microsecond,
        })
    }
}
