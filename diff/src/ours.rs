//! The answers of this library: of the package for Rust, and of the C functions for what its API does not have.

use proved as api;

use crate::answer::{Answer, NO_FRONT, Value};
use crate::call::Call;
use crate::ffi::{self, Code, Config, name, written};
use crate::text::Kind;

#[path = "side.rs"]
mod side;

pub use side::reply;

/// The answer to a call.
pub fn answer(call: &Call) -> Answer {
    match call {
        Call::ReadFront { kind, text, config } => read_front(*kind, text, config).map_err(|_| NO_FRONT.to_owned()),
        Call::DaysSince(date, earlier) => {
            let days = api::Date::from(*date).days_since(&(*earlier).into());
            Ok(Value::Numbers(vec![days.into()]))
        }
        Call::AddDays(date, days) => match api::Date::from(*date).checked_add_days(*days) {
            Some(date) => Ok(Value::from(&date)),
            None => Err("no_such_date".to_owned()),
        },
        Call::Between(earlier, later) => Ok(Value::from(&api::Duration::between(&(*earlier).into(), &(*later).into()))),
        Call::After(duration, start) => side::shown(api::Duration::from(*duration).after(&(*start).into())),
        Call::Before(duration, start) => side::shown(api::Duration::from(*duration).before(&(*start).into())),
        _ => side::answer(call).unwrap_or_else(|| by_c(call).map_err(name)),
    }
}

/// The value at the front of a text, and how many bytes it takes.
pub fn read_front(kind: Kind, text: &[u8], config: &Config) -> Result<Value, api::ParseError> {
    let config = side::time_config(config);
    let (value, size) = match kind {
        Kind::DateRfc3339 => api::Date::parse_front(text).map(|(value, size)| (Value::from(&value), size)),
        Kind::Time => api::Time::parse_front(text, &config).map(|(value, size)| (Value::from(&value), size)),
        Kind::DateTimeRfc3339 => {
            api::DateTime::parse_front(text, &config).map(|(value, size)| (Value::from(&value), size))
        }
        _ => unreachable!("{kind:?} is not read at the front of a text"),
    }?;
    Ok(Value::Front(Box::new(value), size))
}

/// The day number of 1970-01-01, from which C counts.
const FIRST_DAY: i64 = 719_528;

fn by_c(call: &Call) -> Result<Value, Code> {
    match call {
        Call::ReadInOrder { text, config } => {
            written(|out| ffi::speedate_duration_parse_text(text, *config, out)).map(Value::Duration)
        }
        Call::CompareDates(first, second) => {
            let order = written(|out| ffi::speedate_date_compare(*first, *second, out))?;
            Ok(Value::Numbers(vec![order.into()]))
        }
        Call::DayNumber(date) => {
            let days = written(|out| ffi::speedate_date_days(*date, out))?;
            Ok(Value::Numbers(vec![i64::from(days) + FIRST_DAY]))
        }
        Call::FromDayNumber(it) => {
            let days = (i64::from(*it) - FIRST_DAY) as i32;
            written(|out| ffi::speedate_date_from_days(days, out)).map(Value::Date)
        }
        Call::BetweenDates(earlier, later) => {
            written(|out| ffi::speedate_duration_between_dates(*earlier, *later, out)).map(Value::Duration)
        }
        Call::AfterDate(duration, start) => {
            written(|out| ffi::speedate_duration_after_date(*duration, *start, out)).map(Value::Date)
        }
        Call::BeforeDate(duration, start) => {
            written(|out| ffi::speedate_duration_before_date(*duration, *start, out)).map(Value::Date)
        }
        Call::Negated(it) => written(|out| ffi::speedate_duration_negate(*it, out)).map(Value::Duration),
        _ => unreachable!("{call:?} is a call of the package"),
    }
}
