//! Rows of calls without a text. If the Rust crate lacks such a call, its row is made of calls that it has.

use speedate::{DateConfig, DateTime, DateTimeConfig, TimeConfig, TimestampUnit};

use crate::peers::PeerMoments;
use crate::row::{Table, side};
use crate::texts::{date_time, microseconds, texts};

/// Two date-times in UTC, as each library has them.
pub struct Moments {
    rust: [DateTime; 2],
    ours: [proved::DateTime; 2],
    #[cfg_attr(not(any(feature = "chrono", feature = "time")), allow(dead_code))]
    pub others: PeerMoments,
}

impl Moments {
    fn of(texts: [&str; 2]) -> Self {
        Moments {
            rust: texts.map(|text| DateTime::parse_str(text).expect("a date-time")),
            ours: texts.map(|text| proved::DateTime::parse_str(text).expect("a date-time")),
            others: PeerMoments::of(texts),
        }
    }
}

pub fn rows(table: &mut Table) {
    let texts = texts(|draw| date_time(draw, microseconds) + "Z");
    let next = texts.iter().cycle().skip(1);
    let moments: Vec<Moments> = texts.iter().zip(next).map(|(first, second)| Moments::of([first, second])).collect();
    date_rows(table, &moments);
    date_time_rows(table, &moments);
}

fn date_rows(table: &mut Table, moments: &[Moments]) {
    let rust = side("Rust crate", |it: &Moments| {
        let [first, second] = it.rust.map(|value| value.date);
        (second.timestamp() - first.timestamp()) / 86_400
    });
    let ours = side("this library", |it: &Moments| {
        let [first, second] = it.ours.map(|value| value.date);
        second.days_since(&first)
    });
    table.row("days since a date", moments, rust, ours, PeerMoments::days_since());

    let config = DateConfig { timestamp_unit: TimestampUnit::Second };
    let rust = side("Rust crate", move |it: &Moments| {
        speedate::Date::from_timestamp(it.rust[0].date.timestamp() + 100 * 86_400, true, &config)
    });
    let ours = side("this library", |it: &Moments| it.ours[0].date.checked_add_days(100));
    table.row("days added to a date", moments, rust, ours, PeerMoments::add_days());
}

fn date_time_rows(table: &mut Table, moments: &[Moments]) {
    let rust = side("Rust crate", |it: &Moments| {
        let [first, second] = it.rust.map(|value| (value.timestamp_tz(), value.time.microsecond as i32));
        (second.0 - first.0, second.1 - first.1)
    });
    let ours = side("this library", |it: &Moments| proved::Duration::between(&it.ours[0], &it.ours[1]));
    table.row("between date-times", moments, rust, ours, PeerMoments::between());

    let rust = side("Rust crate", |it: &Moments| it.rust[0].partial_cmp(&it.rust[1]));
    let ours = side("this library", |it: &Moments| it.ours[0].partial_cmp(&it.ours[1]));
    table.row("compare date-times", moments, rust, ours, vec![]);

    let time_config = TimeConfig { unix_timestamp_offset: Some(0), ..TimeConfig::default() };
    let config = DateTimeConfig { timestamp_unit: TimestampUnit::Second, time_config };
    let rust = side("Rust crate", move |it: &Moments| {
        let value = &it.rust[0];
        DateTime::from_timestamp_with_config(value.timestamp() + 100_000, value.time.microsecond + 500_000, &config)
    });
    let length = proved::Duration { positive: true, day: 1, second: 13_600, microsecond: 500_000 };
    let ours = side("this library", move |it: &Moments| length.after(&it.ours[0]));
    table.row("after a date-time", moments, rust, ours, PeerMoments::after());

    let rust = side("Rust crate", |it: &Moments| it.rust[0].timestamp_tz());
    let ours = side("this library", |it: &Moments| it.ours[0].timestamp_tz());
    table.row("timestamp of a date-time", moments, rust, ours, PeerMoments::timestamp());
}
