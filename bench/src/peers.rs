//! Other crates that read the texts of a row or have its call. Each is behind a feature with its name.

#![cfg_attr(
    not(all(feature = "chrono", feature = "time", feature = "humantime", feature = "iso8601")),
    allow(unused_mut, unused_imports, dead_code)
)]

use crate::arithmetic::Moments;
use crate::row::{Side, side};

#[cfg(feature = "time")]
use time::format_description::{self, FormatItem, well_known::Rfc3339};

/// A format of `time`, which lives as long as the program.
#[cfg(feature = "time")]
fn format(text: &'static str) -> &'static [FormatItem<'static>] {
    format_description::parse(text).expect("a format").leak()
}

pub fn date() -> Vec<Side<String>> {
    let mut sides = Vec::new();
    #[cfg(feature = "chrono")]
    sides.push(side("chrono", |text: &String| text.parse::<chrono::NaiveDate>()));
    #[cfg(feature = "time")]
    sides.push({
        let format = format("[year]-[month]-[day]");
        side("time", move |text: &String| time::Date::parse(text, format))
    });
    #[cfg(feature = "iso8601")]
    sides.push(side("iso8601", |text: &String| iso8601::date(text)));
    sides
}

pub fn time() -> Vec<Side<String>> {
    let mut sides = Vec::new();
    #[cfg(feature = "chrono")]
    sides.push(side("chrono", |text: &String| text.parse::<chrono::NaiveTime>()));
    #[cfg(feature = "time")]
    sides.push({
        let format = format("[hour]:[minute]:[second]");
        side("time", move |text: &String| time::Time::parse(text, format))
    });
    #[cfg(feature = "iso8601")]
    sides.push(side("iso8601", |text: &String| iso8601::time(text)));
    sides
}

/// `iso8601` is not among them, because it drops digits after the millisecond.
pub fn time_with_fraction() -> Vec<Side<String>> {
    let mut sides = Vec::new();
    #[cfg(feature = "chrono")]
    sides.push(side("chrono", |text: &String| text.parse::<chrono::NaiveTime>()));
    #[cfg(feature = "time")]
    sides.push({
        let format = format("[hour]:[minute]:[second].[subsecond]");
        side("time", move |text: &String| time::Time::parse(text, format))
    });
    sides
}

pub fn date_time() -> Vec<Side<String>> {
    let mut sides = Vec::new();
    #[cfg(feature = "chrono")]
    sides.push(side("chrono", |text: &String| chrono::DateTime::parse_from_rfc3339(text)));
    #[cfg(feature = "time")]
    sides.push(side("time", |text: &String| time::OffsetDateTime::parse(text, &Rfc3339)));
    sides
}

pub fn date_time_in_utc() -> Vec<Side<String>> {
    let mut sides = date_time();
    #[cfg(feature = "humantime")]
    sides.push(side("humantime", |text: &String| humantime::parse_rfc3339(text)));
    #[cfg(feature = "iso8601")]
    sides.push(side("iso8601", |text: &String| iso8601::datetime(text)));
    sides
}

pub fn duration() -> Vec<Side<String>> {
    let mut sides = Vec::new();
    #[cfg(feature = "iso8601")]
    sides.push(side("iso8601", |text: &String| iso8601::duration(text)));
    sides
}

/// Two date-times in UTC, as the other crates have them.
pub struct PeerMoments {
    #[cfg(feature = "chrono")]
    chrono: [chrono::DateTime<chrono::FixedOffset>; 2],
    #[cfg(feature = "time")]
    time: [time::OffsetDateTime; 2],
}

impl PeerMoments {
    pub fn of(_texts: [&str; 2]) -> Self {
        PeerMoments {
            #[cfg(feature = "chrono")]
            chrono: _texts.map(|text| chrono::DateTime::parse_from_rfc3339(text).expect("a date-time")),
            #[cfg(feature = "time")]
            time: _texts.map(|text| time::OffsetDateTime::parse(text, &Rfc3339).expect("a date-time")),
        }
    }

    pub fn days_since() -> Vec<Side<Moments>> {
        let mut sides = Vec::new();
        #[cfg(feature = "chrono")]
        sides.push(side("chrono", |it: &Moments| {
            let [first, second] = it.others.chrono.map(|value| value.naive_utc().date());
            second.signed_duration_since(first).num_days()
        }));
        #[cfg(feature = "time")]
        sides.push(side("time", |it: &Moments| {
            let [first, second] = it.others.time.map(|value| value.date());
            (second - first).whole_days()
        }));
        sides
    }

    pub fn add_days() -> Vec<Side<Moments>> {
        let mut sides = Vec::new();
        #[cfg(feature = "chrono")]
        sides.push(side("chrono", |it: &Moments| {
            it.others.chrono[0].naive_utc().date().checked_add_signed(chrono::Duration::days(100))
        }));
        #[cfg(feature = "time")]
        sides.push(side("time", |it: &Moments| it.others.time[0].date().checked_add(time::Duration::days(100))));
        sides
    }

    pub fn between() -> Vec<Side<Moments>> {
        let mut sides = Vec::new();
        #[cfg(feature = "chrono")]
        sides.push(side("chrono", |it: &Moments| it.others.chrono[1].signed_duration_since(it.others.chrono[0])));
        #[cfg(feature = "time")]
        sides.push(side("time", |it: &Moments| it.others.time[1] - it.others.time[0]));
        sides
    }

    pub fn after() -> Vec<Side<Moments>> {
        let mut sides = Vec::new();
        #[cfg(feature = "chrono")]
        sides.push(side("chrono", |it: &Moments| {
            it.others.chrono[0].checked_add_signed(chrono::Duration::milliseconds(100_000_500))
        }));
        #[cfg(feature = "time")]
        sides.push(side("time", |it: &Moments| {
            it.others.time[0].checked_add(time::Duration::milliseconds(100_000_500))
        }));
        sides
    }

    pub fn timestamp() -> Vec<Side<Moments>> {
        let mut sides = Vec::new();
        #[cfg(feature = "chrono")]
        sides.push(side("chrono", |it: &Moments| it.others.chrono[0].timestamp()));
        #[cfg(feature = "time")]
        sides.push(side("time", |it: &Moments| it.others.time[0].unix_timestamp()));
        sides
    }
}
