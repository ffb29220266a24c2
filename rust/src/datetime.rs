use core::cmp::Ordering;
#[cfg(feature = "std")]
use std::time::SystemTime;

use crate::ffi::{self, Config};
use crate::value::{value, Value};
use crate::{
    Date, DateTimeConfig, Form, MicrosecondsPrecisionOverflowBehavior, ParseError, Refused, Time, TimeConfig,
    TimestampUnit,
};

/// A date and a time of day, as a clock at the offset of the time shows them. It is printed as the [`Date`], `T` and
/// the [`Time`], with a precision too. For the `T` the parsers also accept `t`, `_` or a space.
///
/// ```
/// use speedate::{Date, DateTime, Time};
///
/// let value = DateTime::parse_str("2020-02-29T12:13:14-08:30").unwrap();
/// let date = Date { year: 2020, month: 2, day: 29 };
/// let time = Time { hour: 12, minute: 13, second: 14, microsecond: 0, tz_offset: Some(-30_600) };
/// assert_eq!(value, DateTime { date, time });
/// assert_eq!(value.to_string(), "2020-02-29T12:13:14-08:30");
/// assert_eq!(format!("{value:.3}"), "2020-02-29T12:13:14.000-08:30");
/// ```
#[derive(Debug, PartialEq, Eq, Hash, Clone, Copy)]
pub struct DateTime {
    /// The date.
    pub date: Date,
    /// The time of day.
    pub time: Time,
}

value! {
    /// The date-time of a text, or of a timestamp, whole or decimal. Every number is a timestamp, `20200229` too, but for
    /// one with an exponent, which is refused.
    ///
    /// ```
    /// use speedate::{DateTime, ParseError};
    ///
    /// assert_eq!(DateTime::parse_str("2020-02-29 12:13:14.5"), DateTime::parse_str("1582978394.5"));
    /// assert_eq!(DateTime::parse_str("2020-02-29"), Err(ParseError::InvalidCharDateTimeSep));
    /// ```
    DateTime by speedate_datetime_parse_or_timestamp under DateTimeConfig, speedate_datetime_to_text with digits,
        speedate_datetime_check
}

/// The order of instants, as in [`Time`].
impl PartialOrd for DateTime {
    fn partial_cmp(&self, other: &Self) -> Option<Ordering> {
        ffi::speedate_datetime_compare(self, other).ok().map(|order: i32| order.cmp(&0))
    }
}

impl DateTime {
    /// The date-time of the same texts as [`parse_str`](Self::parse_str), without timestamps. Despite its name it is otherwise
    /// as relaxed: RFC 3339 and nothing else is [`parse_bytes_strict`](Self::parse_bytes_strict).
    ///
    /// ```
    /// use speedate::{DateTime, MicrosecondsPrecisionOverflowBehavior::Error, ParseError};
    ///
    /// assert_eq!(DateTime::parse_str_rfc3339("2022-01-01 12:13").unwrap().to_string(), "2022-01-01T12:13:00");
    /// let strict = DateTime::parse_bytes_strict(b"2022-01-01 12:13", Error);
    /// assert_eq!(strict, Err(ParseError::InvalidCharDateTimeSep));
    /// ```
    ///
    /// # Errors
    ///
    /// Why the text is refused.
    pub fn parse_str_rfc3339(str: &str) -> Result<Self, ParseError> {
        Self::parse_bytes_rfc3339(str.as_bytes())
    }

    /// [`parse_str`](Self::parse_str) with a configuration.
    ///
    /// # Errors
    ///
    /// Why the text is refused; [`OutOfRangeTz`](ParseError::OutOfRangeTz), whatever the text, if the configured offset
    /// is a day or more.
    pub fn parse_str_with_config(str: &str, config: &DateTimeConfig) -> Result<Self, ParseError> {
        Self::parse_bytes_with_config(str.as_bytes(), config)
    }

    /// [`parse_str_rfc3339`](Self::parse_str_rfc3339) of bytes.
    ///
    /// # Errors
    ///
    /// Why the text is refused.
    pub fn parse_bytes_rfc3339(bytes: &[u8]) -> Result<Self, ParseError> {
        Self::parse_bytes_rfc3339_with_config(bytes, &TimeConfig::default())
    }

    /// [`parse_str_rfc3339`](Self::parse_str_rfc3339) of bytes, with a configuration, of which the behavior matters.
    ///
    /// # Errors
    ///
    /// Why the text is refused.
    pub fn parse_bytes_rfc3339_with_config(bytes: &[u8], config: &TimeConfig) -> Result<Self, ParseError> {
        Ok(ffi::speedate_datetime_parse_text(bytes, config)?)
    }

    /// The date-time of a strict input of RFC 3339, without a second 60.
    ///
    /// # Errors
    ///
    /// Why the text is refused.
    pub fn parse_bytes_strict(
        bytes: &[u8],
        behavior: MicrosecondsPrecisionOverflowBehavior,
    ) -> Result<Self, ParseError> {
        Ok(ffi::speedate_datetime_parse_strict(bytes, Config::default().behavior(behavior))?)
    }

    /// The date-time of an input as [`Form::Loose`] reads it: its offset may be a zone as programs print it.
    ///
    /// ```
    /// use speedate::{DateTime, MicrosecondsPrecisionOverflowBehavior::Error};
    ///
    /// let value = DateTime::parse_bytes_loose(b"2026-11-01 08:00:00 -0500", Error).unwrap();
    /// assert_eq!(value.to_string(), "2026-11-01T08:00:00-05:00");
    /// ```
    ///
    /// # Errors
    ///
    /// Why the text is refused.
    pub fn parse_bytes_loose(
        bytes: &[u8],
        behavior: MicrosecondsPrecisionOverflowBehavior,
    ) -> Result<Self, ParseError> {
        Ok(Self::parse_loose(bytes, Form::Loose, behavior)?.0)
    }

    /// The date-time at the front of an input as [`Form::LooseFront`] reads it, and its size in bytes.
    ///
    /// ```
    /// use speedate::{DateTime, MicrosecondsPrecisionOverflowBehavior::Error};
    ///
    /// let (value, size) = DateTime::parse_front_loose(b"2026-11-01 08:00:00 UTC [42]", Error).unwrap();
    /// assert_eq!((value.to_string().as_str(), size), ("2026-11-01T08:00:00Z", 23));
    /// ```
    ///
    /// # Errors
    ///
    /// Why no date-time is at the front.
    pub fn parse_front_loose(
        bytes: &[u8],
        behavior: MicrosecondsPrecisionOverflowBehavior,
    ) -> Result<(Self, usize), ParseError> {
        Self::parse_loose(bytes, Form::LooseFront, behavior)
    }

    fn parse_loose(
        bytes: &[u8],
        form: Form,
        behavior: MicrosecondsPrecisionOverflowBehavior,
    ) -> Result<(Self, usize), ParseError> {
        let config = Config::default().behavior(behavior);
        ffi::speedate_datetime_parse_or_part(bytes, form, config).map_err(Refused::error)
    }

    /// The date-time at the front of an input, whatever follows it, and its size in bytes. A timestamp is refused, and so is
    /// a date without a time.
    ///
    /// ```
    /// let line = b"2026-11-22T12:13:14Z GET /";
    /// let (value, size) = speedate::DateTime::parse_front(line, &Default::default()).unwrap();
    /// assert_eq!((value.to_string().as_str(), size), ("2026-11-22T12:13:14Z", 20));
    /// ```
    ///
    /// # Errors
    ///
    /// Why no date-time is at the front.
    pub fn parse_front(bytes: &[u8], config: &TimeConfig) -> Result<(Self, usize), ParseError> {
        ffi::speedate_datetime_parse_or_part(bytes, Form::Front, config).map_err(Refused::error)
    }

    /// The date-time of an input in a form, and its size in bytes, which only with [`Form::Front`] and [`Form::LooseFront`]
    /// is not that of the input.
    ///
    /// ```
    /// use speedate::{DateTime, DateTimeConfig, Form};
    ///
    /// let config = DateTimeConfig::default();
    /// let (value, size) = DateTime::parse_or_place(b"2026-11-22T12:13:14Z GET /", Form::Front, &config).unwrap();
    /// assert_eq!((value.to_string().as_str(), size), ("2026-11-22T12:13:14Z", 20));
    ///
    /// let refused = DateTime::parse_or_place(b"20200229", Form::Text, &config).unwrap_err();
    /// assert_eq!((refused.start, refused.end), (8, 8));
    /// assert_eq!(refused.expected().to_string(), "a date-time: YYYY-MM-DDTHH:MM or YYYY-MM-DDTHH:MM:SS");
    /// ```
    ///
    /// # Errors
    ///
    /// Why and where the input is refused; [`ConfigOutOfRange`](crate::Fault::ConfigOutOfRange) if the configured offset
    /// is a day or more, in any form. Date-times have all forms.
    pub fn parse_or_place(bytes: &[u8], form: Form, config: &DateTimeConfig) -> Result<(Self, usize), Refused> {
        ffi::speedate_datetime_parse_or_part(bytes, form, config)
    }

    /// [`from_timestamp`](Self::from_timestamp), in the unit and with the offset of a configuration.
    ///
    /// # Errors
    ///
    /// [`TimeTooLarge`](ParseError::TimeTooLarge) if a sum that leads to it is too large,
    /// [`DateTooSmall`](ParseError::DateTooSmall) before the year 0000, [`DateTooLarge`](ParseError::DateTooLarge)
    /// after the year 9999, and [`OutOfRangeTz`](ParseError::OutOfRangeTz) if the configured offset is a day or more.
    pub fn from_timestamp_with_config(
        timestamp: i64,
        timestamp_microsecond: u32,
        config: &DateTimeConfig,
    ) -> Result<Self, ParseError> {
        Ok(ffi::speedate_datetime_of_timestamp(timestamp, timestamp_microsecond, config)?)
    }

    /// The date-time of a timestamp in the unit and with the offset of a configuration. The exact value of the float is
    /// rounded to the nearest microsecond, a tie to the later one. Not-a-number counts as 0.
    ///
    /// # Errors
    ///
    /// [`DateTooSmall`](ParseError::DateTooSmall) before the year 0000, [`DateTooLarge`](ParseError::DateTooLarge)
    /// after the year 9999, and [`OutOfRangeTz`](ParseError::OutOfRangeTz) if the configured offset is a day or more.
    pub fn from_float_with_config(timestamp: f64, mode: &DateTimeConfig) -> Result<Self, ParseError> {
        let is_second = match mode.timestamp_unit {
            TimestampUnit::Second => true,
            TimestampUnit::Millisecond => false,
            TimestampUnit::Infer => (-2e10..=2e10).contains(&timestamp),
        };
        let microseconds = microseconds(timestamp, if is_second { 1_000_000 } else { 1_000 });
        let (second, microsecond) = (microseconds.div_euclid(1_000_000), microseconds.rem_euclid(1_000_000));
        let config = Config::from(mode).unit(TimestampUnit::Second);
        Ok(ffi::speedate_datetime_of_timestamp(second, microsecond as u32, config)?)
    }

    /// The date-time so many microseconds after a timestamp, whose unit is inferred: seconds if without its sign it is at
    /// most 20,000,000,000, otherwise milliseconds.
    ///
    /// ```
    /// let value = speedate::DateTime::from_timestamp(1_582_978_394, 123).unwrap();
    /// assert_eq!(value.to_string(), "2020-02-29T12:13:14.000123");
    /// ```
    ///
    /// # Errors
    ///
    /// [`TimeTooLarge`](ParseError::TimeTooLarge) if a sum that leads to it is too large,
    /// [`DateTooSmall`](ParseError::DateTooSmall) before the year 0000, [`DateTooLarge`](ParseError::DateTooLarge)
    /// after the year 9999.
    pub fn from_timestamp(timestamp: i64, timestamp_microsecond: u32) -> Result<Self, ParseError> {
        Self::from_timestamp_with_config(timestamp, timestamp_microsecond, &DateTimeConfig::default())
    }

    /// What a clock at an offset from UTC, in seconds, now shows, by [`SystemTime`].
    ///
    /// ```
    /// let [utc, paris] = [0, 3_600].map(|offset| speedate::DateTime::now(offset).unwrap());
    /// assert!(utc <= paris && paris.time.tz_offset == Some(3_600));
    /// ```
    ///
    /// # Errors
    ///
    /// [`OutOfRangeTz`](ParseError::OutOfRangeTz) if the offset is a day or more,
    /// [`DateTooLarge`](ParseError::DateTooLarge) after the year 9999, and
    /// [`SystemTimeError`](ParseError::SystemTimeError) if the clock shows a time before 1970.
    #[cfg(feature = "std")]
    pub fn now(tz_offset: i32) -> Result<Self, ParseError> {
        now_at(SystemTime::UNIX_EPOCH.elapsed().map_err(|_| ParseError::SystemTimeError)?, tz_offset)
    }

    /// The same clock with another offset, in seconds: mostly another instant.
    ///
    /// # Errors
    ///
    /// The error of the first field that is out of range: [`OutOfRangeTz`](ParseError::OutOfRangeTz) if the offset is a
    /// day or more.
    pub fn with_timezone_offset(&self, tz_offset: Option<i32>) -> Result<Self, ParseError> {
        let value = Self { time: Time { tz_offset, ..self.time }, ..*self };
        value.check().map(|()| value)
    }

    /// The same instant, as a clock at another offset, in seconds, shows it.
    ///
    /// ```
    /// let value = speedate::DateTime::parse_str("2020-02-29T23:00Z").unwrap();
    /// assert_eq!(value.in_timezone(7_200).unwrap().to_string(), "2020-03-01T01:00:00+02:00");
    /// assert_eq!(value.with_timezone_offset(Some(7_200)).unwrap().to_string(), "2020-02-29T23:00:00+02:00");
    /// ```
    ///
    /// # Errors
    ///
    /// The error of the first field that is out of range; [`OutOfRangeTz`](ParseError::OutOfRangeTz) if the offset is a
    /// day or more, [`TzRequired`](ParseError::TzRequired) if the date-time has none,
    /// [`DateTooSmall`](ParseError::DateTooSmall) before the year 0000, [`DateTooLarge`](ParseError::DateTooLarge)
    /// after the year 9999.
    pub fn in_timezone(&self, tz_offset: i32) -> Result<Self, ParseError> {
        self.checked(ffi::speedate_datetime_in_timezone(self, tz_offset))
    }

    /// The seconds since 1970-01-01T00:00:00, as if the clock were in UTC. It panics if the date-time is out of range.
    #[must_use]
    #[track_caller]
    pub fn timestamp(&self) -> i64 {
        self.total(ffi::speedate_datetime_clock_seconds(self))
    }

    /// [`timestamp`](Self::timestamp) in milliseconds, rounded down.
    #[must_use]
    #[track_caller]
    pub fn timestamp_ms(&self) -> i64 {
        self.total(ffi::speedate_datetime_clock_milliseconds(self))
    }

    /// Unix time: the seconds since 1970-01-01T00:00:00 in UTC, where a date-time without an offset is taken to be. It
    /// panics if the date-time is out of range.
    ///
    /// ```
    /// assert_eq!(speedate::DateTime::parse_str("1970-01-02T00:00+01:00").unwrap().timestamp_tz(), 82_800);
    /// ```
    #[must_use]
    #[track_caller]
    pub fn timestamp_tz(&self) -> i64 {
        self.total(ffi::speedate_datetime_unix_seconds(self))
    }

    /// [`timestamp_tz`](Self::timestamp_tz) in milliseconds, rounded down.
    #[must_use]
    #[track_caller]
    pub fn timestamp_tz_ms(&self) -> i64 {
        self.total(ffi::speedate_datetime_unix_milliseconds(self))
    }

    /// [`timestamp_tz`](Self::timestamp_tz) in microseconds. The crate lacks this call.
    #[must_use]
    #[track_caller]
    pub fn timestamp_tz_us(&self) -> i64 {
        self.total(ffi::speedate_datetime_unix_microseconds(self))
    }
}

impl From<&DateTimeConfig> for Config {
    fn from(config: &DateTimeConfig) -> Self {
        Self::from(&config.time_config).unit(config.timestamp_unit).offset(config.time_config.unix_timestamp_offset)
    }
}

/// What a clock at an offset shows so long after 1970-01-01T00:00Z.
#[cfg(feature = "std")]
fn now_at(since: std::time::Duration, tz_offset: i32) -> Result<DateTime, ParseError> {
    let second = i64::try_from(since.as_secs()).map_err(|_| ParseError::DateTooLarge)?;
    let config = Config::default().unit(TimestampUnit::Second).offset(Some(0));
    let now: DateTime = ffi::speedate_datetime_of_timestamp(second, since.subsec_micros(), config)?;
    now.in_timezone(tz_offset)
}

/// The microseconds nearest to a timestamp whose unit has so many; of two that are as near, the later.
fn microseconds(timestamp: f64, unit: i64) -> i64 {
    /// More microseconds than any date-time has, in either direction.
    const END: f64 = 1e18;
    /// A fraction times 2^106 is whole, unless the fraction is less than 2^-53, which is rounded to nothing.
    const PLACES: u32 = 106;

    let end = END / unit as f64;
    let timestamp = timestamp.clamp(-end, end);
    let whole = timestamp as i64;
    let fraction = ((timestamp - whole as f64) * (1_u128 << PLACES) as f64) as i128 * i128::from(unit);
    let nearest = (fraction + (1 << (PLACES - 1))) >> PLACES;
    whole * unit + nearest as i64
}

#[cfg(all(test, feature = "std"))]
mod tests {
    use super::*;
    use std::time::Duration;

    #[test]
    fn clocks() {
        let shown =
            |second, nanosecond, tz_offset| Ok(now_at(Duration::new(second, nanosecond), tz_offset)?.to_string());
        assert_eq!(shown(1_582_978_394, 123_456_789, 3_600), Ok("2020-02-29T13:13:14.123456+01:00".to_owned()));
        assert_eq!(shown(1_582_934_399, 0, -86_340), Ok("2020-02-28T00:00:59-23:59".to_owned()));
        // In milliseconds, which such a second would be taken for, it is a day of 1970.
        assert_eq!(shown(20_000_000_001, 0, 0), Ok("2603-10-11T11:33:21Z".to_owned()));
        assert_eq!(shown(1, 0, 86_400), Err(ParseError::OutOfRangeTz));
        assert_eq!(shown(253_402_300_799, 0, 1), Err(ParseError::DateTooLarge));
        assert_eq!(
            [1 << 63, u64::MAX].map(|second| shown(second, 0, 0)),
            [(); 2].map(|()| Err(ParseError::DateTooLarge))
        );
    }
}
