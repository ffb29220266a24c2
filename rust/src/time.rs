use core::cmp::Ordering;
use core::str::FromStr;

use crate::ffi::{self, Config};
use crate::value::{value, Value};
use crate::{ConfigError, Form, ParseError, Refused, TimeConfig};

/// A time of day, with an offset from UTC or without one.
///
/// It is printed as `HH:MM:SS`; then, if the microsecond is not 0, `.` and six digits; then `Z`, `+HH:MM`, `-HH:MM` or
/// nothing. With a precision of 0, 3 or 6 it has just so many digits of the second, rounded down. The parsers also accept a time without a second, and other forms of the fraction and the offset.
///
/// ```
/// use speedate::Time;
///
/// let time = Time::parse_str("12:13:14.5+01:30").unwrap();
/// assert_eq!(time, Time { hour: 12, minute: 13, second: 14, microsecond: 500_000, tz_offset: Some(5_400) });
/// assert_eq!(time.to_string(), "12:13:14.500000+01:30");
/// assert_eq!(format!("{time:.3}"), "12:13:14.500+01:30");
/// ```
#[derive(Debug, PartialEq, Eq, Hash, Clone, Copy)]
pub struct Time {
    /// 0 to 23.
    pub hour: u8,
    /// 0 to 59.
    pub minute: u8,
    /// 0 to 59.
    pub second: u8,
    /// 0 to 999,999.
    pub microsecond: u32,
    /// In seconds, positive east of UTC: -86,399 to 86,399.
    pub tz_offset: Option<i32>,
}

value! {
    /// The time of a text.
    ///
    /// ```
    /// use speedate::{ParseError, Time};
    ///
    /// assert!(Time::parse_str("15:00Z").unwrap() > Time::parse_str("15:00+01:00").unwrap());
    /// assert_eq!(Time::parse_str("24:00"), Err(ParseError::OutOfRangeHour));
    /// ```
    Time by speedate_time_parse_text under TimeConfig, speedate_time_to_text with digits, speedate_time_check
}

/// The order of instants: in UTC if both times have an offset, otherwise as clocks show them. So times at different offsets
/// can be neither `<`, `>` nor `==`, and only those sort well that all have an offset, or all have none. A time out of
/// range is not ordered.
impl PartialOrd for Time {
    fn partial_cmp(&self, other: &Self) -> Option<Ordering> {
        ffi::speedate_time_compare(self, other).ok().map(|order: i32| order.cmp(&0))
    }
}

impl Time {
    /// The time of a strict input of RFC 3339, without a second 60.
    ///
    /// ```
    /// use speedate::{MicrosecondsPrecisionOverflowBehavior::Error, ParseError, Time};
    ///
    /// assert_eq!(Time::parse_bytes_strict(b"12:13:14", Error), Err(ParseError::TzRequired));
    /// ```
    ///
    /// # Errors
    ///
    /// Why the text is refused. One that [`parse_str`](Self::parse_str) refuses too has the same error here.
    pub fn parse_bytes_strict(
        bytes: &[u8],
        behavior: MicrosecondsPrecisionOverflowBehavior,
    ) -> Result<Self, ParseError> {
        Ok(ffi::speedate_time_parse_strict(bytes, Config::default().behavior(behavior))?)
    }

    /// The time at the front of an input, whatever follows it, and its size in bytes.
    ///
    /// ```
    /// let (time, size) = speedate::Time::parse_front(b"12:13, noon", &Default::default()).unwrap();
    /// assert_eq!((time.minute, size), (13, 5));
    /// ```
    ///
    /// # Errors
    ///
    /// Why no time is at the front.
    pub fn parse_front(bytes: &[u8], config: &TimeConfig) -> Result<(Self, usize), ParseError> {
        Self::parse_or_place(bytes, Form::Front, config).map_err(Refused::error)
    }

    /// The time of an input in a form, and its size in bytes, which only with [`Form::Front`] is not that of the input.
    ///
    /// ```
    /// use speedate::{Form, Time, TimeConfig};
    ///
    /// let config = TimeConfig::default();
    /// let (time, size) = Time::parse_or_place(b"12:13, noon", Form::Front, &config).unwrap();
    /// assert_eq!((time.minute, size), (13, 5));
    ///
    /// let refused = Time::parse_or_place(b"12:13+01:00", Form::Strict, &config).unwrap_err();
    /// assert_eq!((refused.start, refused.end), (5, 6));
    /// assert_eq!(refused.expected().to_string(), "a colon, as in HH:MM:SS");
    /// ```
    ///
    /// # Errors
    ///
    /// Why and where the input is refused; [`ConfigOutOfRange`](crate::Fault::ConfigOutOfRange) if the form is
    /// [`Form::OrTimestamp`], which times do not have.
    pub fn parse_or_place(bytes: &[u8], form: Form, config: &TimeConfig) -> Result<(Self, usize), Refused> {
        ffi::speedate_time_parse_or_part(bytes, form, config)
    }

    /// The time so many seconds and microseconds after midnight, on the same day.
    ///
    /// ```
    /// assert_eq!(speedate::Time::from_timestamp(3_740, 123).unwrap().to_string(), "01:02:20.000123");
    /// ```
    ///
    /// # Errors
    ///
    /// [`TimeTooLarge`](ParseError::TimeTooLarge) if it is on another day.
    pub fn from_timestamp(timestamp_second: u32, timestamp_microsecond: u32) -> Result<Self, ParseError> {
        Self::from_timestamp_with_config(timestamp_second, timestamp_microsecond, &TimeConfig::default())
    }

    /// [`from_timestamp`](Self::from_timestamp), with the offset of a configuration.
    ///
    /// # Errors
    ///
    /// [`TimeTooLarge`](ParseError::TimeTooLarge) if it is on another day, and
    /// [`OutOfRangeTz`](ParseError::OutOfRangeTz) if the configured offset is a day or more.
    pub fn from_timestamp_with_config(
        timestamp_second: u32,
        timestamp_microsecond: u32,
        config: &TimeConfig,
    ) -> Result<Self, ParseError> {
        let config = Config::default().offset(config.unix_timestamp_offset);
        Ok(ffi::speedate_time_from_timestamp(timestamp_second, timestamp_microsecond, config)?)
    }

    /// The seconds since midnight, whatever the offset. It panics if the time is out of range.
    #[must_use]
    #[track_caller]
    pub fn total_seconds(&self) -> u32 {
        self.total(ffi::speedate_time_total_seconds(self))
    }

    /// The milliseconds since midnight, rounded down, whatever the offset. It panics if the time is out of range.
    #[must_use]
    #[track_caller]
    pub fn total_ms(&self) -> u32 {
        self.total(ffi::speedate_time_total_ms(self))
    }

    /// The same clock with another offset, in seconds: mostly another instant.
    ///
    /// # Errors
    ///
    /// The error of the first field that is out of range: [`OutOfRangeTz`](ParseError::OutOfRangeTz) if the offset is a
    /// day or more.
    pub fn with_timezone_offset(&self, tz_offset: Option<i32>) -> Result<Self, ParseError> {
        let time = Self { tz_offset, ..*self };
        time.check().map(|()| time)
    }

    /// The same instant, as a clock at another offset, in seconds, shows it on the same day.
    ///
    /// ```
    /// let time = speedate::Time::parse_str("15:00Z").unwrap();
    /// assert_eq!(time.in_timezone(7_200).unwrap().to_string(), "17:00:00+02:00");
    /// assert_eq!(time.with_timezone_offset(Some(7_200)).unwrap().to_string(), "15:00:00+02:00");
    /// ```
    ///
    /// # Errors
    ///
    /// The error of the first field that is out of range; [`OutOfRangeTz`](ParseError::OutOfRangeTz) if the offset is a
    /// day or more, [`TzRequired`](ParseError::TzRequired) if the time has none,
    /// [`TimeTooLarge`](ParseError::TimeTooLarge) if that clock shows another day.
    pub fn in_timezone(&self, tz_offset: i32) -> Result<Self, ParseError> {
        self.checked(ffi::speedate_time_in_timezone(self, tz_offset))
    }
}

impl From<&TimeConfig> for Config {
    fn from(config: &TimeConfig) -> Self {
        Self::default().behavior(config.microseconds_precision_overflow_behavior)
    }
}

/// What happens to digits past the microsecond. ISO 8601 durations are rounded to the nearest microsecond under both.
///
/// ```
/// use speedate::MicrosecondsPrecisionOverflowBehavior::{Error, Truncate};
///
/// assert_eq!(["error", "Truncate"].map(str::parse), [Ok(Error), Ok(Truncate)]);
/// ```
#[derive(Debug, Clone, Default, Copy, PartialEq)]
pub enum MicrosecondsPrecisionOverflowBehavior {
    /// They are dropped, and a timestamp is rounded to the nearest microsecond.
    Truncate,
    /// The input is refused.
    #[default]
    Error,
}

/// The behavior of a name, in letters of any case: `truncate` or `error`.
impl FromStr for MicrosecondsPrecisionOverflowBehavior {
    type Err = ConfigError;

    fn from_str(value: &str) -> Result<Self, ConfigError> {
        match value {
            _ if value.eq_ignore_ascii_case("truncate") => Ok(Self::Truncate),
            _ if value.eq_ignore_ascii_case("error") => Ok(Self::Error),
            _ => Err(ConfigError::UnknownMicrosecondsPrecisionOverflowBehaviorString),
        }
    }
}
