use crate::ffi::{self, Config};
use crate::value::{value, Value};
use crate::{DateConfig, Form, ParseError, Refused};

/// A day of the Gregorian calendar, from 0000-01-01 to 9999-12-31. Its text is `YYYY-MM-DD`.
///
/// ```
/// use speedate::Date;
///
/// let date = Date::parse_str("2020-02-29").unwrap();
/// assert_eq!(date, Date { year: 2020, month: 2, day: 29 });
/// assert_eq!(date.checked_add_days(1).unwrap().to_string(), "2020-03-01");
/// ```
#[derive(Debug, PartialEq, Eq, PartialOrd, Ord, Hash, Clone, Copy)]
pub struct Date {
    /// 0 to 9999.
    pub year: u16,
    /// 1 to 12.
    pub month: u8,
    /// 1 to the length of the month.
    pub day: u8,
}

value! {
    /// The date of a text, or of a timestamp that is a midnight. Every whole number is a timestamp, `20200229` too.
    ///
    /// ```
    /// use speedate::{Date, ParseError};
    ///
    /// assert_eq!(Date::parse_str("2020-02-29"), Date::parse_str("1582934400"));
    /// assert_eq!(Date::parse_str("2021-02-29"), Err(ParseError::OutOfRangeDay));
    /// ```
    Date by speedate_date_parse_or_timestamp under DateConfig, speedate_date_to_text, speedate_date_check
}

impl Date {
    /// The date of a text. A timestamp is refused.
    ///
    /// # Errors
    ///
    /// Why the text is refused.
    pub fn parse_str_rfc3339(str: &str) -> Result<Self, ParseError> {
        Self::parse_bytes_rfc3339(str.as_bytes())
    }

    /// [`parse_str`](Self::parse_str) with a configuration.
    ///
    /// # Errors
    ///
    /// Why the text is refused.
    pub fn parse_str_with_config(str: &str, config: &DateConfig) -> Result<Self, ParseError> {
        Self::parse_bytes_with_config(str.as_bytes(), config)
    }

    /// [`parse_str_rfc3339`](Self::parse_str_rfc3339) of bytes.
    ///
    /// # Errors
    ///
    /// Why the text is refused.
    pub fn parse_bytes_rfc3339(bytes: &[u8]) -> Result<Self, ParseError> {
        Ok(ffi::speedate_date_parse_text(bytes)?)
    }

    /// The date at the front of an input, whatever follows it, and its size in bytes. A timestamp is refused.
    ///
    /// ```
    /// let (date, size) = speedate::Date::parse_front(b"2020-02-29 opening balance").unwrap();
    /// assert_eq!((date.day, size), (29, 10));
    /// ```
    ///
    /// # Errors
    ///
    /// Why no date is at the front.
    pub fn parse_front(bytes: &[u8]) -> Result<(Self, usize), ParseError> {
        Self::parse_or_place(bytes, Form::Front, &DateConfig::default()).map_err(Refused::error)
    }

    /// The date of an input in a form, and its size in bytes, which only with [`Form::Front`] is not that of the input.
    ///
    /// ```
    /// use speedate::{Date, DateConfig, Form};
    ///
    /// let (config, date) = (DateConfig::default(), Date { year: 2020, month: 2, day: 29 });
    /// assert_eq!(Date::parse_or_place(b"2020-02-29", Form::Text, &config), Ok((date, 10)));
    /// assert_eq!(Date::parse_or_place(b"1582934400", Form::OrTimestamp, &config), Ok((date, 10)));
    /// assert_eq!(Date::parse_or_place(b"2020-02-29 rent", Form::Front, &config), Ok((date, 10)));
    ///
    /// let refused = Date::parse_or_place(b"2020-02-3", Form::Front, &config).unwrap_err();
    /// assert_eq!(refused.to_string(), "too_short at byte 9: expected a date: YYYY-MM-DD");
    /// ```
    ///
    /// # Errors
    ///
    /// Why and where the input is refused. Dates have all forms.
    pub fn parse_or_place(bytes: &[u8], form: Form, config: &DateConfig) -> Result<(Self, usize), Refused> {
        ffi::speedate_date_parse_or_part(bytes, form, config)
    }

    /// The date of a timestamp in the unit of the configuration, which has to be a midnight if `require_exact`.
    ///
    /// ```
    /// use speedate::{Date, DateConfig};
    ///
    /// let date = Date::from_timestamp(1_582_934_401, false, &DateConfig::default()).unwrap();
    /// assert_eq!(date.to_string(), "2020-02-29");
    /// ```
    ///
    /// # Errors
    ///
    /// [`DateNotExact`](ParseError::DateNotExact) if it has to be a midnight and is none,
    /// [`DateTooSmall`](ParseError::DateTooSmall) before the year 0000, [`DateTooLarge`](ParseError::DateTooLarge)
    /// after the year 9999.
    pub fn from_timestamp(timestamp: i64, require_exact: bool, config: &DateConfig) -> Result<Self, ParseError> {
        Ok(ffi::speedate_date_from_timestamp(timestamp, require_exact, config)?)
    }

    /// The second at which the date begins, counted from 1970-01-01. It panics if the date is out of range.
    #[must_use]
    #[track_caller]
    pub fn timestamp(&self) -> i64 {
        self.total(ffi::speedate_date_timestamp(self))
    }

    /// The millisecond at which the date begins, counted from 1970-01-01. It panics if the date is out of range.
    #[must_use]
    #[track_caller]
    pub fn timestamp_ms(&self) -> i64 {
        self.total(ffi::speedate_date_timestamp_ms(self))
    }

    /// The date that a clock at an offset from UTC, in seconds, now shows.
    ///
    /// # Errors
    ///
    /// [`OutOfRangeTz`](ParseError::OutOfRangeTz) if the offset is a day or more,
    /// [`DateTooLarge`](ParseError::DateTooLarge) after the year 9999, and
    /// [`SystemTimeError`](ParseError::SystemTimeError) if the clock shows a time before 1970.
    #[cfg(feature = "std")]
    pub fn today(tz_offset: i32) -> Result<Self, ParseError> {
        Ok(crate::DateTime::now(tz_offset)?.date)
    }

    /// The day of the year, 1 to 366. It panics if the date is out of range.
    #[must_use]
    #[track_caller]
    pub fn ordinal_day(&self) -> u16 {
        self.total(ffi::speedate_date_ordinal_day(self))
    }

    /// The date so many days later, or earlier if they are negative. It is `None` before 0000-01-01, after 9999-12-31, and
    /// if the date is out of range.
    #[must_use]
    pub fn checked_add_days(&self, days: i32) -> Option<Self> {
        ffi::speedate_date_add_days(self, days).ok()
    }

    /// The days from an earlier date to this one, which are negative if it is the later one. It panics if a date is out of
    /// range.
    ///
    /// ```
    /// let [date, earlier] = ["2020-03-01", "2020-02-28"].map(|text| speedate::Date::parse_str(text).unwrap());
    /// assert_eq!(date.days_since(&earlier), 2);
    /// ```
    #[must_use]
    #[track_caller]
    pub fn days_since(&self, earlier: &Self) -> i32 {
        (self, earlier).total(ffi::speedate_date_days_between(earlier, self))
    }
}

impl From<&DateConfig> for Config {
    fn from(config: &DateConfig) -> Self {
        Self::default().unit(config.timestamp_unit)
    }
}
