use core::cmp::Ordering;

use crate::ffi;
use crate::value::{value, Value};
use crate::{Date, DateTime, Form, ParseError, Refused, TimeConfig};

/// A length of time, with a sign, which zero has too.
///
/// It is printed as ISO 8601 has it, `P1Y2DT5H6M7.5S`. The parsers accept that, with months and weeks too, a clock,
/// `05:06:07.5`, or days and a clock, `4 days, 05:06`, each with a sign or without one. A year is 365 days, and a month
/// 30.
///
/// ```
/// use speedate::Duration;
///
/// let duration = Duration::parse_str("P1DT90M").unwrap();
/// assert_eq!(duration, Duration { positive: true, day: 1, second: 5_400, microsecond: 0 });
/// assert_eq!(duration.to_string(), "P1DT1H30M");
/// ```
#[derive(Debug, PartialEq, Eq, Hash, Clone)]
pub struct Duration {
    /// Whether it is not negative.
    pub positive: bool,
    /// 0 to 999,999,999, each of 86,400 seconds.
    pub day: u32,
    /// 0 to 86,399.
    pub second: u32,
    /// 0 to 999,999.
    pub microsecond: u32,
}

value! {
    /// The duration of a text.
    ///
    /// ```
    /// use speedate::{Duration, ParseError};
    ///
    /// assert_eq!(Duration::parse_str("2 days, 10:20"), Duration::parse_str("P2DT10H20M"));
    /// assert_eq!(Duration::parse_str("P1"), Err(ParseError::DurationInvalidDateUnit));
    /// ```
    Duration by speedate_duration_parse_text under TimeConfig, speedate_duration_to_text
}

impl Value for Duration {
    fn check(&self) -> Result<(), ParseError> {
        ffi::speedate_duration_check(self)
    }

    /// Second and microsecond have one error.
    fn field(&self, error: &ParseError) -> &'static str {
        match error {
            ParseError::DurationDaysTooLarge => "day",
            _ if Self { microsecond: 0, ..self.clone() }.check().is_err() => "second",
            _ => "microsecond",
        }
    }
}

/// The order of lengths with their signs; negative zero is less than zero. If a duration is out of range, its fields decide
/// in the same order: the sign, and then days, seconds and microseconds with it.
impl Ord for Duration {
    fn cmp(&self, other: &Self) -> Ordering {
        ffi::speedate_duration_compare(self, other).map_or_else(|_| self.cmp_fields(other), |order: i32| order.cmp(&0))
    }
}

/// As [`cmp`](Ord::cmp).
impl PartialOrd for Duration {
    fn partial_cmp(&self, other: &Self) -> Option<Ordering> {
        Some(self.cmp(other))
    }
}

impl Duration {
    /// The duration of days, seconds and microseconds of any size, up to 999,999,999 days in all.
    ///
    /// ```
    /// use speedate::Duration;
    ///
    /// let duration = Duration { positive: false, day: 2, second: 101, microsecond: 123 };
    /// assert_eq!(Duration::new(false, 1, 86_500, 1_000_123), Ok(duration));
    /// ```
    ///
    /// # Errors
    ///
    /// [`DurationValueTooLarge`](ParseError::DurationValueTooLarge) if a sum is over 4,294,967,295,
    /// [`DurationDaysTooLarge`](ParseError::DurationDaysTooLarge) if the days are over 999,999,999.
    pub fn new(positive: bool, day: u32, second: u32, microsecond: u32) -> Result<Self, ParseError> {
        Ok(ffi::speedate_duration_normalize(&Self { positive, day, second, microsecond })?)
    }

    /// The duration of a number of microseconds with a sign: each number is one.
    ///
    /// ```
    /// assert_eq!(speedate::Duration::from_signed_microseconds(-1_500_000).to_string(), "-PT1.5S");
    /// ```
    ///
    /// # Panics
    ///
    /// Never: no number of 64 bits has more than 999,999,999 days.
    #[must_use]
    pub fn from_signed_microseconds(microseconds: i64) -> Self {
        ffi::speedate_duration_from_microseconds(microseconds).expect("a number of 64 bits is a duration")
    }

    /// The sum of durations, each with its sign. It is exact, and zero is positive. It calls C for each duration, since
    /// C has the sign in another form, and the package allocates nothing.
    ///
    /// ```
    /// use speedate::Duration;
    ///
    /// let durations = ["PT2H", "-PT30M"].map(|text| Duration::parse_str(text).unwrap());
    /// assert_eq!(Duration::sum(&durations).unwrap().to_string(), "PT1H30M");
    /// ```
    ///
    /// # Errors
    ///
    /// The error of the first field that is out of range; [`DurationDaysTooLarge`](ParseError::DurationDaysTooLarge) if
    /// the sum has more than 999,999,999 days.
    pub fn sum(durations: &[Self]) -> Result<Self, ParseError> {
        durations.iter().try_for_each(Value::check)?;
        // After a sum comes a duration of the other sign, while there is one. So a partial sum is too large only if the
        // whole one is.
        let [mut positive, mut negative] =
            [true, false].map(|sign| durations.iter().filter(move |it| it.positive == sign));
        let mut sum = ffi::duration_sum(&[])?;
        while let Some(next) = if sum.positive {
            negative.next().or_else(|| positive.next())
        } else {
            positive.next().or_else(|| negative.next())
        } {
            sum = ffi::duration_sum(&[(&sum).into(), next.into()])?;
        }
        Ok(sum)
    }

    /// The duration of an input in a form, and its size in bytes, which is that of the input.
    ///
    /// ```
    /// use speedate::{Duration, Form, TimeConfig};
    ///
    /// let config = TimeConfig::default();
    /// let (duration, size) = Duration::parse_or_place(b"PT90M", Form::Text, &config).unwrap();
    /// assert_eq!((duration.second, size), (5_400, 5));
    ///
    /// let refused = Duration::parse_or_place(b"P1D1Q", Form::Text, &config).unwrap_err();
    /// assert_eq!((refused.start, refused.end), (4, 5));
    /// assert_eq!(refused.expected().to_string(), "Y, M, W or D; H, M or S after a T");
    /// ```
    ///
    /// # Errors
    ///
    /// Why and where the input is refused; [`ConfigOutOfRange`](crate::Fault::ConfigOutOfRange) if the form is not
    /// [`Form::Text`], the only one that durations have.
    pub fn parse_or_place(bytes: &[u8], form: Form, config: &TimeConfig) -> Result<(Self, usize), Refused> {
        ffi::speedate_duration_parse_or_part(bytes, form, config)
    }

    /// The duration from one date-time to another, by their instants, which is negative if the other is the earlier one. A
    /// date-time without an offset is taken to be in UTC. It panics if one is out of range.
    ///
    /// ```
    /// use speedate::{DateTime, Duration};
    ///
    /// let start = DateTime::parse_str("2020-02-29T23:00Z").unwrap();
    /// let end = Duration::parse_str("PT90M").unwrap().after(&start).unwrap();
    /// assert_eq!(end.to_string(), "2020-03-01T00:30:00Z");
    /// assert_eq!(Duration::between(&start, &end).to_string(), "PT1H30M");
    /// ```
    #[must_use]
    #[track_caller]
    pub fn between(earlier: &DateTime, later: &DateTime) -> Self {
        (earlier, later).total(ffi::speedate_duration_between(earlier, later))
    }

    /// The date-time that is this duration after another, at its offset.
    ///
    /// # Errors
    ///
    /// The error of the first field that is out of range, first of the duration;
    /// [`DateTooSmall`](ParseError::DateTooSmall) before the year 0000, [`DateTooLarge`](ParseError::DateTooLarge)
    /// after the year 9999.
    pub fn after(&self, start: &DateTime) -> Result<DateTime, ParseError> {
        (self, start).checked(ffi::speedate_datetime_add(start, self))
    }

    /// The date-time that is this duration before another, at its offset.
    ///
    /// # Errors
    ///
    /// The error of the first field that is out of range, first of the duration;
    /// [`DateTooSmall`](ParseError::DateTooSmall) before the year 0000, [`DateTooLarge`](ParseError::DateTooLarge)
    /// after the year 9999.
    pub fn before(&self, start: &DateTime) -> Result<DateTime, ParseError> {
        (self, start).checked(ffi::speedate_duration_before(self, start))
    }

    /// The duration from one date to another, in whole days, which is negative if the other is the earlier one. It panics if
    /// one is out of range.
    ///
    /// ```
    /// use speedate::{Date, Duration};
    ///
    /// let [start, end] = ["2020-02-28", "2020-03-01"].map(|text| Date::parse_str(text).unwrap());
    /// let days = Duration::between_dates(&start, &end);
    /// assert_eq!(days.to_string(), "P2D");
    /// assert_eq!((days.after_date(&start), days.before_date(&end)), (Ok(end), Ok(start)));
    /// ```
    #[must_use]
    #[track_caller]
    pub fn between_dates(earlier: &Date, later: &Date) -> Self {
        (earlier, later).total(ffi::speedate_duration_between_dates(earlier, later))
    }

    /// The date that is this duration after another, or before it if the duration is negative.
    /// [`between_dates`](Self::between_dates) has an example.
    ///
    /// # Errors
    ///
    /// The error of the first field that is out of range, first of the duration;
    /// [`DateNotExact`](ParseError::DateNotExact) if the duration is not whole days,
    /// [`DateTooSmall`](ParseError::DateTooSmall) before the year 0000, [`DateTooLarge`](ParseError::DateTooLarge)
    /// after the year 9999.
    pub fn after_date(&self, start: &Date) -> Result<Date, ParseError> {
        (self, start).checked(ffi::speedate_duration_after_date(self, start))
    }

    /// The date that is this duration before another, or after it if the duration is negative.
    /// [`between_dates`](Self::between_dates) has an example.
    ///
    /// # Errors
    ///
    /// Those of [`after_date`](Self::after_date).
    pub fn before_date(&self, start: &Date) -> Result<Date, ParseError> {
        (self, start).checked(ffi::speedate_duration_before_date(self, start))
    }

    fn cmp_fields(&self, other: &Self) -> Ordering {
        let size = |it: &Self| (it.day, it.second, it.microsecond);
        let order = size(self).cmp(&size(other));
        self.positive.cmp(&other.positive).then(if self.positive { order } else { order.reverse() })
    }

    /// The whole seconds, cut toward zero, with the sign. It panics if the duration is out of range.
    #[must_use]
    #[track_caller]
    pub fn signed_total_seconds(&self) -> i64 {
        self.total(ffi::speedate_duration_signed_total_seconds(self))
    }

    /// The whole milliseconds, cut toward zero, with the sign. It panics if the duration is out of range.
    #[must_use]
    #[track_caller]
    pub fn signed_total_ms(&self) -> i64 {
        self.total(ffi::speedate_duration_signed_total_ms(self))
    }

    /// The microseconds that the whole seconds leave, with the sign. It panics if the duration is out of range.
    #[must_use]
    #[track_caller]
    pub fn signed_microseconds(&self) -> i32 {
        self.total(ffi::speedate_duration_signed_microseconds(self))
    }
}
