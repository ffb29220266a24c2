use core::error::Error;
use core::fmt;

use crate::ffi::{Buffer, Code};

/// Defines [`ParseError`]: of each variant the number in C, the name and the documentation text, each once.
macro_rules! parse_errors {
    ($($variant:ident = $number:literal, $name:literal, $text:literal;)*) => {
        /// Why an input, or a value, is refused.
        ///
        /// ```
        /// let error = speedate::Date::parse_str("2021-02-29").unwrap_err();
        /// assert_eq!(error, speedate::ParseError::OutOfRangeDay);
        /// assert_eq!(error.to_string(), "out_of_range_day");
        /// assert_eq!(error.number(), 22);
        /// assert_eq!(error.get_documentation(), Some("day value is outside expected range"));
        /// ```
        ///
        /// [`InvalidCharSecondFraction`](Self::InvalidCharSecondFraction) is used for an error that the package does not
        /// know, as a later library could have one; none of today's gives it.
        #[derive(Debug, PartialEq, Eq, Clone)]
        pub enum ParseError {
            $(#[doc = $text] $variant,)*
        }

        impl ParseError {
            /// The sentence that explains the error. Every error has one.
            #[must_use]
            pub fn get_documentation(&self) -> Option<&'static str> {
                Some(match self {
                    $(Self::$variant => $text,)*
                })
            }

            /// The number of the error, by which C and columns name it: 1 for [`TooShort`](Self::TooShort), the first.
            #[must_use]
            pub fn number(&self) -> u8 {
                match self {
                    $(Self::$variant => $number,)*
                }
            }

            pub(crate) fn name(&self) -> &'static str {
                match self {
                    $(Self::$variant => $name,)*
                }
            }

            /// What is used for an error without a variant here.
            pub(crate) const UNKNOWN: Self = Self::InvalidCharSecondFraction;

            /// The error that has this number in `c/speedate.h`.
            #[inline]
            pub(crate) fn numbered(number: i32) -> Option<Self> {
                match number {
                    $($number => Some(Self::$variant),)*
                    _ => None,
                }
            }
        }
    };
}

parse_errors! {
    TooShort = 1, "too_short", "input is too short";
    ExtraCharacters = 2, "extra_characters", "unexpected extra characters at the end of the input";
    InvalidCharDateTimeSep = 3, "invalid_char_date_time_sep",
        "invalid datetime separator, expected `T`, `t`, `_` or space";
    InvalidCharDateSep = 4, "invalid_char_date_sep", "invalid date separator, expected `-`";
    DateNotExact = 5, "date_not_exact", "Timestamp is not an exact date";
    InvalidCharYear = 6, "invalid_char_year", "invalid character in year";
    InvalidCharMonth = 7, "invalid_char_month", "invalid character in month";
    InvalidCharDay = 8, "invalid_char_day", "invalid character in day";
    InvalidCharTimeSep = 9, "invalid_char_time_sep", "invalid time separator, expected `:`";
    InvalidCharHour = 10, "invalid_char_hour", "invalid character in hour";
    InvalidCharMinute = 11, "invalid_char_minute", "invalid character in minute";
    InvalidCharSecond = 12, "invalid_char_second", "invalid character in second";
    InvalidCharSecondFraction = 13, "invalid_char_second_fraction", "invalid character in second fraction";
    InvalidCharTzSign = 14, "invalid_char_tz_sign", "invalid timezone sign";
    InvalidCharTzHour = 15, "invalid_char_tz_hour", "invalid timezone hour";
    InvalidCharTzMinute = 16, "invalid_char_tz_minute", "invalid timezone minute";
    OutOfRangeTzMinute = 17, "out_of_range_tz_minute", "timezone minute value is outside expected range of 0-59";
    OutOfRangeTz = 18, "out_of_range_tz", "timezone offset must be less than 24 hours";
    TzRequired = 19, "tz_required", "timezone is required to adjust to a new timezone";
    SystemTimeError = 20, "system_time_error", "Error getting system time";
    OutOfRangeMonth = 21, "out_of_range_month", "month value is outside expected range of 1-12";
    OutOfRangeDay = 22, "out_of_range_day", "day value is outside expected range";
    OutOfRangeHour = 23, "out_of_range_hour", "hour value is outside expected range of 0-23";
    OutOfRangeMinute = 24, "out_of_range_minute", "minute value is outside expected range of 0-59";
    OutOfRangeSecond = 25, "out_of_range_second", "second value is outside expected range of 0-59";
    SecondFractionTooLong = 26, "second_fraction_too_long", "second fraction value is more than 6 digits long";
    SecondFractionMissing = 27, "second_fraction_missing", "second fraction digits missing after `.`";
    MillisecondFractionTooLong = 28, "millisecond_fraction_too_long",
        "millisecond fraction value is more than 3 digits long";
    DurationInvalidNumber = 29, "duration_invalid_number", "invalid digit in duration";
    DurationTRepeated = 30, "duration_t_repeated", "`t` character repeated in duration";
    DurationInvalidFraction = 31, "duration_invalid_fraction", "quantity fraction invalid in duration";
    DurationInvalidTimeUnit = 32, "duration_invalid_time_unit", "quantity invalid in time part of duration";
    DurationInvalidDateUnit = 33, "duration_invalid_date_unit", "quantity invalid in date part of duration";
    DurationInvalidDays = 34, "duration_invalid_days", "\"day\" identifier in duration not correctly formatted";
    DurationValueTooLarge = 35, "duration_value_too_large", "a numeric value in the duration is too large";
    DurationHourValueTooLarge = 36, "duration_hour_value_too_large", "durations may not exceed 999,999,999 hours";
    DurationDaysTooLarge = 37, "duration_days_too_large", "durations may not exceed 999,999,999 days";
    DateTooSmall = 38, "date_too_small", "dates before 0000 are not supported as unix timestamps";
    DateTooLarge = 39, "date_too_large", "dates after 9999 are not supported as unix timestamps";
    TimeTooLarge = 40, "time_too_large", "numeric times may not exceed 86,399 seconds";
}

/// Writes the name of the error: `too_short`.
impl fmt::Display for ParseError {
    fn fmt(&self, f: &mut fmt::Formatter<'_>) -> fmt::Result {
        f.pad(self.name())
    }
}

impl Error for ParseError {}

/// Why an input is refused, or a line of a column. Each fault has the name and the number that it has in C.
///
/// ```
/// use speedate::{Fault, ParseError};
///
/// let fault = Fault::Parse(ParseError::OutOfRangeDay);
/// assert_eq!((fault.number(), fault.to_string()), (22, "out_of_range_day".to_owned()));
/// assert_eq!([0, 22, 97].map(Fault::numbered), [None, Some(fault), Some(Fault::NumberTooLarge)]);
/// ```
#[derive(Debug, PartialEq, Eq, Clone)]
#[non_exhaustive]
pub enum Fault {
    /// The input is wrong, or lacks an offset that the reader of a column needs: then with
    /// [`TzRequired`](ParseError::TzRequired).
    Parse(ParseError),
    /// A column has no number for the value, such as `P999999999D` in microseconds.
    NumberTooLarge,
    /// The type does not have the [`Form`](crate::Form), or the configured offset of timestamps is a day or more.
    ConfigOutOfRange,
}

impl Fault {
    /// The number of the fault, from the [`ParseError`](ParseError::number), 97 for
    /// [`NumberTooLarge`](Self::NumberTooLarge), and 102 for [`ConfigOutOfRange`](Self::ConfigOutOfRange).
    #[must_use]
    pub fn number(&self) -> u8 {
        match self {
            Self::Parse(error) => error.number(),
            Self::NumberTooLarge => Code::NUMBER_TOO_LARGE.number(),
            Self::ConfigOutOfRange => Code::CONFIG_OUT_OF_RANGE.number(),
        }
    }

    /// The fault of a number that a column has written for a line. It is `None` for 0, which is a line without a fault;
    /// [`ParseError`] says which error is used for a number that the package does not know.
    #[must_use]
    pub fn numbered(number: u8) -> Option<Self> {
        (number != 0).then(|| Code::from(number).into())
    }

    fn name(&self) -> &'static str {
        match self {
            Self::Parse(error) => error.name(),
            Self::NumberTooLarge => "number_too_large",
            Self::ConfigOutOfRange => "config_out_of_range",
        }
    }
}

/// Writes the name of the fault: `too_short`.
impl fmt::Display for Fault {
    fn fmt(&self, f: &mut fmt::Formatter<'_>) -> fmt::Result {
        f.pad(self.name())
    }
}

impl Error for Fault {}

/// Why and where an input is refused, or a line of a column: the fault, and the bytes from `start` on that come before
/// `end`.
///
/// ```
/// use speedate::{Date, Fault, Form, ParseError};
///
/// let refused = Date::parse_or_place(b"2020-13-01", Form::Text, &Default::default()).unwrap_err();
/// assert_eq!(refused.fault, Fault::Parse(ParseError::OutOfRangeMonth));
/// assert_eq!((refused.start, refused.end), (5, 7));
/// assert_eq!(refused.expected().to_string(), "month, 01 to 12");
/// assert_eq!(refused.to_string(), "out_of_range_month at byte 5: expected month, 01 to 12");
/// ```
#[derive(Debug, PartialEq, Eq, Clone)]
pub struct Refused {
    /// The fault.
    pub fault: Fault,
    /// Where the part begins that the fault is about, or would begin if it is missing: at most the size of the input.
    /// This and the end are 0 if the fault is not about an input: if the configuration is out of range, or a number is
    /// not printed.
    pub start: usize,
    /// Where the part ends: at its start if it is missing.
    pub end: usize,
    pub(crate) expected: Expected,
}

impl Refused {
    /// What was expected in place of these bytes: a phrase for people, of at most 63 bytes. It depends on the form too.
    ///
    /// ```
    /// use speedate::{Form, Time};
    ///
    /// let expected = |text: &str, form| {
    ///     let refused = Time::parse_or_place(text.as_bytes(), form, &Default::default()).unwrap_err();
    ///     refused.expected().to_string()
    /// };
    /// assert_eq!(expected("12:60", Form::Text), "minute, 00 to 59");
    /// assert_eq!(expected("1:30", Form::Text), "a time: HH:MM or HH:MM:SS");
    /// assert_eq!(expected("1:30", Form::Strict), "a time with an offset: HH:MM:SSZ or HH:MM:SS+01:00");
    /// ```
    #[must_use]
    pub fn expected(&self) -> impl fmt::Display + fmt::Debug {
        self.expected
    }

    /// The error with which a call of the crate refuses the input.
    pub(crate) fn error(self) -> ParseError {
        self.expected.code.into()
    }
}

/// What is printed once it is asked for: the texts are in the library.
#[derive(Debug, PartialEq, Eq, Clone, Copy)]
pub(crate) struct Expected {
    /// The code of the fault, which may be one of a later library.
    pub(crate) code: Code,
    /// What C read the input as: 0 if there is none.
    pub(crate) kind: i32,
}

impl fmt::Display for Expected {
    fn fmt(&self, f: &mut fmt::Formatter<'_>) -> fmt::Result {
        f.pad(Buffer::new().speedate_code_expected(self.code, self.kind).map_err(|_| fmt::Error)?)
    }
}

/// Writes the fault, where the part begins, and what was expected: `out_of_range_month at byte 5: expected month, 01 to 12`.
/// A fault that is not about an input has no byte.
impl fmt::Display for Refused {
    fn fmt(&self, f: &mut fmt::Formatter<'_>) -> fmt::Result {
        f.write_str(self.fault.name())?;
        if self.expected.kind != 0 {
            write!(f, " at byte {}", self.start)?;
        }
        write!(f, ": expected {}", self.expected)
    }
}

impl Error for Refused {}

/// Why the name of a choice is refused.
#[derive(Debug, PartialEq, Eq, Clone)]
pub enum ConfigError {
    /// A behavior is `error` or `truncate`.
    UnknownMicrosecondsPrecisionOverflowBehaviorString,
    /// A unit is `s`, `ms` or `infer`.
    UnknownTimestampUnitString,
}

impl ConfigError {
    /// None: these errors have no sentences.
    #[must_use]
    pub fn get_documentation(&self) -> Option<&'static str> {
        None
    }
}

/// Writes the name of the error: `unknown_timestamp_unit_string`.
impl fmt::Display for ConfigError {
    fn fmt(&self, f: &mut fmt::Formatter<'_>) -> fmt::Result {
        f.pad(match self {
            Self::UnknownMicrosecondsPrecisionOverflowBehaviorString => {
                "unknown_microseconds_precision_overflow_behavior_string"
            }
            Self::UnknownTimestampUnitString => "unknown_timestamp_unit_string",
        })
    }
}

impl Error for ConfigError {}

#[cfg(test)]
mod tests {
    use super::*;

    #[test]
    fn numbers_names_and_texts_are_those_of_c() {
        for number in 1..=40 {
            let error = ParseError::numbered(number).unwrap();
            assert_eq!(i32::from(error.number()), number);
            assert_eq!(Buffer::new().speedate_code_documentation(number).ok(), error.get_documentation());
        }
        for number in (1..=40).chain([97, 102]) {
            let fault = Fault::numbered(number).unwrap();
            assert_eq!(fault.number(), number);
            assert_eq!(Buffer::new().speedate_code_name(i32::from(number)), Ok(&*fault.to_string()));
        }
    }
}
