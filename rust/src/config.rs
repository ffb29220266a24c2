use core::str::FromStr;

use crate::{ConfigError, MicrosecondsPrecisionOverflowBehavior};

/// The form: how the parsers that are called `parse_or_place` read an input.
///
/// ```
/// use speedate::{DateTime, DateTimeConfig, Form};
///
/// let takes = |text: &str, form| DateTime::parse_or_place(text.as_bytes(), form, &DateTimeConfig::default()).is_ok();
/// let forms = [Form::Text, Form::OrTimestamp, Form::Strict, Form::Loose, Form::Front, Form::LooseFront];
/// let by_each = |text| forms.map(|form| takes(text, form));
/// assert_eq!(by_each("2020-02-29 12:13"), [true, true, false, true, true, true]);
/// assert_eq!(by_each("1582978394.5"), [false, true, false, false, false, false]);
/// assert_eq!(by_each("2020-02-29 12:13:14 UTC"), [false, false, false, true, true, true]);
/// assert_eq!(by_each("2020-02-29T12:13:14Z GET /"), [false, false, false, false, true, true]);
/// ```
#[derive(Debug, Clone, Copy, Default, PartialEq, Eq, Hash)]
#[non_exhaustive]
pub enum Form {
    /// The whole input is the text of a value, and no number is a timestamp. All types have it.
    #[default]
    Text,
    /// The same, or a timestamp. Every whole number is one, `20200229` too. For dates and date-times.
    OrTimestamp,
    /// A text of RFC 3339 and nothing else, without a second 60. For dates, where it is [`Text`](Self::Text), times and
    /// date-times.
    Strict,
    /// The same as [`Text`](Self::Text), but the offset may also be a zone as programs print it: `+01`, or after one space
    /// `UTC`, `GMT`, `+01:00` or `+0100`. For date-times.
    Loose,
    /// The input begins with the text of a value. What follows is up to you: `2026-11-01 08:00:00 -0500` is read without
    /// the offset, and ends at byte 19. For dates, times and date-times.
    Front,
    /// The input begins with a date-time as [`Loose`](Self::Loose) reads it, like a line of a log. Neither a letter nor a
    /// digit follows, nor a `.`, `:`, `+` or `-` with a digit. For date-times.
    LooseFront,
}

/// The unit of timestamps.
///
/// ```
/// use speedate::TimestampUnit::{Infer, Millisecond, Second};
///
/// assert_eq!(["s", "MS", "infer"].map(str::parse), [Ok(Second), Ok(Millisecond), Ok(Infer)]);
/// ```
#[derive(Debug, Clone, Copy, Default, PartialEq)]
pub enum TimestampUnit {
    /// Seconds.
    Second,
    /// Milliseconds.
    Millisecond,
    /// Seconds if the timestamp without its sign is at most 20,000,000,000, otherwise milliseconds.
    #[default]
    Infer,
}

/// The unit of a name, in letters of any case: `s`, `ms` or `infer`.
impl FromStr for TimestampUnit {
    type Err = ConfigError;

    fn from_str(value: &str) -> Result<Self, ConfigError> {
        match value {
            _ if value.eq_ignore_ascii_case("s") => Ok(Self::Second),
            _ if value.eq_ignore_ascii_case("ms") => Ok(Self::Millisecond),
            _ if value.eq_ignore_ascii_case("infer") => Ok(Self::Infer),
            _ => Err(ConfigError::UnknownTimestampUnitString),
        }
    }
}

/// Defines a configuration, and its builder, which has a call for each field, and what was chosen of it, if anything was.
macro_rules! config {
    ($(#[$about:meta])* $name:ident by $builder:ident { $($(#[$is:meta])* $field:ident: $kind:ty as $chosen:ty,)* }) => {
        $(#[$about])*
        #[derive(Debug, Clone, Default, PartialEq)]
        pub struct $name {
            $($(#[$is])* pub $field: $kind,)*
        }

        impl $name {
            /// A builder of the default.
            #[must_use]
            pub fn builder() -> $builder {
                $builder::new()
            }
        }

        #[doc = concat!("Builds a [`", stringify!($name), "`].")]
        #[derive(Debug, Clone, Default)]
        pub struct $builder {
            $($field: $chosen,)*
        }

        impl $builder {
            /// A builder of the default.
            #[must_use]
            pub fn new() -> Self {
                Self::default()
            }

            $(
                #[doc = concat!("Sets `", stringify!($field), "`.")]
                #[must_use]
                pub fn $field(mut self, $field: $kind) -> Self {
                    self.$field = $field.into();
                    self
                }
            )*

            /// The configuration.
            #[must_use]
            pub fn build(self) -> $name {
                $name { $($field: self.$field.map_or_else(Default::default, Into::into),)* }
            }
        }
    };
}

config! {
    /// How dates are parsed.
    DateConfig by DateConfigBuilder {
        /// The unit of timestamps.
        timestamp_unit: TimestampUnit as Option<TimestampUnit>,
    }
}

config! {
    /// How date-times are parsed.
    ///
    /// ```
    /// use speedate::{DateTime, DateTimeConfig, TimeConfig, TimestampUnit};
    ///
    /// let time_config = TimeConfig::builder().unix_timestamp_offset(Some(0)).build();
    /// let unit = TimestampUnit::Second;
    /// let config = DateTimeConfig::builder().timestamp_unit(unit).time_config(time_config).build();
    /// let value = DateTime::parse_str_with_config("86400.5", &config).unwrap();
    /// assert_eq!(value.to_string(), "1970-01-02T00:00:00.500000Z");
    /// ```
    DateTimeConfig by DateTimeConfigBuilder {
        /// The unit of timestamps.
        timestamp_unit: TimestampUnit as Option<TimestampUnit>,
        /// How the time is parsed, and the offset of timestamps.
        time_config: TimeConfig as Option<TimeConfig>,
    }
}

config! {
    /// How times and durations are parsed.
    TimeConfig by TimeConfigBuilder {
        /// What happens to digits past the microsecond.
        microseconds_precision_overflow_behavior: MicrosecondsPrecisionOverflowBehavior
            as Option<MicrosecondsPrecisionOverflowBehavior>,
        /// The offset that the value of a timestamp gets, in seconds: `Some(0)` for Unix time. It is attached, and shifts
        /// nothing. One of a day or more fails with [`OutOfRangeTz`](crate::ParseError::OutOfRangeTz) in a call that takes
        /// timestamps, and with [`ConfigOutOfRange`](crate::Fault::ConfigOutOfRange) in `parse_or_place` of a
        /// [`DateTime`](crate::DateTime), in any form. No other call looks at it.
        unix_timestamp_offset: Option<i32> as Option<i32>,
    }
}
