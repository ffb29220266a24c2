//! What all types have: texts, and public fields, which may be out of range, since anyone can set them.

use core::fmt::Debug;

use crate::ffi::Code;
use crate::ParseError;

pub(crate) trait Value: Debug {
    /// The error of the first field that is out of range.
    fn check(&self) -> Result<(), ParseError>;

    /// The field that an error of [`check`](Self::check) is about.
    fn field(&self, error: &ParseError) -> &'static str {
        match error {
            ParseError::DateTooLarge => "year",
            ParseError::OutOfRangeMonth => "month",
            ParseError::OutOfRangeDay => "day",
            ParseError::OutOfRangeHour => "hour",
            ParseError::OutOfRangeMinute => "minute",
            ParseError::OutOfRangeSecond => "second",
            ParseError::TimeTooLarge => "microsecond",
            _ => "tz_offset",
        }
    }

    /// The answer of a call that can refuse: a value out of range has the error of its field.
    fn checked<T>(&self, answer: Result<T, Code>) -> Result<T, ParseError> {
        answer.map_err(|code| match code {
            Code::VALUE_OUT_OF_RANGE => self.check().err().unwrap_or(ParseError::UNKNOWN),
            _ => code.into(),
        })
    }

    /// The answer of a call that refuses nothing but a value out of range.
    #[track_caller]
    fn total<T>(&self, answer: Result<T, Code>) -> T {
        match answer {
            Ok(it) => it,
            Err(_) => out_of_range(self),
        }
    }
}

/// The values of a call that takes two.
impl<A: Value, B: Value> Value for (&A, &B) {
    fn check(&self) -> Result<(), ParseError> {
        self.0.check().and_then(|()| self.1.check())
    }
}

#[cold]
#[track_caller]
fn out_of_range<V: Value + ?Sized>(value: &V) -> ! {
    let field = value.check().err().map_or("a field", |error| value.field(&error));
    panic!("`{field}` is out of range in {value:?}")
}

/// Defines how values of a type are parsed, printed and, unless there is more to say of it, checked, by its functions of C.
macro_rules! value {
    (
        $(#[$parse_str:meta])*
        $name:ident by $parse:ident under $config:ident, $to_text:ident $(with $digits:ident)? $(, $check:ident)?
    ) => {
        $(impl Value for $name {
            fn check(&self) -> Result<(), ParseError> {
                ffi::$check(self)
            }
        })?

        /// Writes the text. It panics if the value is out of range.
        impl core::fmt::Display for $name {
            fn fmt(&self, f: &mut core::fmt::Formatter<'_>) -> core::fmt::Result {
                let mut buffer = ffi::Buffer::new();
                $(let $digits = match f.precision() {
                    Some(digits @ (0 | 3 | 6)) => digits as i32,
                    _ => ffi::DIGITS_AUTO,
                };)?
                f.write_str(self.total(buffer.$to_text(self $(, $digits)?)))
            }
        }

        /// As `parse_str`.
        impl core::str::FromStr for $name {
            type Err = ParseError;

            fn from_str(s: &str) -> Result<Self, Self::Err> {
                Self::parse_str(s)
            }
        }

        impl $name {
            $(#[$parse_str])*
            ///
            /// # Errors
            ///
            /// Why the text is refused.
            #[inline]
            pub fn parse_str(str: &str) -> Result<Self, ParseError> {
                Self::parse_bytes(str.as_bytes())
            }

            /// [`parse_str`](Self::parse_str) of bytes.
            ///
            /// # Errors
            ///
            /// Why the text is refused.
            #[inline]
            pub fn parse_bytes(bytes: &[u8]) -> Result<Self, ParseError> {
                Self::parse_bytes_with_config(bytes, &$config::default())
            }

            /// [`parse_str`](Self::parse_str) of bytes, with a configuration.
            ///
            /// # Errors
            ///
            /// Why the text is refused; of a date-time also [`OutOfRangeTz`](ParseError::OutOfRangeTz), whatever the text, if the
            /// configured offset is a day or more.
            #[inline]
            pub fn parse_bytes_with_config(bytes: &[u8], config: &$config) -> Result<Self, ParseError> {
                Ok(ffi::$parse(bytes, config)?)
            }
        }
    };
}
pub(crate) use value;
