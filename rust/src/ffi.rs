//! The functions of `c/speedate_packages.h` and `c/speedate.h`, each declared beside the safe function that calls it. This is the one file with
//! unsafe code.

use core::ffi::c_int;
use core::mem::{offset_of, size_of, MaybeUninit};
use core::ptr::read_volatile;
use core::slice::from_raw_parts;
use core::str::from_utf8_unchecked;

use crate::error::Expected;
use crate::{
    Date, DateTime, Duration, Fault, Form, LineConfig, MicrosecondsPrecisionOverflowBehavior, ParseError, Progress,
    Refused, Time, TimestampUnit,
};

/// Why a call fails.
#[derive(Clone, Copy, Debug, PartialEq, Eq)]
pub(crate) struct Code(c_int);

impl Code {
    const OK: Self = Self(0);
    pub(crate) const NUMBER_TOO_LARGE: Self = Self(97);
    pub(crate) const VALUE_OUT_OF_RANGE: Self = Self(101);
    pub(crate) const CONFIG_OUT_OF_RANGE: Self = Self(102);

    /// The number of one of these.
    pub(crate) fn number(self) -> u8 {
        self.0 as u8
    }
}

/// The digits of a second that are printed if nobody asks for others.
pub(crate) const DIGITS_AUTO: c_int = -1;

impl From<u8> for Code {
    fn from(number: u8) -> Self {
        Self(number.into())
    }
}

impl From<Code> for Fault {
    fn from(code: Code) -> Self {
        match code {
            Code::NUMBER_TOO_LARGE => Self::NumberTooLarge,
            Code::CONFIG_OUT_OF_RANGE => Self::ConfigOutOfRange,
            code => Self::Parse(code.into()),
        }
    }
}

impl From<Code> for ParseError {
    #[inline]
    fn from(code: Code) -> Self {
        match code {
            // Only the offset of a configuration can be out of range.
            Code::CONFIG_OUT_OF_RANGE => Self::OutOfRangeTz,
            Code(number) => Self::numbered(number).unwrap_or(Self::UNKNOWN),
        }
    }
}

/// What C writes.
trait Written {
    /// The value, of which each number is loaded on its own. C has written a struct by small stores, and the compiler would
    /// join these loads into a wide one, which no single store in the processor's store buffer can serve.
    fn load(&self) -> Self;
}

macro_rules! numbers {
    ($($kind:ty)*) => {$(
        impl Written for $kind {
            #[inline(always)]
            fn load(&self) -> Self {
                // SAFETY: a reference is aligned, and what it refers to is initialized.
                unsafe { read_volatile(self) }
            }
        }
    )*};
}

numbers!(u8 u16 u32 i32 i64 usize);

/// Defines structs of the header, and asserts that their sizes and offsets are those that the C compiler gives them.
macro_rules! structs {
    ($(struct $name:ident is $size:literal { $($field:ident: $kind:ty = $offset:literal),* })*) => {$(
        #[repr(C)]
        #[derive(Clone, Copy, Default)]
        pub(crate) struct $name {
            $($field: $kind),*
        }

        const _: () = assert!(size_of::<$name>() == $size $(&& offset_of!($name, $field) == $offset)*);

        impl Written for $name {
            #[inline(always)]
            fn load(&self) -> Self {
                Self { $($field: self.$field.load()),* }
            }
        }
    )*};
}

structs! {
    struct CDate is 4 { year: u16 = 0, month: u8 = 2, day: u8 = 3 }
    struct CTime is 12 {
        hour: u8 = 0, minute: u8 = 1, second: u8 = 2, has_offset: u8 = 3, microsecond: u32 = 4, offset: i32 = 8
    }
    struct CDateTime is 16 { date: CDate = 0, time: CTime = 4 }
    struct CDuration is 16 { negative: u32 = 0, day: u32 = 4, second: u32 = 8, microsecond: u32 = 12 }
    struct Config is 8 {
        timestamp_offset: i32 = 0, has_timestamp_offset: u8 = 4, timestamp_unit: u8 = 5, overflow_behavior: u8 = 6,
        iso_order: u8 = 7
    }
    struct ColumnConfig is 5 {
        at_end: u8 = 0, drops_returns: u8 = 1, parser: u8 = 2, assumes_utc: u8 = 3, goes_on: u8 = 4
    }
    struct CPart is 24 { start: usize = 0, end: usize = 8, kind: i32 = 16 }
    struct CProgress is 48 { lines: usize = 0, bytes: usize = 8, error: i32 = 16, part: CPart = 24 }
}

/// The default has 0 in each field.
impl Config {
    pub(crate) fn unit(self, unit: TimestampUnit) -> Self {
        let timestamp_unit = match unit {
            TimestampUnit::Infer => 0,
            TimestampUnit::Second => 1,
            TimestampUnit::Millisecond => 2,
        };
        Self { timestamp_unit, ..self }
    }

    pub(crate) fn behavior(self, behavior: MicrosecondsPrecisionOverflowBehavior) -> Self {
        let overflow_behavior = match behavior {
            MicrosecondsPrecisionOverflowBehavior::Error => 0,
            MicrosecondsPrecisionOverflowBehavior::Truncate => 1,
        };
        Self { overflow_behavior, ..self }
    }

    pub(crate) fn offset(self, offset: Option<i32>) -> Self {
        let (has_timestamp_offset, timestamp_offset) = flagged(offset);
        Self { has_timestamp_offset, timestamp_offset, ..self }
    }
}

/// The default has 0 in each field; each call sets the lines.
impl ColumnConfig {
    pub(crate) fn form(self, form: Form) -> Self {
        Self { parser: form as u8, ..self }
    }

    pub(crate) fn assumes_utc(self, assumes_utc: bool) -> Self {
        Self { assumes_utc: assumes_utc.into(), ..self }
    }

    fn lines(self, LineConfig { at_end, drops_returns }: LineConfig) -> Self {
        Self { at_end: at_end.into(), drops_returns: drops_returns.into(), ..self }
    }
}

/// Whether there is an offset, and the offset.
fn flagged(offset: Option<i32>) -> (u8, i32) {
    (offset.is_some().into(), offset.unwrap_or_default())
}

impl From<&Date> for CDate {
    fn from(&Date { year, month, day }: &Date) -> Self {
        Self { year, month, day }
    }
}

impl From<&Time> for CTime {
    fn from(&Time { hour, minute, second, microsecond, tz_offset }: &Time) -> Self {
        let (has_offset, offset) = flagged(tz_offset);
        Self { hour, minute, second, has_offset, microsecond, offset }
    }
}

impl From<&DateTime> for CDateTime {
    fn from(DateTime { date, time }: &DateTime) -> Self {
        Self { date: date.into(), time: time.into() }
    }
}

impl From<&Duration> for CDuration {
    fn from(&Duration { positive, day, second, microsecond }: &Duration) -> Self {
        Self { negative: (!positive).into(), day, second, microsecond }
    }
}

impl From<CDate> for Date {
    fn from(CDate { year, month, day }: CDate) -> Self {
        Self { year, month, day }
    }
}

impl From<CTime> for Time {
    fn from(CTime { hour, minute, second, has_offset, microsecond, offset }: CTime) -> Self {
        Self { hour, minute, second, microsecond, tz_offset: (has_offset == 1).then_some(offset) }
    }
}

impl From<CDateTime> for DateTime {
    fn from(CDateTime { date, time }: CDateTime) -> Self {
        Self { date: date.into(), time: time.into() }
    }
}

impl From<CDuration> for Duration {
    fn from(CDuration { negative, day, second, microsecond }: CDuration) -> Self {
        Self { positive: negative == 0, day, second, microsecond }
    }
}

impl CPart {
    /// Why a text is refused, by the code of the call that has written the part.
    #[cold]
    fn refused(self, code: Code) -> Refused {
        let Self { start, end, kind } = self;
        Refused { fault: code.into(), start, end, expected: Expected { code, kind } }
    }
}

impl From<CProgress> for Progress {
    fn from(CProgress { lines, bytes, error, part }: CProgress) -> Self {
        let code = Code(error);
        Self { lines, bytes, error: (code != Code::OK).then(|| part.refused(code)) }
    }
}

/// Fails, where code is made for it, if the build script has refused the library: checks and documentation make none.
fn assert_linked() {
    const { assert!(env!("SPEEDATE_REFUSED").is_empty(), "{}", env!("SPEEDATE_REFUSED")) }
}

/// What a call writes, if it returns 0.
#[inline(always)]
fn written<C: Written, T: From<C>>(call: impl FnOnce(*mut C) -> c_int) -> Result<T, Code> {
    assert_linked();
    let mut out = MaybeUninit::<C>::uninit();
    match call(out.as_mut_ptr()) {
        // SAFETY: a call that returns 0 has written all of its output.
        0 => Ok(unsafe { out.assume_init_ref() }.load().into()),
        code => Err(Code(code)),
    }
}

/// Functions that write a value, of a text or of other values.
macro_rules! calls {
    ($(fn $name:ident($([$text:ident])? $($argument:ident: $kind:ty),*) -> $answer:ty;)*) => {$(
        #[inline]
        pub(crate) fn $name<T: From<$answer>>(
            $($text: &[u8],)? $($argument: impl Into<$kind>),*
        ) -> Result<T, Code> {
            unsafe extern "C" {
                fn $name($($text: *const u8, size: usize,)? $($argument: $kind,)* out: *mut $answer) -> c_int;
            }
            // SAFETY: the types are the header's; address and size are those of the text, and `out` is a variable's.
            written(|out| unsafe { $name($($text.as_ptr(), $text.len(),)? $($argument.into(),)* out) })
        }
    )*};
}

/// Parsers that write the value and its size, or the part for which a text is refused.
macro_rules! calls_or_part {
    ($(fn $name:ident([$text:ident] $form:ident: c_int, $config:ident: Config) -> $answer:ty;)*) => {$(
        #[inline]
        pub(crate) fn $name<T: From<$answer>>(
            $text: &[u8], $form: Form, $config: impl Into<Config>
        ) -> Result<(T, usize), Refused> {
            unsafe extern "C" {
                fn $name(
                    $text: *const u8, size: usize, $form: c_int, $config: Config, out: *mut $answer, part: *mut CPart,
                ) -> c_int;
            }
            let mut part = CPart::default();
            // SAFETY: as for the calls above; `part` is a variable's address too.
            let answer = written(|out| unsafe {
                $name($text.as_ptr(), $text.len(), $form as c_int, $config.into(), out, &mut part)
            });
            match answer {
                Ok(value) => Ok((value, part.end)),
                Err(code) => Err(part.refused(code)),
            }
        }
    )*};
}

/// Functions that write the numbers of the lines of a text, or of the texts at offsets, their errors if there is a place for
/// one, and how far they came.
macro_rules! columns {
    ($(
        fn $name:ident(
            [$text:ident] $([$offsets:ident])? $config:ident: Config, $column:ident: ColumnConfig,
            $([$slice:ident: $number:ty]),*
        );
    )*) => {$(
        #[inline]
        pub(crate) fn $name<R>(
            $text: &[u8], $($offsets: &[i32],)? lines: LineConfig, reader: &R, $($slice: &mut [$number]),*
        ) -> Result<Progress, Code>
        where
            for<'a> &'a R: Into<(Config, ColumnConfig)>,
        {
            unsafe extern "C" {
                fn $name(
                    $text: *const u8, size: usize, $($offsets: *const i32, count: usize,)? $config: Config,
                    $column: ColumnConfig, $($slice: *mut $number, _: usize,)* progress: *mut CProgress,
                ) -> c_int;
            }
            let ($config, $column) = reader.into();
            let $column = $column.lines(lines);
            // SAFETY: the types are the header's; addresses and sizes are those of the text and of slices, which do not
            // overlap it or one another, and `progress` is a variable's address.
            written(|progress| unsafe {
                $name(
                    $text.as_ptr(), $text.len(), $($offsets.as_ptr(), $offsets.len(),)? $config, $column,
                    $($slice.as_mut_ptr(), $slice.len(),)* progress,
                )
            })
        }
    )*};
}

unsafe extern "C" {
    fn speedate_duration_sum(durations: *const CDuration, count: usize, out: *mut CDuration) -> c_int;
}

/// The sum of durations in range.
pub(crate) fn duration_sum(durations: &[CDuration]) -> Result<Duration, Code> {
    // SAFETY: the types are the header's; address and number are those of the slice, and `out` is a variable's.
    written(|out: *mut CDuration| unsafe { speedate_duration_sum(durations.as_ptr(), durations.len(), out) })
}

/// Functions that print numbers as the lines of a text.
macro_rules! print_columns {
    ($(fn $name:ident($numbers:ident: *const $number:ty, count: usize, flags: u32);)*) => {$(
        #[inline]
        pub(crate) fn $name($numbers: &[$number], flags: u32, buffer: &mut [u8]) -> Progress {
            unsafe extern "C" {
                fn $name(
                    $numbers: *const $number, count: usize, flags: u32, buffer: *mut u8, size: usize,
                    progress: *mut CProgress,
                ) -> c_int;
            }
            // SAFETY: the types are the header's; addresses and sizes are those of slices, which do not overlap, and
            // `progress` is a variable's address.
            written(|progress| unsafe {
                $name($numbers.as_ptr(), $numbers.len(), flags, buffer.as_mut_ptr(), buffer.len(), progress)
            })
            .expect("it refuses nothing")
        }
    )*};
}

/// Functions that say whether a value is in range.
macro_rules! checks {
    ($(fn $name:ident($value:ident: $kind:ty);)*) => {$(
        #[inline]
        pub(crate) fn $name($value: impl Into<$kind>) -> Result<(), ParseError> {
            unsafe extern "C" {
                fn $name($value: $kind) -> c_int;
            }
            // SAFETY: the type is the header's.
            match unsafe { $name($value.into()) } {
                0 => Ok(()),
                code => Err(Code(code).into()),
            }
        }
    )*};
}

/// Room for each text that is printed.
pub(crate) struct Buffer([MaybeUninit<u8>; 64]);

impl Buffer {
    pub(crate) fn new() -> Self {
        Self([MaybeUninit::uninit(); 64])
    }

    /// The text that a call prints, which is given the buffer, its size, and where the text's length goes.
    #[inline]
    fn printed(&mut self, call: impl FnOnce(*mut u8, usize, *mut usize) -> c_int) -> Result<&str, Code> {
        let (text, size): (*mut u8, usize) = (self.0.as_mut_ptr().cast(), self.0.len());
        let length: usize = written(|length| call(text, size, length))?;
        // SAFETY: the call has written so many bytes into the buffer, and all are ASCII.
        Ok(unsafe { from_utf8_unchecked(from_raw_parts(text, length)) })
    }

    pub(crate) fn speedate_code_expected(&mut self, Code(code): Code, kind: i32) -> Result<&str, Code> {
        unsafe extern "C" {
            fn speedate_code_expected(
                code: c_int,
                part: *const CPart,
                buffer: *mut u8,
                size: usize,
                length: *mut usize,
            ) -> c_int;
        }
        // The part is read only for its kind.
        let part = CPart { kind, ..CPart::default() };
        // SAFETY: as for the calls below; `part` is a variable's address.
        self.printed(|text, size, length| unsafe { speedate_code_expected(code, &part, text, size, length) })
    }
}

/// Functions that print a value, or a text of numbers.
macro_rules! printers {
    ($(fn $name:ident($($value:ident: $kind:ty),*);)*) => {
        impl Buffer {$(
            #[inline]
            pub(crate) fn $name(&mut self, $($value: impl Into<$kind>),*) -> Result<&str, Code> {
                unsafe extern "C" {
                    fn $name($($value: $kind,)* buffer: *mut u8, size: usize, length: *mut usize) -> c_int;
                }
                // SAFETY: the types are the header's; address and size are the buffer's, and `length` is a variable's.
                self.printed(|text, size, length| unsafe { $name($($value.into(),)* text, size, length) })
            }
        )*}
    };
}

calls! {
    fn speedate_date_parse_or_timestamp([text] config: Config) -> CDate;
    fn speedate_date_parse_text([text]) -> CDate;
    fn speedate_date_from_timestamp(timestamp: i64, require_exact: u8, config: Config) -> CDate;
    fn speedate_date_timestamp(date: CDate) -> i64;
    fn speedate_date_timestamp_ms(date: CDate) -> i64;
    fn speedate_date_ordinal_day(date: CDate) -> u16;
    fn speedate_date_add_days(date: CDate, days: i32) -> CDate;
    fn speedate_date_days_between(earlier: CDate, later: CDate) -> i32;
    fn speedate_time_parse_text([text] config: Config) -> CTime;
    fn speedate_time_parse_strict([text] config: Config) -> CTime;
    fn speedate_time_compare(first: CTime, second: CTime) -> i32;
    fn speedate_time_from_timestamp(second: u32, microsecond: u32, config: Config) -> CTime;
    fn speedate_time_total_seconds(time: CTime) -> u32;
    fn speedate_time_total_ms(time: CTime) -> u32;
    fn speedate_time_in_timezone(time: CTime, offset: i32) -> CTime;
    fn speedate_datetime_parse_or_timestamp([text] config: Config) -> CDateTime;
    fn speedate_datetime_parse_text([text] config: Config) -> CDateTime;
    fn speedate_datetime_parse_strict([text] config: Config) -> CDateTime;
    fn speedate_datetime_compare(first: CDateTime, second: CDateTime) -> i32;
    fn speedate_datetime_of_timestamp(timestamp: i64, microsecond: u32, config: Config) -> CDateTime;
    fn speedate_datetime_clock_seconds(value: CDateTime) -> i64;
    fn speedate_datetime_clock_milliseconds(value: CDateTime) -> i64;
    fn speedate_datetime_unix_seconds(value: CDateTime) -> i64;
    fn speedate_datetime_unix_milliseconds(value: CDateTime) -> i64;
    fn speedate_datetime_unix_microseconds(value: CDateTime) -> i64;
    fn speedate_datetime_in_timezone(value: CDateTime, offset: i32) -> CDateTime;
    fn speedate_duration_parse_text([text] config: Config) -> CDuration;
    fn speedate_duration_normalize(numbers: CDuration) -> CDuration;
    fn speedate_duration_compare(first: CDuration, second: CDuration) -> i32;
    fn speedate_duration_signed_total_seconds(duration: CDuration) -> i64;
    fn speedate_duration_signed_total_ms(duration: CDuration) -> i64;
    fn speedate_duration_microseconds(duration: CDuration) -> i64;
    fn speedate_duration_signed_microseconds(duration: CDuration) -> i32;
    fn speedate_duration_from_microseconds(microseconds: i64) -> CDuration;
    fn speedate_duration_between(earlier: CDateTime, later: CDateTime) -> CDuration;
    fn speedate_datetime_add(value: CDateTime, duration: CDuration) -> CDateTime;
    fn speedate_duration_before(duration: CDuration, start: CDateTime) -> CDateTime;
    fn speedate_duration_between_dates(earlier: CDate, later: CDate) -> CDuration;
    fn speedate_duration_after_date(duration: CDuration, start: CDate) -> CDate;
    fn speedate_duration_before_date(duration: CDuration, start: CDate) -> CDate;
    fn speedate_int_parse([text]) -> i64;
}

calls_or_part! {
    fn speedate_date_parse_or_part([text] form: c_int, config: Config) -> CDate;
    fn speedate_time_parse_or_part([text] form: c_int, config: Config) -> CTime;
    fn speedate_datetime_parse_or_part([text] form: c_int, config: Config) -> CDateTime;
    fn speedate_duration_parse_or_part([text] form: c_int, config: Config) -> CDuration;
}

columns! {
    fn speedate_date_lines([text] config: Config, column: ColumnConfig, [out: i32], [errors: u8]);
    fn speedate_datetime_lines([text] config: Config, column: ColumnConfig, [out: i64], [errors: u8]);
    fn speedate_datetime_clock_column([text] config: Config, column: ColumnConfig, [out: i64], [errors: u8]);
    fn speedate_datetime_offset_lines([text] config: Config, column: ColumnConfig, [out: i32], [errors: u8]);
    fn speedate_time_lines([text] config: Config, column: ColumnConfig, [out: i64], [errors: u8]);
    fn speedate_time_offset_lines([text] config: Config, column: ColumnConfig, [out: i32], [errors: u8]);
    fn speedate_duration_lines([text] config: Config, column: ColumnConfig, [out: i64], [errors: u8]);
    fn speedate_date_texts([bytes] [offsets] config: Config, column: ColumnConfig, [out: i32], [errors: u8]);
    fn speedate_datetime_texts([bytes] [offsets] config: Config, column: ColumnConfig, [out: i64], [errors: u8]);
    fn speedate_time_texts([bytes] [offsets] config: Config, column: ColumnConfig, [out: i64], [errors: u8]);
    fn speedate_duration_texts([bytes] [offsets] config: Config, column: ColumnConfig, [out: i64], [errors: u8]);
}

print_columns! {
    fn speedate_date_print_column(days: *const i32, count: usize, flags: u32);
    fn speedate_datetime_print_column(microseconds: *const i64, count: usize, flags: u32);
    fn speedate_time_print_column(microseconds: *const i64, count: usize, flags: u32);
    fn speedate_duration_print_column(microseconds: *const i64, count: usize, flags: u32);
}

checks! {
    fn speedate_date_check(date: CDate);
    fn speedate_time_check(time: CTime);
    fn speedate_datetime_check(value: CDateTime);
    fn speedate_duration_check(duration: CDuration);
}

printers! {
    fn speedate_date_to_text(date: CDate);
    fn speedate_time_to_text(time: CTime, digits: c_int);
    fn speedate_datetime_to_text(value: CDateTime, digits: c_int);
    fn speedate_duration_to_text(duration: CDuration);
}

#[cfg(test)]
printers! {
    fn speedate_code_name(code: c_int);
    fn speedate_code_documentation(code: c_int);
}

#[cfg(test)]
mod tests {
    use super::*;

    #[test]
    fn unknown_codes_have_one_error() {
        for number in [c_int::MIN, -1, 0, 41, 42, 43, 97, 98, 99, 100, 101, 103, 104, c_int::MAX] {
            assert_eq!(ParseError::from(Code(number)), ParseError::InvalidCharSecondFraction);
        }
        let known: [ParseError; 40] = core::array::from_fn(|place| Code(place as c_int + 1).into());
        assert_eq!(known.iter().filter(|error| **error == ParseError::UNKNOWN).count(), 1);
        assert_eq!(ParseError::from(Code::CONFIG_OUT_OF_RANGE), ParseError::OutOfRangeTz);
    }
}
