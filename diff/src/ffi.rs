//! The structs of `c/speedate_packages.h`, and those of its functions that the package for Rust does not call, each with its C
//! name. This is the one module with unsafe code: each call gets the addresses of variables of its types. Each answers a
//! code, and writes to `out` if and only if the code is 0.

use std::ffi::{c_char, c_int};

/// A date.
#[repr(C)]
#[derive(Clone, Copy, Debug, Default, PartialEq, Eq)]
pub struct Date {
    pub year: u16,
    pub month: u8,
    pub day: u8,
}

/// A time of day. The offset is 0 where `has_offset` is 0.
#[repr(C)]
#[derive(Clone, Copy, Debug, Default, PartialEq, Eq)]
pub struct Time {
    pub hour: u8,
    pub minute: u8,
    pub second: u8,
    pub has_offset: u8,
    pub microsecond: u32,
    pub offset: i32,
}

impl Time {
    /// The offset, if there is one.
    pub fn offset(&self) -> Option<i32> {
        (self.has_offset == 1).then_some(self.offset)
    }
}

/// A date and a time of day.
#[repr(C)]
#[derive(Clone, Copy, Debug, Default, PartialEq, Eq)]
pub struct DateTime {
    pub date: Date,
    pub time: Time,
}

/// A length of time.
#[repr(C)]
#[derive(Clone, Copy, Debug, Default, PartialEq, Eq)]
pub struct Duration {
    pub negative: u32,
    pub day: u32,
    pub second: u32,
    pub microsecond: u32,
}

/// How texts and timestamps are read. In each field 0 is the default.
#[repr(C)]
#[derive(Clone, Copy, Debug, Default, PartialEq, Eq)]
pub struct Config {
    pub timestamp_offset: i32,
    pub has_timestamp_offset: u8,
    pub timestamp_unit: u8,
    pub overflow_behavior: u8,
    pub iso_order: u8,
}

pub const UNIT_INFER: u8 = 0;
pub const UNIT_SECOND: u8 = 1;
pub const UNIT_MILLISECOND: u8 = 2;
pub const OVERFLOW_ERROR: u8 = 0;
pub const OVERFLOW_TRUNCATE: u8 = 1;
pub const ORDER_LAX: u8 = 0;
pub const ORDER_STRICT: u8 = 1;

impl Config {
    /// The offset that the value of a timestamp gets, if any.
    pub fn offset(&self) -> Option<i32> {
        (self.has_timestamp_offset == 1).then_some(self.timestamp_offset)
    }
}

/// 0, or why a call refuses.
pub type Code = c_int;

/// What a call writes, where it answers 0.
pub fn written<T: Default>(call: impl FnOnce(&mut T) -> Code) -> Result<T, Code> {
    let mut out = T::default();
    match call(&mut out) {
        0 => Ok(out),
        code => Err(code),
    }
}

/// The name of a code.
pub fn name(code: Code) -> String {
    unsafe extern "C" {
        fn speedate_code_name(code: Code, buffer: *mut c_char, size: usize, length: *mut usize) -> Code;
    }
    let (mut buffer, mut length) = ([0_u8; 64], 0);
    // SAFETY: the address and the size are those of the buffer, and `length` is a variable of its type.
    match unsafe { speedate_code_name(code, buffer.as_mut_ptr().cast(), buffer.len(), &mut length) } {
        0 => String::from_utf8_lossy(&buffer[..length]).into_owned(),
        _ => format!("code {code}"),
    }
}

/// Functions of values, which write one value.
macro_rules! values {
    ($(fn $name:ident($($argument:ident: $kind:ty),*) -> $answer:ty;)*) => {
        $(
            #[inline]
            pub fn $name($($argument: $kind,)* out: &mut $answer) -> Code {
                unsafe extern "C" {
                    fn $name($($argument: $kind,)* out: *mut $answer) -> Code;
                }
                // SAFETY: `out` is the address of a variable of its type.
                unsafe { $name($($argument,)* out) }
            }
        )*
    };
}

#[inline]
pub fn speedate_duration_parse_text(text: &[u8], config: Config, out: &mut Duration) -> Code {
    unsafe extern "C" {
        fn speedate_duration_parse_text(text: *const c_char, size: usize, config: Config, out: *mut Duration) -> Code;
    }
    // SAFETY: the address and the size are those of the text, and `out` is a variable of its type.
    unsafe { speedate_duration_parse_text(text.as_ptr().cast(), text.len(), config, out) }
}

values! {
    fn speedate_date_compare(first: Date, second: Date) -> i32;
    fn speedate_date_days(date: Date) -> i32;
    fn speedate_date_from_days(days: i32) -> Date;
    fn speedate_duration_negate(duration: Duration) -> Duration;
    fn speedate_duration_between_dates(earlier: Date, later: Date) -> Duration;
    fn speedate_duration_after_date(duration: Duration, start: Date) -> Date;
    fn speedate_duration_before_date(duration: Duration, start: Date) -> Date;
}
