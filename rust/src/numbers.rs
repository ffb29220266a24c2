use crate::ffi::speedate_int_parse;

/// The whole number that an input is: digits, with a sign or without one, that fit an `i64`.
///
/// ```
/// assert_eq!(speedate::int_parse_str("-42"), Some(-42));
/// ```
#[must_use]
pub fn int_parse_str(s: &str) -> Option<i64> {
    int_parse_bytes(s.as_bytes())
}

/// [`int_parse_str`] of bytes.
#[must_use]
pub fn int_parse_bytes(s: &[u8]) -> Option<i64> {
    speedate_int_parse(s).ok()
}

/// What number an input is.
#[derive(Debug)]
pub enum IntFloat {
    /// A whole number.
    Int(i64),
    /// A number with a decimal point.
    Float(f64),
    /// No number.
    Err,
}

impl IntFloat {
    /// Whether the input is not a number.
    #[must_use]
    pub fn is_err(&self) -> bool {
        matches!(self, IntFloat::Err)
    }
}

/// The number that an input is: whole, or with a decimal point, and then maybe with an exponent. The float is the nearest
/// one, by the standard library. [`DateTime`](crate::DateTime) reads all digits of a decimal instead.
///
/// ```
/// assert!(matches!(speedate::float_parse_str("12.5"), speedate::IntFloat::Float(12.5)));
/// assert!(matches!(speedate::float_parse_str("1.5e3"), speedate::IntFloat::Float(1500.0)));
/// assert!(["1e3", "inf", "1.5 "].iter().all(|text| speedate::float_parse_str(text).is_err()));
/// ```
#[must_use]
pub fn float_parse_str(s: &str) -> IntFloat {
    float_parse_bytes(s.as_bytes())
}

/// [`float_parse_str`] of bytes.
#[must_use]
pub fn float_parse_bytes(s: &[u8]) -> IntFloat {
    match int_parse_bytes(s) {
        Some(int) => IntFloat::Int(int),
        None => decimal(s).map_or(IntFloat::Err, IntFloat::Float),
    }
}

/// The standard library has floats without a point too, as `1e5` and `inf`.
fn decimal(s: &[u8]) -> Option<f64> {
    core::str::from_utf8(s).ok().filter(|s| s.contains('.'))?.parse().ok()
}
