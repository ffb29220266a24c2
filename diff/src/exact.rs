//! What a text with a fraction means by all its digits, without floats.

use crate::answer::{Answer, Value};
use crate::ffi::{Config, Duration, OVERFLOW_ERROR, UNIT_INFER, UNIT_MILLISECOND, UNIT_SECOND};
use crate::rust;
use crate::text::{FIRST_SECOND, Kind, LARGEST_SECOND, LAST_SECOND};

const MICROSECONDS_A_SECOND: i128 = 1_000_000;
const MICROSECONDS_A_DAY: i128 = 86_400 * MICROSECONDS_A_SECOND;

/// One more than the most days, and the most seconds, that a sum of a duration may have.
const END: i128 = 1 << 32;

/// More than any number of a duration, or any timestamp, may be.
const TOO_LARGE: i128 = 1 << 70;

/// The answer to a text, and how far it is from where answers become errors.
pub struct Exact {
    pub answer: Answer,
    /// The microseconds of the value, or those that it would have.
    pub microseconds: i128,
    /// The first microseconds that are too many, or too few.
    pub ends: Vec<i128>,
}

impl Exact {
    /// How many microseconds another answer is away: from the value, or if it is an error, from the nearest end.
    pub fn gap(&self, other: &Answer) -> Option<i128> {
        match other {
            Ok(value) => microseconds(value).map(|other| (other - self.microseconds).abs()),
            Err(_) => self.ends.iter().map(|end| (end - self.microseconds).abs()).min(),
        }
    }
}

/// The length of a duration without its sign, or the instant that a clock shows, in microseconds.
fn microseconds(value: &Value) -> Option<i128> {
    match value {
        Value::Duration(it) => Some(length(it)),
        Value::DateTime(it) => {
            let second = speedate::DateTime::from(*it).timestamp();
            Some(i128::from(second) * MICROSECONDS_A_SECOND + i128::from(it.time.microsecond))
        }
        _ => None,
    }
}

fn length(it: &Duration) -> i128 {
    let second = i128::from(it.day) * 86_400 + i128::from(it.second);
    second * MICROSECONDS_A_SECOND + i128::from(it.microsecond)
}

/// The fraction of a unit that digits are: the whole part, and the whole number nearest to it. By long multiplication
/// from the last digit.
fn fraction_of_unit(digits: &[u8], unit: u64, is_tie_up: bool) -> (i128, i128) {
    let (mut carry, mut first, mut is_rest_zero) = (0, 0, true);
    for digit in digits.iter().rev() {
        is_rest_zero &= first == 0;
        let product = u64::from(digit - b'0') * unit + carry;
        (carry, first) = (product / 10, product % 10);
    }
    let is_up = first > 5 || first == 5 && (is_tie_up || !is_rest_zero);
    (carry.into(), i128::from(carry) + i128::from(is_up))
}

/// The digits at the front of a text, and what follows them.
pub fn split_digits(text: &[u8]) -> (&[u8], &[u8]) {
    let end = text.iter().position(|byte| !byte.is_ascii_digit()).unwrap_or(text.len());
    text.split_at(end)
}

/// Whether a text begins with `-`, and what follows its sign.
pub fn split_sign(text: &[u8]) -> (bool, &[u8]) {
    match text {
        [b'-', rest @ ..] => (true, rest),
        [b'+', rest @ ..] => (false, rest),
        _ => (false, text),
    }
}

/// The text of an ISO 8601 duration up to its first decimal mark, the digits after it, and the rest.
pub struct IsoFraction<'a> {
    before: &'a [u8],
    pub digits: &'a [u8],
    after: &'a [u8],
    is_clock: bool,
    /// The unit of the fraction, in seconds.
    pub unit: u64,
}

impl<'a> IsoFraction<'a> {
    pub fn of(text: &'a [u8]) -> Option<Self> {
        if split_sign(text).1.first() != Some(&b'P') {
            return None;
        }
        let mark = text.iter().position(|byte| matches!(byte, b'.' | b','))?;
        let (before, (digits, after)) = (&text[..=mark], split_digits(&text[mark + 1..]));
        let is_clock = before.contains(&b'T');
        let unit = seconds_of(is_clock, *after.first()?)?;
        Some(IsoFraction { before, digits, after, is_clock, unit })
    }

    /// The seconds of the components before the mark: of those before the `T`, and of those after it.
    fn sums(&self) -> Option<(i128, i128)> {
        let (mut sums, mut number, mut is_clock) = ([0, 0], 0_i128, false);
        for &byte in &split_sign(self.before).1[1..] {
            match byte {
                b'0'..=b'9' => number = (number * 10 + i128::from(byte - b'0')).min(TOO_LARGE),
                b'T' => is_clock = true,
                b'.' | b',' => sums[usize::from(is_clock)] += number * i128::from(self.unit),
                _ => {
                    sums[usize::from(is_clock)] += number * i128::from(seconds_of(is_clock, byte)?);
                    number = 0;
                }
            }
        }
        Some((sums[0], sums[1]))
    }

    /// What the Rust crate answers to the text without the digits.
    pub fn without_digits(&self, config: &Config) -> Answer {
        rust::read(Kind::Duration, &[self.before, self.after].concat(), config)
    }

    /// The duration of the text. Its errors that are none of size are those of the text without the digits.
    pub fn exact(&self, config: &Config) -> Option<Exact> {
        let (dates, clock) = self.sums()?;
        let (floor, extra) = fraction_of_unit(self.digits, self.unit * 1_000_000, true);
        let (sum, unit) = if self.is_clock { (clock, 1) } else { (dates, 86_400) };
        let total = (dates + clock) * MICROSECONDS_A_SECOND + extra;
        // The seconds after the `T` have an end before days are carried.
        let seconds_end = if self.is_clock { dates + END } else { END * 86_400 };
        let ends = [seconds_end, END * 86_400, 1_000_000_000 * 86_400];
        let [seconds_end, days_end, end] = ends.map(|end| end * MICROSECONDS_A_SECOND);
        let is_negative = self.before.starts_with(b"-");
        let too_large = || Err("duration_value_too_large".to_owned());
        let answer = match self.without_digits(config) {
            _ if (sum * MICROSECONDS_A_SECOND + floor) / (unit * MICROSECONDS_A_SECOND) >= END => too_large(),
            Err(fault) if !fault.ends_with("_too_large") => Err(fault),
            _ if total >= seconds_end || total >= days_end => too_large(),
            _ if total >= end => Err("duration_days_too_large".to_owned()),
            _ => Ok(Value::Duration(of_amount(is_negative, total))),
        };
        Some(Exact { answer, microseconds: total, ends: vec![seconds_end, days_end, end] })
    }
}

/// The seconds of a unit by its designator.
fn seconds_of(is_clock: bool, designator: u8) -> Option<u64> {
    match (is_clock, designator) {
        (false, b'Y') => Some(365 * 86_400),
        (false, b'M') => Some(30 * 86_400),
        (false, b'W') => Some(7 * 86_400),
        (false, b'D') => Some(86_400),
        (true, b'H') => Some(3_600),
        (true, b'M') => Some(60),
        (true, b'S') => Some(1),
        _ => None,
    }
}

fn of_amount(is_negative: bool, length: i128) -> Duration {
    let second = length % MICROSECONDS_A_DAY / MICROSECONDS_A_SECOND;
    Duration {
        negative: is_negative.into(),
        day: (length / MICROSECONDS_A_DAY) as u32,
        second: second as u32,
        microsecond: (length % MICROSECONDS_A_SECOND) as u32,
    }
}

/// A number with a point: a sign, digits, a point and digits, with a digit on either side.
pub struct Decimal<'a> {
    is_negative: bool,
    whole: &'a [u8],
    pub fraction: &'a [u8],
}

impl<'a> Decimal<'a> {
    /// The decimal at the front of a text, and what follows it.
    pub fn front(text: &'a [u8]) -> Option<(Self, &'a [u8])> {
        let (is_negative, rest) = split_sign(text);
        let (whole, rest) = split_digits(rest);
        let (fraction, rest) = split_digits(rest.strip_prefix(b".")?);
        (!whole.is_empty() || !fraction.is_empty()).then_some((Decimal { is_negative, whole, fraction }, rest))
    }

    /// The decimal that is a whole text.
    pub fn of(text: &'a [u8]) -> Option<Self> {
        Self::front(text).filter(|(_, rest)| rest.is_empty()).map(|(decimal, _)| decimal)
    }

    /// The whole part without its sign, or a larger number than any timestamp.
    fn whole_number(&self) -> i128 {
        self.whole.iter().fold(0, |number, byte| (number * 10 + i128::from(byte - b'0')).min(TOO_LARGE))
    }

    /// The unit of the decimal as a timestamp.
    pub fn unit(&self, config: &Config) -> u8 {
        let largest = i128::from(LARGEST_SECOND);
        let has_fraction = self.fraction.iter().any(|&byte| byte != b'0');
        match (config.timestamp_unit, self.whole_number()) {
            (UNIT_INFER, number) if number > largest || number == largest && has_fraction => UNIT_MILLISECOND,
            (UNIT_INFER, _) => UNIT_SECOND,
            (unit, _) => unit,
        }
    }

    /// The date-time of the decimal as a timestamp.
    pub fn exact(&self, config: &Config) -> Exact {
        let (unit, digits, too_long) = match self.unit(config) {
            UNIT_MILLISECOND => (1_000, 3, "millisecond_fraction_too_long"),
            _ => (1_000_000, 6, "second_fraction_too_long"),
        };
        let (_, nearest) = fraction_of_unit(self.fraction, unit, !self.is_negative);
        let size = self.whole_number() * i128::from(unit) + nearest;
        let microseconds = if self.is_negative { -size } else { size };
        let answer = match config.overflow_behavior {
            OVERFLOW_ERROR if self.fraction.len() > digits => Err(too_long.to_owned()),
            _ => rust::date_time_at(microseconds, config.offset()),
        };
        let ends = [FIRST_SECOND, LAST_SECOND + 1].map(|end| i128::from(end) * MICROSECONDS_A_SECOND).to_vec();
        Exact { answer, microseconds, ends }
    }
}
