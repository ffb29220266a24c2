//! The known differences: each row of `docs/DIFFERENCES.md` that calls can meet, and when it explains a difference.

use crate::answer::{Answer, PANIC, Value, is_fault};
use crate::call::Call;
use crate::exact::{Decimal, IsoFraction, split_sign};
use crate::ffi::{Config, ORDER_STRICT, OVERFLOW_TRUNCATE, Time, UNIT_INFER, UNIT_MILLISECOND, UNIT_SECOND};
use crate::rust;
use crate::text::{Kind, LARGEST_SECOND};

/// A power of ten of so many digits is beyond the floats, and the Rust crate loses the fraction.
const DIGITS_OF_A_FLOAT: usize = 308;

/// A known difference: its row, and whether it explains that the Rust crate answers one thing, this library another.
pub struct Known {
    /// The first cell of the row.
    pub row: &'static str,
    explains: fn(&Call, &Answer, &Answer) -> bool,
}

pub const KNOWN: [Known; 11] = [
    Known { row: "fractions of ISO 8601 durations", explains: is_iso_fraction },
    Known { row: "the order of components in an ISO 8601 duration", explains: is_iso_order },
    Known { row: "a clock of a duration, with `Truncate`", explains: is_cut_clock },
    Known { row: "exponents of decimals", explains: is_exponent },
    Known { row: "decimal timestamps, `from_float_with_config`", explains: is_decimal_timestamp },
    Known { row: "`from_float_with_config` in Rust", explains: is_float },
    Known { row: "the inferred unit of a decimal timestamp", explains: is_inferred_unit },
    Known { row: "`in_timezone` and `now` of `DateTime`", explains: is_late_date_time },
    Known { row: "`in_timezone` of `Time`", explains: is_moved_time },
    Known { row: "the offset `i32::MIN`", explains: is_smallest_offset },
    Known { row: "`unix_timestamp_offset`", explains: is_timestamp_offset },
];

/// The place in `KNOWN` of the row that explains the difference.
pub fn place(call: &Call, rust: &Answer, ours: &Answer) -> Option<usize> {
    KNOWN.iter().position(|known| (known.explains)(call, rust, ours))
}

impl Known {
    /// Whether the table of differences has the row.
    pub fn is_in(&self, differences: &str) -> bool {
        let cell = format!("| {} |", self.row);
        differences.lines().any(|line| line.starts_with(&cell))
    }
}

/// Every digit counts here; there a float is off by no more than its rounding, or has lost the fraction.
fn is_iso_fraction(call: &Call, rust: &Answer, ours: &Answer) -> bool {
    let (Call::Read { kind: Kind::Duration, text, config } | Call::ReadInOrder { text, config }) = call else {
        return false;
    };
    let Some(fraction) = IsoFraction::of(text) else {
        return false;
    };
    let Some(exact) = fraction.exact(config) else {
        return false;
    };
    let count = fraction.digits.len();
    let rounding = 1 + ((i128::from(fraction.unit) * 1_000_000 * count as i128) >> 50);
    let is_rounded = exact.gap(rust).is_some_and(|gap| gap <= rounding);
    let is_lost = count > DIGITS_OF_A_FLOAT && *rust == fraction.without_digits(config);
    *ours == exact.answer && (is_rounded || is_lost)
}

/// The strict order refuses components that are out of order or repeated. Up to there the text has no other error,
/// but that it may be too long a duration.
fn is_iso_order(call: &Call, _rust: &Answer, ours: &Answer) -> bool {
    let Call::ReadInOrder { text, config } = call else {
        return false;
    };
    let Some(place) = place_out_of_order(text) else {
        return false;
    };
    let lax = rust::read(Kind::Duration, &text[..=place], config);
    config.iso_order == ORDER_STRICT
        && is_fault(ours, "duration_unit_order")
        && (lax.is_ok() || is_fault(&lax, "duration_value_too_large") || is_fault(&lax, "duration_days_too_large"))
}

/// Where on one side of the `T` a designator comes after itself or after one of a smaller unit.
fn place_out_of_order(text: &[u8]) -> Option<usize> {
    let (mut units, mut last) = (&b"YMWD"[..], None);
    for (place, byte) in text.iter().enumerate() {
        let unit = units.iter().position(|unit| unit == byte);
        if *byte == b'T' {
            (units, last) = (b"HMS", None);
        } else if unit.is_some() {
            if last >= unit {
                return Some(place);
            }
            last = unit;
        }
    }
    None
}

/// There what follows the sixth digit is cut, whatever it is; here it has to be digits.
fn is_cut_clock(call: &Call, _rust: &Answer, ours: &Answer) -> bool {
    let (Call::Read { kind: Kind::Duration, text, config } | Call::ReadInOrder { text, config }) = call else {
        return false;
    };
    let Some(colon) = text.iter().position(|&byte| byte == b':') else {
        return false;
    };
    let Some((kept, cut)) = text[colon + 1..].split_at_checked(12) else {
        return false;
    };
    config.overflow_behavior == OVERFLOW_TRUNCATE
        && is_fault(ours, "extra_characters")
        && (fits(kept, b"00:00.000000") || fits(kept, b"00:00,000000"))
        && !cut.iter().all(u8::is_ascii_digit)
}

/// A decimal with an exponent is no number here: the error is that of a text that is no date-time.
fn is_exponent(call: &Call, _rust: &Answer, ours: &Answer) -> bool {
    let Call::Read { kind: Kind::DateTime, text, config } = call else {
        return false;
    };
    let Some((_, [b'e' | b'E', exponent @ ..])) = Decimal::front(text) else {
        return false;
    };
    let (_, digits) = split_sign(exponent);
    !digits.is_empty()
        && digits.iter().all(u8::is_ascii_digit)
        && *ours == rust::read(Kind::DateTimeRfc3339, text, config)
}

/// Every digit counts here; there a float is off by no more than its rounding.
fn is_decimal_timestamp(call: &Call, rust: &Answer, ours: &Answer) -> bool {
    let Call::Read { kind: Kind::DateTime, text, config } = call else {
        return false;
    };
    let Some(decimal) = Decimal::of(text) else {
        return false;
    };
    let exact = decimal.exact(config);
    let rounding = 1 + (exact.microseconds.abs() >> 52);
    *ours == exact.answer && exact.gap(rust).is_some_and(|gap| gap <= rounding)
}

/// The value of the float counts exactly here; there its fraction is rounded as a float.
fn is_float(call: &Call, rust: &Answer, ours: &Answer) -> bool {
    let Call::FromFloat { timestamp, config } = call else {
        return false;
    };
    let digits = format!("{timestamp:.1074}");
    let Some(decimal) = Decimal::of(digits.as_bytes()) else {
        return false;
    };
    let exact = decimal.exact(&Config { overflow_behavior: OVERFLOW_TRUNCATE, ..*config });
    *ours == exact.answer && exact.gap(rust).is_some_and(|gap| gap <= 1)
}

/// The decimal is over the largest second here; there the float is equal to it, and seconds.
fn is_inferred_unit(call: &Call, rust: &Answer, ours: &Answer) -> bool {
    let Call::Read { kind: Kind::DateTime, text, config } = call else {
        return false;
    };
    let Some(decimal) = Decimal::of(text) else {
        return false;
    };
    let float = str::from_utf8(text).ok().and_then(|text| text.parse::<f64>().ok());
    config.timestamp_unit == UNIT_INFER
        && decimal.unit(config) == UNIT_MILLISECOND
        && float.is_some_and(|float| float.abs() == LARGEST_SECOND as f64)
        && *ours == decimal.exact(config).answer
        && *rust == rust::read(Kind::DateTime, text, &Config { timestamp_unit: UNIT_SECOND, ..*config })
}

/// The second at the new offset is taken for milliseconds there, and never here.
fn is_late_date_time(call: &Call, rust: &Answer, ours: &Answer) -> bool {
    let Call::InTimezone(Value::DateTime(value), offset) = call else {
        return false;
    };
    let Some(old) = value.time.offset().filter(|_| is_offset(*offset)) else {
        return false;
    };
    let (microsecond, offset) = (value.time.microsecond, *offset);
    let timestamp = speedate::DateTime::from(*value).timestamp() + i64::from(offset - old);
    let config = |timestamp_unit| Config {
        has_timestamp_offset: 1,
        timestamp_offset: offset,
        timestamp_unit,
        ..Config::default()
    };
    let answer = |unit| rust::answer(&Call::DateTimeFromTimestamp { timestamp, microsecond, config: config(unit) });
    timestamp.abs() > LARGEST_SECOND && *rust == answer(UNIT_INFER) && *ours == answer(UNIT_SECOND)
}

/// The instant is kept here, or the call refused; there the difference of the offsets is stored.
fn is_moved_time(call: &Call, rust: &Answer, ours: &Answer) -> bool {
    let Call::InTimezone(Value::Time(time), offset) = call else {
        return false;
    };
    let Some(old) = time.offset().filter(|_| is_offset(*offset)) else {
        return false;
    };
    let is_stored = matches!(rust, Ok(Value::Time(it)) if it.offset() == Some(offset - old));
    is_stored && *ours == moved_time(time, offset - old, *offset)
}

fn moved_time(time: &Time, seconds: i32, offset: i32) -> Answer {
    let second = speedate::Time::from(*time).total_seconds() as i32 + seconds;
    if !(0..86_400).contains(&second) {
        return Err("time_too_large".to_owned());
    }
    let (hour, minute, second) = (second / 3_600, second / 60 % 60, second % 60);
    let (hour, minute, second) = (hour as u8, minute as u8, second as u8);
    Ok(Value::Time(Time { hour, minute, second, offset, ..*time }))
}

/// The offset overflows there.
fn is_smallest_offset(call: &Call, rust: &Answer, ours: &Answer) -> bool {
    matches!(call, Call::InTimezone(_, i32::MIN) | Call::WithOffset(_, Some(i32::MIN)))
        && is_fault(rust, PANIC)
        && is_fault(ours, "out_of_range_tz")
}

/// A configured offset of a day or more is refused here by a call that takes timestamps, and by the C functions.
fn is_timestamp_offset(call: &Call, _rust: &Answer, ours: &Answer) -> bool {
    let fault = match call {
        Call::ReadInOrder { .. } => "config_out_of_range",
        _ => "out_of_range_tz",
    };
    let offset = call.config().and_then(Config::offset);
    offset.is_some_and(|offset| !is_offset(offset)) && is_fault(ours, fault)
}

/// Whether a text has a digit where the pattern has `0`, and elsewhere the pattern's byte.
fn fits(text: &[u8], pattern: &[u8]) -> bool {
    let fits_byte = |(byte, wanted): (&u8, &u8)| {
        if *wanted == b'0' { byte.is_ascii_digit() } else { byte == wanted }
    };
    text.len() == pattern.len() && text.iter().zip(pattern).all(fits_byte)
}

/// Whether an offset is of less than a day.
fn is_offset(seconds: i32) -> bool {
    seconds.unsigned_abs() < 86_400
}

#[cfg(test)]
mod tests {
    use super::*;
    use crate::call::Bytes;
    use crate::ffi::{Date, DateTime, Duration};
    use crate::ours;

    /// The default, which `Default` cannot give a constant.
    const LAX: Config = Config {
        timestamp_offset: 0,
        has_timestamp_offset: 0,
        timestamp_unit: UNIT_INFER,
        overflow_behavior: 0,
        iso_order: 0,
    };
    const TRUNCATE: Config = Config { overflow_behavior: OVERFLOW_TRUNCATE, ..LAX };
    const STRICT: Config = Config { iso_order: ORDER_STRICT, ..LAX };

    /// Of each row a call with both answers, and a wrong answer of this library.
    fn cases() -> [(Call, Answer, Answer, Answer); KNOWN.len()] {
        let day = Config { has_timestamp_offset: 1, timestamp_offset: 86_400, ..LAX };
        [
            (
                read(Kind::Duration, "PT20.1253395S", LAX),
                duration(20, 125_339),
                duration(20, 125_340),
                duration(20, 125_341),
            ),
            (
                Call::ReadInOrder { text: Bytes(b"P1D1Y".to_vec()), config: STRICT },
                Ok(Value::Duration(Duration { day: 366, ..Duration::default() })),
                fault("duration_unit_order"),
                fault("duration_invalid_date_unit"),
            ),
            (
                read(Kind::Duration, "00:00:00.123456x", TRUNCATE),
                duration(0, 123_456),
                fault("extra_characters"),
                fault("second_fraction_missing"),
            ),
            (
                read(Kind::DateTime, "1.5e3", LAX),
                date_time((1970, 1, 1), time(0, 25, 0, 0)),
                fault("too_short"),
                fault("invalid_char_year"),
            ),
            (
                read(Kind::DateTime, "-15356304000.505050", LAX),
                date_time((1483, 5, 18), time(23, 59, 59, 494_949)),
                date_time((1483, 5, 18), time(23, 59, 59, 494_950)),
                date_time((1483, 5, 18), time(23, 59, 59, 494_951)),
            ),
            (
                Call::FromFloat { timestamp: 5e-7, config: LAX },
                date_time((1970, 1, 1), time(0, 0, 0, 1)),
                date_time((1970, 1, 1), time(0, 0, 0, 0)),
                date_time((1970, 1, 1), time(0, 0, 0, 2)),
            ),
            (
                read(Kind::DateTime, "20000000000.0000001", TRUNCATE),
                date_time((2603, 10, 11), time(11, 33, 20, 0)),
                date_time((1970, 8, 20), time(11, 33, 20, 0)),
                date_time((1970, 8, 20), time(11, 33, 20, 1)),
            ),
            (
                Call::InTimezone(Value::DateTime(instant((3000, 1, 1), at(time(0, 0, 0, 0), 0))), -3_600),
                date_time((1971, 1, 12), at(time(4, 47, 56, 400_000), -3_600)),
                date_time((2999, 12, 31), at(time(23, 0, 0, 0), -3_600)),
                date_time((2999, 12, 31), at(time(23, 0, 0, 1), -3_600)),
            ),
            (
                Call::InTimezone(Value::Time(at(time(10, 0, 0, 0), 3_600)), 7_200),
                Ok(Value::Time(at(time(11, 0, 0, 0), 3_600))),
                Ok(Value::Time(at(time(11, 0, 0, 0), 7_200))),
                Ok(Value::Time(at(time(12, 0, 0, 0), 7_200))),
            ),
            (
                Call::WithOffset(Value::Time(time(10, 0, 0, 0)), Some(i32::MIN)),
                fault(PANIC),
                fault("out_of_range_tz"),
                fault("time_too_large"),
            ),
            (
                Call::TimeFromTimestamp { second: 1, microsecond: 0, config: day },
                Ok(Value::Time(at(time(0, 0, 1, 0), 86_400))),
                fault("out_of_range_tz"),
                fault("time_too_large"),
            ),
        ]
    }

    fn read(kind: Kind, text: &str, config: Config) -> Call {
        Call::Read { kind, text: Bytes(text.as_bytes().to_vec()), config }
    }

    fn fault(name: &str) -> Answer {
        Err(name.to_owned())
    }

    fn duration(second: u32, microsecond: u32) -> Answer {
        Ok(Value::Duration(Duration { second, microsecond, ..Duration::default() }))
    }

    fn time(hour: u8, minute: u8, second: u8, microsecond: u32) -> Time {
        Time { hour, minute, second, microsecond, ..Time::default() }
    }

    fn at(time: Time, offset: i32) -> Time {
        Time { has_offset: 1, offset, ..time }
    }

    fn instant((year, month, day): (u16, u8, u8), time: Time) -> DateTime {
        DateTime { date: Date { year, month, day }, time }
    }

    fn date_time(date: (u16, u8, u8), time: Time) -> Answer {
        Ok(Value::DateTime(instant(date, time)))
    }

    #[test]
    fn each_row_explains_its_case_and_no_wrong_answer() {
        for (row, (call, rust, ours, wrong)) in cases().into_iter().enumerate() {
            let name = KNOWN[row].row;
            assert_eq!(place(&call, &rust, &ours), Some(row), "{name}");
            assert_eq!(place(&call, &rust, &wrong), None, "a wrong answer of {name}");
            assert_eq!(ours::answer(&call), ours, "{name}");
        }
    }

    /// Four rows say nothing of it.
    #[test]
    fn no_other_row_explains_any_answer_of_the_rust_crate() {
        for (row, (call, _, ours, _)) in cases().iter().enumerate().filter(|(row, _)| ![1, 2, 3, 10].contains(row)) {
            assert_eq!(place(call, &fault("another"), ours), None, "{}", KNOWN[row].row);
        }
    }

    /// A row that explained the case of another would be too wide.
    #[test]
    fn no_row_explains_the_case_of_another() {
        for (row, (call, rust, ours, _)) in cases().iter().enumerate() {
            for (other, known) in KNOWN.iter().enumerate().filter(|(other, _)| *other != row) {
                assert!(!(known.explains)(call, rust, ours), "{}: {}", KNOWN[other].row, KNOWN[row].row);
            }
        }
    }

    /// Answers as those of a case, to a call that is a step away from it.
    #[test]
    fn no_row_explains_what_is_nearly_a_case() {
        let almost = Config { has_timestamp_offset: 1, timestamp_offset: 86_399, ..LAX };
        for (row, call) in [
            (1, Call::ReadInOrder { text: Bytes(b"P1D1Y".to_vec()), config: LAX }),
            (1, Call::ReadInOrder { text: Bytes(b"P1Y1D".to_vec()), config: STRICT }),
            (2, read(Kind::Duration, "00:00:00.123456x", LAX)),
            (2, read(Kind::Duration, "00:00:00.1234567", TRUNCATE)),
            (3, read(Kind::DateTime, "1.5", LAX)),
            (8, Call::InTimezone(Value::Time(at(time(10, 0, 0, 0), 3_600)), 10_800)),
            (9, Call::WithOffset(Value::Time(time(10, 0, 0, 0)), Some(i32::MIN + 1))),
            (10, Call::TimeFromTimestamp { second: 1, microsecond: 0, config: almost }),
        ] {
            let (_, rust, ours, _) = &cases()[row];
            assert_eq!(place(&call, rust, ours), None, "{}: {call:?}", KNOWN[row].row);
        }
    }

    #[test]
    fn rows_are_in_the_table() {
        let differences = include_str!("../../docs/DIFFERENCES.md");
        assert!(KNOWN.iter().all(|known| known.is_in(differences)));
    }
}
