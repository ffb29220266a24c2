//! Floats as timestamps, beside their exact decimal expansions, which `parse_str_with_config` hands over to the library.

use speedate::{
    DateTime, DateTimeConfig, MicrosecondsPrecisionOverflowBehavior, ParseError, TimeConfig, TimestampUnit,
};

const UNITS: [TimestampUnit; 3] = [TimestampUnit::Infer, TimestampUnit::Second, TimestampUnit::Millisecond];

/// Timestamps at which answers change, in seconds or in milliseconds.
const ENDS: [f64; 7] = [0.0, 2e10, 62_167_219_200.0, 62_167_219_200e3, 253_402_300_800.0, 253_402_300_800e3, 1e18];

#[test]
fn drawn_floats() {
    // SplitMix64.
    let mut state = 1_u64;
    let mut draw = move || {
        state = state.wrapping_add(0x9e37_79b9_7f4a_7c15);
        let mixed = (state ^ (state >> 30)).wrapping_mul(0xbf58_476d_1ce4_e5b9);
        let mixed = (mixed ^ (mixed >> 27)).wrapping_mul(0x94d0_49bb_1331_11eb);
        mixed ^ (mixed >> 31)
    };
    for place in 0..1_000_000 {
        // Any sign and fraction, and an exponent from 2^-32 to 2^63; the 3 in 4 that are less than 2^38 lie near the range.
        let exponent = draw() % if place % 4 == 0 { 96 } else { 70 } + 1_023 - 32;
        let bits = draw() & !(0x7ff << 52) | exponent << 52;
        try_float(f64::from_bits(bits), UNITS[place % 3]);
    }
}

#[test]
fn ties() {
    let wholes = ENDS.into_iter().chain((0..2_000).map(|place| f64::from(place) * 126_701_150.0));
    for whole in wholes {
        // Half a microsecond is left only of odd multiples of 1 / 128 of a second, and of 1 / 16 of a millisecond.
        for tie in (1..128).step_by(2).map(|odd| whole + f64::from(odd) / 128.0) {
            try_neighbors(tie, TimestampUnit::Second);
        }
        for tie in (1..16).step_by(2).map(|odd| whole + f64::from(odd) / 16.0) {
            try_neighbors(tie, TimestampUnit::Millisecond);
        }
        UNITS.into_iter().for_each(|unit| try_neighbors(whole, unit));
    }
}

/// The floats nearest to decimal ties, most of which no float is.
#[test]
fn nearly_ties() {
    for half in (1..4_000_i64).step_by(2).chain((0..2_000).map(|place| place * 4_503_000_000_000 + 1)) {
        let half = half as f64;
        try_neighbors(half / 2e6, TimestampUnit::Second);
        try_neighbors(half / 2e3, TimestampUnit::Millisecond);
    }
}

#[test]
fn what_is_no_number() {
    let answer = |timestamp| DateTime::from_float_with_config(timestamp, &DateTimeConfig::default());
    assert_eq!(answer(f64::NAN), DateTime::from_timestamp(0, 0));
    assert_eq!(answer(f64::INFINITY), Err(ParseError::DateTooLarge));
    assert_eq!(answer(f64::NEG_INFINITY), Err(ParseError::DateTooSmall));
    assert_eq!(answer(f64::MAX), Err(ParseError::DateTooLarge));
    assert_eq!(answer(f64::MIN), Err(ParseError::DateTooSmall));
    assert_eq!(answer(f64::MIN_POSITIVE), DateTime::from_timestamp(0, 0));
}

fn try_neighbors(float: f64, unit: TimestampUnit) {
    for float in [float, -float] {
        let bits = float.to_bits();
        for bits in [bits.wrapping_sub(1), bits, bits + 1] {
            try_float(f64::from_bits(bits), unit);
        }
    }
}

fn try_float(float: f64, unit: TimestampUnit) {
    // The neighbors of 0 are not-a-number and the least float.
    if !float.is_finite() {
        return;
    }
    let behavior = MicrosecondsPrecisionOverflowBehavior::Truncate;
    let time_config = TimeConfig::builder().microseconds_precision_overflow_behavior(behavior).build();
    let config = DateTimeConfig { timestamp_unit: unit, time_config };
    // Each binary place after the point is a decimal one.
    let places = (1_075 - (float.to_bits() >> 52 & 0x7ff) as i32).clamp(1, 1_074) as usize;
    let exact = DateTime::parse_str_with_config(&format!("{float:.places$}"), &config);
    assert_eq!(DateTime::from_float_with_config(float, &config), exact, "{float:e}");
}
