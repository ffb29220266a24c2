//! Names of choices, numbers, what `format!` shows, keys, and clocks.

use std::collections::{BTreeMap, HashMap};

use speedate::{
    float_parse_bytes, float_parse_str, ConfigError, Date, DateTime, Duration, MicrosecondsPrecisionOverflowBehavior,
    ParseError, Time, TimestampUnit,
};

#[test]
fn names_in_any_case() {
    let unit = str::parse::<TimestampUnit>;
    for (names, wanted) in [
        (["s", "S"], TimestampUnit::Second),
        (["Ms", "MS"], TimestampUnit::Millisecond),
        (["infer", "INFER"], TimestampUnit::Infer),
    ] {
        assert_eq!(names.map(unit), [Ok(wanted), Ok(wanted)]);
    }
    let behavior = str::parse::<MicrosecondsPrecisionOverflowBehavior>;
    assert_eq!(["error", "ERROR"].map(behavior), [(); 2].map(|()| Ok(MicrosecondsPrecisionOverflowBehavior::Error)));
    assert_eq!(
        ["Truncate", "TRUNCATE"].map(behavior),
        [(); 2].map(|()| Ok(MicrosecondsPrecisionOverflowBehavior::Truncate))
    );
    for name in ["", " s", "s ", "us", "sec", "inferred", "truncated", "errors"] {
        assert_eq!(unit(name), Err(ConfigError::UnknownTimestampUnitString));
        assert_eq!(behavior(name), Err(ConfigError::UnknownMicrosecondsPrecisionOverflowBehaviorString));
    }
}

#[test]
fn no_numbers() {
    for text in [" 1.5", "1.5 ", " 1", "1 ", "", ".", "-", "1.5.", "inf", "nan", "1e3", "0x1.0", "1_0.5"] {
        assert!(float_parse_str(text).is_err(), "{text:?}");
    }
    assert!(float_parse_bytes(b"1.\xff").is_err());
}

#[test]
fn formats() {
    let [unit, behavior] =
        [ConfigError::UnknownTimestampUnitString, ConfigError::UnknownMicrosecondsPrecisionOverflowBehaviorString];
    assert_eq!(format!("{unit}"), "unknown_timestamp_unit_string");
    assert_eq!(format!("{behavior}"), "unknown_microseconds_precision_overflow_behavior_string");
    assert_eq!(format!("{unit:>31}|{unit:.7}"), "  unknown_timestamp_unit_string|unknown");
    assert_eq!([unit, behavior].map(|it| it.get_documentation()), [None; 2]);
    assert_eq!(format!("{:12}|{:-^15}", ParseError::TooShort, ParseError::TooShort), "too_short   |---too_short---");
    let date = Date { year: 2020, month: 2, day: 29 };
    assert_eq!(format!("{date:>12}|{date:.4}|{date}"), "2020-02-29|2020-02-29|2020-02-29");
}

#[test]
fn keys() {
    let texts = ["2021-01-01", "2020-12-31", "2020-02-29", "0000-01-01", "2020-12-30"];
    let mut dates = texts.map(|text| Date::parse_str(text).unwrap());
    dates.sort();
    assert_eq!(
        dates.map(|date| date.to_string()),
        ["0000-01-01", "2020-02-29", "2020-12-30", "2020-12-31", "2021-01-01"]
    );
    let places: HashMap<_, _> = dates.into_iter().zip(0..).collect();
    assert_eq!(places[&Date { year: 2020, month: 2, day: 29 }], 1);
    let names: BTreeMap<_, _> = ["PT1S", "-PT1S", "-PT0S", "P1D", "PT0S"]
        .into_iter()
        .map(|text| (Duration::parse_str(text).unwrap(), text))
        .collect();
    assert_eq!(names.into_values().collect::<Vec<_>>(), ["-PT1S", "-PT0S", "PT0S", "PT1S", "P1D"]);
    let value = DateTime::parse_str("2020-02-29T12:13Z").unwrap();
    let seen: HashMap<_, _> = [((value, value.time), 1)].into();
    assert_eq!(seen[&(value, Time::parse_str("12:13Z").unwrap())], 1);
}

/// At any time one of these offsets has another date than UTC.
#[test]
#[cfg(feature = "std")]
fn clocks() {
    for offset in [43_200, -43_200, 0] {
        let before = DateTime::now(offset).unwrap();
        let today = Date::today(offset).unwrap();
        let after = DateTime::now(offset).unwrap();
        assert!((before.date..=after.date).contains(&today));
        assert_eq!(before.time.tz_offset, Some(offset));
        assert!(before <= after && before.timestamp_tz() >= 1_700_000_000);
    }
    assert_eq!(Date::today(86_400), Err(ParseError::OutOfRangeTz));
}
