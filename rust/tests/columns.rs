//! Columns by readers that are not configured, and without room for an error. `rows.rs` has the columns of each reader.

use speedate::{
    read_column, read_texts, DateReader, DateTimeClockReader, DateTimeOffsetReader, DateTimeReader, DurationReader,
    LineConfig, LineReader, Progress, TimeOffsetReader, TimeReader,
};

/// How many lines of a text a default reader reads, and why not the next.
fn read_by_default<R: LineReader<Number: Default> + Default>(text: &str) -> (usize, Option<String>) {
    let (config, mut out) = (LineConfig { at_end: true, drops_returns: false }, [R::Number::default(); 4]);
    let Progress { lines, error, .. } = read_column(text.as_bytes(), config, &R::default(), &mut out, None).unwrap();
    (lines, error.map(|refused| refused.to_string()))
}

#[test]
fn defaults() {
    let refused = |why: &str| (1, Some(why.to_owned()));
    assert_eq!(
        read_by_default::<DateReader>("2020-02-29\n1582934400"),
        refused("invalid_char_date_sep at byte 4: expected a hyphen, as in YYYY-MM-DD")
    );
    assert_eq!(
        read_by_default::<DateTimeReader>("2020-02-29 12:13Z\n2020-02-29 12:13"),
        refused("tz_required at byte 16: expected an offset: Z or +01:00")
    );
    assert_eq!(read_by_default::<DateTimeClockReader>("2020-02-29 12:13Z\n2020-02-29 12:13"), (2, None));
    assert_eq!(
        read_by_default::<DateTimeOffsetReader>("2020-02-29 12:13+01:00\n1"),
        refused("too_short at byte 1: expected a date-time: YYYY-MM-DDTHH:MM or YYYY-MM-DDTHH:MM:SS")
    );
    assert_eq!(
        read_by_default::<TimeReader>("12:13\n12:13:14.1234567"),
        refused("second_fraction_too_long at byte 15: expected at most six digits of a second's fraction")
    );
    assert_eq!(
        read_by_default::<TimeOffsetReader>("12:13Z\n12:13"),
        refused("tz_required at byte 5: expected an offset: Z or +01:00")
    );
    assert_eq!(
        read_by_default::<DurationReader>("PT1S\nP999999999D"),
        refused("number_too_large at byte 0: expected a duration of less than 2^63 microseconds")
    );
}

#[test]
fn no_room_for_an_error() {
    let (config, mut out) = (LineConfig { at_end: true, drops_returns: false }, [7]);
    let nothing = Progress { lines: 0, bytes: 0, error: None };
    let read = read_column(b"1970-01-01", config, &DateReader::Text, &mut out, Some(&mut []));
    assert_eq!(read, Ok(nothing.clone()));
    assert_eq!(read_texts(b"1970-01-01", &[0, 10], &DateReader::Text, &mut out, Some(&mut [])), Ok(Some(nothing)));
    assert_eq!(out, [7]);
}
