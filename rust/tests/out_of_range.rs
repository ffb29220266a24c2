//! Values whose fields are out of range, and configured offsets of a day or more.

use std::cell::RefCell;
use std::panic::{catch_unwind, set_hook, take_hook};
use std::sync::Once;

use speedate::{
    duration_microseconds, read_column, Date, DateTime, DateTimeConfig, DateTimeParser, DateTimeReader, Duration,
    DurationReader, Fault, Form, LineConfig, ParseError, Time, TimeConfig,
};

const DATE: Date = Date { year: 2020, month: 2, day: 29 };
const TIME: Time = Time { hour: 12, minute: 13, second: 14, microsecond: 0, tz_offset: Some(0) };
const DURATION: Duration = Duration { positive: true, day: 1, second: 2, microsecond: 3 };

const DATES: [(Date, ParseError, &str); 6] = [
    (Date { year: 10_000, ..DATE }, ParseError::DateTooLarge, "year"),
    (Date { month: 0, ..DATE }, ParseError::OutOfRangeMonth, "month"),
    (Date { month: 13, ..DATE }, ParseError::OutOfRangeMonth, "month"),
    (Date { year: 2021, ..DATE }, ParseError::OutOfRangeDay, "day"),
    (Date { year: 10_000, month: 13, day: 0 }, ParseError::DateTooLarge, "year"),
    (Date { month: 0, day: 32, ..DATE }, ParseError::OutOfRangeMonth, "month"),
];

const TIMES: [(Time, ParseError, &str); 10] = [
    (Time { hour: 24, ..TIME }, ParseError::OutOfRangeHour, "hour"),
    (Time { minute: 60, ..TIME }, ParseError::OutOfRangeMinute, "minute"),
    (Time { second: 60, ..TIME }, ParseError::OutOfRangeSecond, "second"),
    (Time { microsecond: 1_000_000, ..TIME }, ParseError::TimeTooLarge, "microsecond"),
    (Time { tz_offset: Some(86_400), ..TIME }, ParseError::OutOfRangeTz, "tz_offset"),
    (Time { tz_offset: Some(i32::MIN), ..TIME }, ParseError::OutOfRangeTz, "tz_offset"),
    (Time { hour: 24, minute: 60, ..TIME }, ParseError::OutOfRangeHour, "hour"),
    (Time { minute: 60, second: 60, ..TIME }, ParseError::OutOfRangeMinute, "minute"),
    (Time { second: 60, microsecond: 1_000_000, ..TIME }, ParseError::OutOfRangeSecond, "second"),
    (Time { microsecond: 1_000_000, tz_offset: Some(-86_400), ..TIME }, ParseError::TimeTooLarge, "microsecond"),
];

const DURATIONS: [(Duration, ParseError, &str); 5] = [
    (Duration { day: 1_000_000_000, ..DURATION }, ParseError::DurationDaysTooLarge, "day"),
    (Duration { second: 86_400, ..DURATION }, ParseError::DurationValueTooLarge, "second"),
    (Duration { microsecond: 1_000_000, ..DURATION }, ParseError::DurationValueTooLarge, "microsecond"),
    (Duration { second: 86_400, microsecond: 1_000_000, ..DURATION }, ParseError::DurationValueTooLarge, "second"),
    (Duration { day: 1_000_000_000, second: 86_400, ..DURATION }, ParseError::DurationDaysTooLarge, "day"),
];

thread_local! {
    /// The file that the last panic has named.
    static FILE: RefCell<String> = const { RefCell::new(String::new()) };
}

/// Has each panic leave the file that it names.
fn keep_files() {
    static KEPT: Once = Once::new();
    KEPT.call_once(|| {
        let show = take_hook();
        set_hook(Box::new(move |panic| {
            FILE.set(panic.location().map_or_else(String::new, |it| it.file().to_owned()));
            show(panic);
        }));
    });
}

/// Asserts that each call panics, and names the field and, except from Display, the caller's file.
macro_rules! assert_panics {
    ($field:expr; $($call:expr),*) => {$(
        keep_files();
        let panic = catch_unwind(|| $call).err().expect(stringify!($call));
        let said = panic.downcast_ref::<String>().expect("a panic says why");
        assert!(said.starts_with(&format!("`{}` is out of range in ", $field)), "{said}");
        let file = FILE.take();
        assert!(file == file!() || stringify!($call).ends_with("to_string()"), "{} panics in {file}", stringify!($call));
    )*};
}

#[test]
fn dates() {
    for (date, error, field) in DATES {
        assert_panics!(field; date.to_string(), date.timestamp(), date.timestamp_ms(), date.ordinal_day());
        assert_panics!(field; date.days_since(&DATE), DATE.days_since(&date));
        assert_panics!(field; Duration::between_dates(&date, &DATE), Duration::between_dates(&DATE, &date));
        assert_eq!(date.checked_add_days(1), None);
        assert_eq!([DURATION.after_date(&date), DURATION.before_date(&date)], [Err(error.clone()), Err(error)]);
    }
}

#[test]
fn times() {
    for (time, error, field) in TIMES {
        assert_panics!(field; time.to_string(), time.total_seconds(), time.total_ms());
        assert_eq!([time.in_timezone(0), time.with_timezone_offset(time.tz_offset)], [Err(error.clone()), Err(error)]);
        assert!(time.eq(&time) && time.partial_cmp(&TIME).is_none() && TIME.partial_cmp(&time).is_none());
    }
}

#[test]
fn date_times() {
    let good = DateTime { date: DATE, time: TIME };
    let dates = DATES.map(|(date, error, field)| (DateTime { date, ..good }, error, field));
    let times = TIMES.map(|(time, error, field)| (DateTime { time, ..good }, error, field));
    let both = TIMES.map(|(time, ..)| (DateTime { date: DATES[0].0, time }, ParseError::DateTooLarge, "year"));
    for (it, error, field) in dates.into_iter().chain(times).chain(both) {
        assert_panics!(field; it.to_string(), it.timestamp(), it.timestamp_ms(), it.timestamp_tz(), it.timestamp_tz_ms());
        assert_panics!(field; it.timestamp_tz_us());
        assert_panics!(field; Duration::between(&it, &good), Duration::between(&good, &it));
        let moved = [it.in_timezone(0), it.with_timezone_offset(it.time.tz_offset)];
        assert_eq!(moved, [Err(error.clone()), Err(error.clone())]);
        assert_eq!([DURATION.after(&it), DURATION.before(&it)], [Err(error.clone()), Err(error)]);
        assert!(it.eq(&it) && it.partial_cmp(&good).is_none() && good.partial_cmp(&it).is_none());
    }
}

#[test]
fn durations() {
    let start = DateTime { date: DATE, time: TIME };
    let bad = DateTime { date: DATES[0].0, ..start };
    for (it, error, field) in DURATIONS {
        assert_panics!(field; it.to_string(), it.signed_total_seconds(), it.signed_total_ms(), it.signed_microseconds());
        assert_eq!([it.after(&start), it.before(&start)], [Err(error.clone()), Err(error.clone())]);
        assert_eq!([it.after(&bad), it.before(&bad)], [Err(error.clone()), Err(error.clone())]);
        let dates = [it.after_date(&DATE), it.before_date(&DATE), it.after_date(&bad.date), it.before_date(&bad.date)];
        assert_eq!(dates, [(); 4].map(|()| Err(error.clone())));
        assert_eq!(Duration::sum(&[DURATION, it.clone()]), Err(error.clone()));
        assert_eq!(duration_microseconds(&it), Err(Fault::Parse(error)));
        assert!(it.eq(&it) && it.cmp(&DURATION).is_gt());
    }
}

/// The order of durations is total, also of those that are out of range.
#[test]
fn order_of_durations() {
    let sizes = [
        (0, 0, 0),
        (0, 0, 1),
        (0, 0, u32::MAX),
        (0, 1, 0),
        (0, u32::MAX, 0),
        (1, 0, 0),
        (1, 86_400, 0),
        (u32::MAX, 0, 0),
    ];
    let durations = |positive| sizes.map(|(day, second, microsecond)| Duration { positive, day, second, microsecond });
    let rising: Vec<_> = durations(false).into_iter().rev().chain(durations(true)).collect();
    for (first_place, first) in rising.iter().enumerate() {
        for (second_place, second) in rising.iter().enumerate() {
            assert_eq!(first.cmp(second), first_place.cmp(&second_place));
            assert_eq!(first.partial_cmp(second), Some(first.cmp(second)));
        }
    }
}

#[test]
fn configured_offsets() {
    for offset in [86_400, -86_400, i32::MIN] {
        let time_config = TimeConfig::builder().unix_timestamp_offset(Some(offset)).build();
        let config = DateTimeConfig::builder().time_config(time_config.clone()).build();
        assert_eq!(Time::from_timestamp_with_config(1, 0, &time_config), Err(ParseError::OutOfRangeTz));
        assert_eq!(DateTime::from_timestamp_with_config(1, 0, &config), Err(ParseError::OutOfRangeTz));
        assert_eq!(DateTime::from_float_with_config(1.5, &config), Err(ParseError::OutOfRangeTz));
        for text in ["1", "2020-02-29T12:13", "x"] {
            assert_eq!(DateTime::parse_str_with_config(text, &config), Err(ParseError::OutOfRangeTz));
        }
        for (text, form) in ["x", "2020-02-29T12:13"].into_iter().zip([Form::Text, Form::OrTimestamp]) {
            let refused = DateTime::parse_or_place(text.as_bytes(), form, &config).unwrap_err();
            assert_eq!((refused.fault, refused.start, refused.end), (Fault::ConfigOutOfRange, 0, 0));
        }
        assert_eq!(Time::parse_or_place(b"24:00", Form::Text, &time_config).unwrap_err().end, 2);
        assert_eq!(Duration::parse_or_place(b"P1D1Q", Form::Text, &time_config).unwrap_err().start, 4);
        assert_eq!(Time::parse_bytes_with_config(b"12:13:14Z", &time_config), Ok(TIME));
        assert_eq!(Time::parse_front(b"12:13:14Z x", &time_config), Ok((TIME, 9)));
        assert!(DateTime::parse_bytes_rfc3339_with_config(b"2020-02-29T12:13", &time_config).is_ok());
        assert!(Duration::parse_bytes_with_config(b"00:00:01", &time_config).is_ok());

        let (lines, mut out, mut errors) = (LineConfig { at_end: true, drops_returns: false }, [7; 2], [7; 2]);
        let reader = DateTimeReader { parser: DateTimeParser::OrTimestamp(config), assumes_utc: false };
        assert_eq!(read_column(b"1970-01-01T00:00Z", lines, &reader, &mut out, None), Err(ParseError::OutOfRangeTz));
        let with_errors = read_column(b"1", lines, &reader, &mut out, Some(&mut errors));
        assert_eq!((with_errors, out, errors), (Err(ParseError::OutOfRangeTz), [7; 2], [7; 2]));
        let reader = DateTimeReader { parser: DateTimeParser::Text(time_config.clone()), ..reader };
        assert!(read_column(b"1970-01-01T00:00Z", lines, &reader, &mut out, None).is_ok_and(|it| it.lines == 1));
        let reader = DurationReader { config: time_config };
        assert!(read_column(b"00:00:01", lines, &reader, &mut out, None).is_ok_and(|it| it.lines == 1));
    }
}
