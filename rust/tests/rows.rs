//! The rows of `c/tests/rows.txt` whose call, value and configuration the API has. `readings.rs` has those of the parsers.

use std::fmt::Debug;
use std::panic::{catch_unwind, set_hook, take_hook};
use std::str::FromStr;

use speedate::{
    duration_microseconds, int_parse_str, print_column, read_column, read_texts, Date, DateConfig, DatePrinter,
    DateReader, DateTime, DateTimeClockPrinter, DateTimeClockReader, DateTimeConfig, DateTimeOffsetReader,
    DateTimeParser, DateTimePrinter, DateTimeReader, Duration, DurationPrinter, DurationReader, LineConfig,
    LinePrinter, LineReader, MicrosecondsPrecisionOverflowBehavior, ParseError, Progress, Refused, TextReader, Time,
    TimeConfig, TimeOffsetReader, TimeParser, TimePrinter, TimeReader, TimestampUnit,
};

const ROWS: &str = include_str!("../../c/tests/rows.txt");

#[test]
fn rows() {
    // What a panic says is tested in `out_of_range.rs`.
    set_hook(Box::new(|_| {}));
    let tried: Vec<_> = ROWS.lines().filter_map(|row| Some((row, is_right(row)?))).collect();
    let _ = take_hook();
    let wrong: Vec<_> = tried.iter().filter(|(_, is_right)| !is_right).collect();
    assert!(wrong.is_empty(), "{wrong:#?}");
    assert!(tried.len() > 200, "only {} rows", tried.len());
    let columns = tried.iter().filter(|(row, _)| row.contains("_column")).count();
    assert!(columns > 70, "only {columns} rows of columns");
    let texts = tried.iter().filter(|(row, _)| row.contains("_texts|")).count();
    assert!(texts > 40, "only {texts} rows of columns of texts");
}

/// Whether a row tells what its call answers, if the API has the call. One that panics has a value out of range.
fn is_right(row: &str) -> Option<bool> {
    let fields: Vec<&str> = row.split('|').collect();
    catch_unwind(|| Row(&fields).is_right()).unwrap_or(Some(row.ends_with("|value_out_of_range")))
}

/// The fields of a row: the call, its arguments, the name of its code, and what it writes.
struct Row<'a>(&'a [&'a str]);

impl Row<'_> {
    fn is_right(&self) -> Option<bool> {
        let config = |place| self.get::<DateTimeConfig>(place);
        let time_config = |place| Some(config(place)?.time_config);
        Some(match self.0[0] {
            "int_parse" => self.has(2, int_parse_str(self.0[1]).ok_or("invalid_integer")),
            "date_to_text" => self.has_text(2, self.get::<Date>(1)?),
            "date_from_timestamp" => {
                let is_exact = *[false, true].get(self.get::<i64>(2)? as usize)?;
                self.has(4, Date::from_timestamp(self.get(1)?, is_exact, &self.get(3)?))
            }
            "date_timestamp" => self.has_total(self.get::<Date>(1)?.timestamp()),
            "date_timestamp_ms" => self.has_total(self.get::<Date>(1)?.timestamp_ms()),
            "date_ordinal_day" => self.has_total(self.get::<Date>(1)?.ordinal_day()),
            "date_add_days" => match self.get::<Date>(1)?.checked_add_days(self.get(2)?) {
                None => matches!(self.0[3], "no_such_date" | "value_out_of_range"),
                date => self.get(4) == date,
            },
            "date_days_between" => self.get(4) == Some(self.get::<Date>(2)?.days_since(&self.get(1)?)),
            "time_to_text" => self.has_text(2, self.get::<Time>(1)?),
            "time_to_text_with_digits" => self.has_text(3, format!("{:.*}", self.digits()?, self.get::<Time>(1)?)),
            "time_compare" => self.has_order::<Time>()?,
            "time_from_timestamp" => {
                self.has(4, Time::from_timestamp_with_config(self.get(1)?, self.get(2)?, &time_config(3)?))
            }
            "time_total_seconds" => self.has_total(self.get::<Time>(1)?.total_seconds()),
            "time_total_ms" => self.has_total(self.get::<Time>(1)?.total_ms()),
            "time_in_timezone" => self.has(3, self.get::<Time>(1)?.in_timezone(self.get(2)?)),
            "datetime_to_text" => self.has_text(2, self.get::<DateTime>(1)?),
            "datetime_to_text_with_digits" => {
                self.has_text(3, format!("{:.*}", self.digits()?, self.get::<DateTime>(1)?))
            }
            "datetime_compare" => self.has_order::<DateTime>()?,
            "datetime_from_timestamp" => {
                self.has(4, DateTime::from_timestamp_with_config(self.get(1)?, self.get(2)?, &config(3)?))
            }
            "datetime_clock_seconds" => self.has_total(self.get::<DateTime>(1)?.timestamp()),
            "datetime_clock_milliseconds" => self.has_total(self.get::<DateTime>(1)?.timestamp_ms()),
            "datetime_unix_seconds" => self.has_total(self.get::<DateTime>(1)?.timestamp_tz()),
            "datetime_unix_milliseconds" => self.has_total(self.get::<DateTime>(1)?.timestamp_tz_ms()),
            "datetime_unix_microseconds" => self.has_total(self.get::<DateTime>(1)?.timestamp_tz_us()),
            "datetime_in_timezone" => self.has(3, self.get::<DateTime>(1)?.in_timezone(self.get(2)?)),
            "duration_normalize" => {
                let Duration { positive, day, second, microsecond } = self.get(1)?;
                self.has(2, Duration::new(positive, day, second, microsecond))
            }
            "duration_to_text" => self.has_text(2, self.get::<Duration>(1)?),
            // Durations out of range have an order too.
            "duration_compare" if self.0[3] == "value_out_of_range" => return None,
            "duration_compare" => self.has_order::<Duration>()?,
            "duration_signed_total_seconds" => self.has_total(self.get::<Duration>(1)?.signed_total_seconds()),
            "duration_signed_total_ms" => self.has_total(self.get::<Duration>(1)?.signed_total_ms()),
            "duration_signed_microseconds" => self.has_total(self.get::<Duration>(1)?.signed_microseconds()),
            "duration_from_signed_microseconds" => {
                self.has(2, Ok::<_, ParseError>(Duration::from_signed_microseconds(self.get(1)?)))
            }
            "duration_signed_total_microseconds" => self.has(2, duration_microseconds(&self.get(1)?)),
            "duration_sum" => {
                let place = self.0.iter().skip(1).position(|it| it.contains(char::is_alphabetic))? + 1;
                let durations: Option<Vec<Duration>> = (1..place).map(|place| self.get(place)).collect();
                self.has(place, Duration::sum(&durations?))
            }
            "duration_between" => self.get(4) == Some(Duration::between(&self.get(1)?, &self.get(2)?)),
            "duration_after" => self.has(3, self.get::<Duration>(1)?.after(&self.get(2)?)),
            "duration_before" => self.has(3, self.get::<Duration>(1)?.before(&self.get(2)?)),
            "duration_between_dates" => self.get(4) == Some(Duration::between_dates(&self.get(1)?, &self.get(2)?)),
            "duration_after_date" => self.has(3, self.get::<Duration>(1)?.after_date(&self.get(2)?)),
            "duration_before_date" => self.has(3, self.get::<Duration>(1)?.before_date(&self.get(2)?)),
            "date_column" | "date_texts" => {
                let config: DateConfig = self.get(1)?;
                let readers = [DateReader::Text, DateReader::OrTimestamp(config)];
                self.has_column_or_texts(readers.get(usize::from(self.get::<Column>(2)?.parser))?)?
            }
            "datetime_column" | "datetime_texts" => {
                let assumes_utc = self.get::<Column>(2)?.assumes_utc;
                self.has_column_or_texts(&DateTimeReader { parser: self.get_parser()?, assumes_utc })?
            }
            "datetime_clock_column" => self.has_column(&DateTimeClockReader { parser: self.get_parser()? })?,
            "datetime_offset_column" => self.has_column(&DateTimeOffsetReader { parser: self.get_parser()? })?,
            "time_column" | "time_texts" => {
                self.has_column_or_texts(&TimeReader { parser: self.get_time_parser()? })?
            }
            "time_offset_column" => self.has_column(&TimeOffsetReader { parser: self.get_time_parser()? })?,
            "duration_column" | "duration_texts" => {
                self.has_column_or_texts(&DurationReader { config: time_config(1)? })?
            }
            "date_print_column" => self.has_lines(&DatePrinter),
            "datetime_print_column" => self.has_lines(&DateTimePrinter),
            "datetime_clock_print_column" => self.has_lines(&DateTimeClockPrinter),
            "time_print_column" => self.has_lines(&TimePrinter),
            "duration_print_column" => self.has_lines(&DurationPrinter),
            _ => return None,
        })
    }

    /// The parser of a column of date-times.
    fn get_parser(&self) -> Option<DateTimeParser> {
        let config: DateTimeConfig = self.get(1)?;
        Some(match self.get::<Column>(2)?.parser {
            0 => DateTimeParser::Text(config.time_config),
            1 => DateTimeParser::OrTimestamp(config),
            2 => DateTimeParser::Strict(config.time_config.microseconds_precision_overflow_behavior),
            _ => DateTimeParser::Loose(config.time_config.microseconds_precision_overflow_behavior),
        })
    }

    /// The parser of a column of times.
    fn get_time_parser(&self) -> Option<TimeParser> {
        let config = self.get::<DateTimeConfig>(1)?.time_config;
        match self.get::<Column>(2)?.parser {
            0 => Some(TimeParser::Text(config)),
            2 => Some(TimeParser::Strict(config.microseconds_precision_overflow_behavior)),
            _ => None,
        }
    }

    /// Whether a column has these numbers, errors and progress.
    fn has_column<R: LineReader<Number: Default + ToString>>(&self, reader: &R) -> Option<bool> {
        let (mut out, mut errors) = self.places::<R::Number>()?;
        let text = self.lines(4);
        let lines = self.get::<Column>(2)?.lines;
        let progress = read_column(text.as_bytes(), lines, reader, &mut out, errors.as_deref_mut()).unwrap();
        Some(is_read(&self.0[5..], &progress, &out, errors.as_deref()))
    }

    /// The same, or the same of a column of texts if the call says so.
    fn has_column_or_texts<R: TextReader<Number: Default + ToString>>(&self, reader: &R) -> Option<bool> {
        if self.0[0].ends_with("_column") {
            return self.has_column(reader);
        }
        let (mut out, mut errors) = self.places::<R::Number>()?;
        let bytes = self.lines(5);
        let offsets: Vec<i32> = self.0[4].split_whitespace().map(|it| it.parse().unwrap()).collect();
        let progress = read_texts(bytes.as_bytes(), &offsets, reader, &mut out, errors.as_deref_mut());
        let Some(progress) = progress.unwrap() else {
            return Some(self.0[6..] == ["value_out_of_range"]);
        };
        Some(is_read(&self.0[6..], &progress, &out, errors.as_deref()))
    }

    /// A text that may have several lines.
    fn lines(&self, place: usize) -> String {
        self.0[place].replace("\\n", "\n").replace("\\r", "\r")
    }

    /// The places of a column for numbers and for errors. A column without these that goes on is none of the API.
    fn places<N: Default + Copy>(&self) -> Option<(Vec<N>, Option<Vec<u8>>)> {
        let rooms: Vec<usize> = self.0[3].split(' ').map(|room| room.parse().unwrap()).collect();
        let errors = rooms.get(1).filter(|room| **room > 0).map(|room| vec![0; *room]);
        (errors.is_some() || !self.get::<Column>(2)?.goes_on).then(|| (vec![N::default(); rooms[0]], errors))
    }

    /// Whether numbers have these lines and this progress.
    fn has_lines<P: LinePrinter<Number: FromStr<Err: Debug>>>(&self, printer: &P) -> bool {
        let numbers: Vec<P::Number> = self.0[2].split_whitespace().map(|it| it.parse().unwrap()).collect();
        let mut out = vec![b'-'; self.0[1].parse().unwrap()];
        let Progress { lines, bytes, error } = print_column(&numbers, printer, &mut out);
        let (text, rest) = out.split_at(bytes);
        let error = error.map_or("ok".to_owned(), |refused| {
            assert_eq!((refused.start, refused.end), (0, 0), "a number has no part");
            refused.fault.to_string()
        });
        let written = [text.escape_ascii().to_string(), format!("{lines} {bytes} {error}")];
        rest.iter().all(|byte| *byte == b'-') && self.0[3] == "ok" && self.0[4..] == written
    }

    fn get<T: Field>(&self, place: usize) -> Option<T> {
        T::of(self.0.get(place)?)
    }

    /// Whether the code and what is written have these places.
    fn has<T: Field + PartialEq>(&self, place: usize, answer: Result<T, impl ToString>) -> bool {
        match answer {
            Ok(value) => self.0[place] == "ok" && self.get(place + 1) == Some(value),
            Err(error) => self.error(place) == error.to_string(),
        }
    }

    /// The error of a code. Where this is that of a value or of a configuration out of range, Rust has the error of the field.
    fn error(&self, place: usize) -> &str {
        match self.0[place] {
            "value_out_of_range" => self.0[1..place].iter().find_map(|value| checked(value)).unwrap_or_default(),
            "config_out_of_range" => "out_of_range_tz",
            code => code,
        }
    }

    /// The digits of a second that a row prints, if a precision can ask for them.
    fn digits(&self) -> Option<usize> {
        self.get(2).filter(|it| [0, 3, 6].contains(it))
    }

    fn has_text(&self, place: usize, value: impl ToString) -> bool {
        self.0.get(place + 1) == Some(&value.to_string().as_str())
    }

    fn has_total(&self, total: impl Into<i64>) -> bool {
        self.get(3) == Some(total.into())
    }

    fn has_order<T: Field + PartialOrd>(&self) -> Option<bool> {
        let order = self.get::<T>(1)?.partial_cmp(&self.get(2)?);
        Some(order.map_or(self.0[3] == "value_out_of_range", |order| self.get(4) == Some(order as i32)))
    }
}

/// Whether a row has these numbers, errors and progress of a column. It also has the kind of the part, which the API has not.
fn is_read(row: &[&str], progress: &Progress, numbers: &[impl ToString], errors: Option<&[u8]>) -> bool {
    let Progress { lines, bytes, error } = progress;
    let reached = match error {
        None => format!("{lines} {bytes} ok"),
        Some(Refused { fault, start, end, .. }) => format!("{lines} {bytes} {fault} {start} {end} "),
    };
    let mut written = vec!["ok".to_owned(), joined(&numbers[..*lines])];
    written.extend(errors.map(|errors| joined(&errors[..*lines])));
    let kind = row.last().and_then(|last| last.strip_prefix(&reached));
    row[..row.len() - 1] == written
        && kind.is_some_and(|kind| error.as_ref().map_or(kind.is_empty(), |refused| is_expected(refused, kind)))
}

/// Whether a refusal by a call of a kind names what was expected, if a row has the phrase.
fn is_expected(refused: &Refused, kind: &str) -> bool {
    let row = format!("code_expected|{}|{kind}|ok|", refused.fault.number());
    let phrase = ROWS.lines().find_map(|it| it.strip_prefix(&row));
    phrase.is_none_or(|phrase| refused.expected().to_string() == phrase)
}

fn joined(numbers: &[impl ToString]) -> String {
    numbers.iter().map(ToString::to_string).collect::<Vec<_>>().join(" ")
}

/// The error with which a row of a `_check` call refuses a value.
fn checked(value: &str) -> Option<&'static str> {
    ROWS.lines().find_map(|row| {
        let (call, rest) = row.split_once('|')?;
        let error = rest.strip_prefix(value)?.strip_prefix('|')?;
        (call.ends_with("_check") && error != "ok").then_some(error)
    })
}

/// What a field says, if the API has it.
trait Field: Sized {
    fn of(field: &str) -> Option<Self>;
}

fn numbers<const N: usize>(field: &str) -> Option<[i64; N]> {
    field.split(' ').map(|it| it.parse().ok()).collect::<Option<Vec<_>>>()?.try_into().ok()
}

macro_rules! number_field {
    ($($kind:ty)*) => {$(
        impl Field for $kind {
            fn of(field: &str) -> Option<Self> {
                field.parse().ok()
            }
        }
    )*};
}

number_field!(i64 i32 u32 usize);

impl Field for DateTimeConfig {
    fn of(field: &str) -> Option<Self> {
        let field = if field == "default" { "0 0 0 0 0" } else { field };
        let [offset, flag, unit, behavior, 0] = numbers(field)? else { return None };
        let units = [TimestampUnit::Infer, TimestampUnit::Second, TimestampUnit::Millisecond];
        let behaviors = ["error", "truncate"].map(|it| it.parse::<MicrosecondsPrecisionOverflowBehavior>().unwrap());
        let microseconds_precision_overflow_behavior = *behaviors.get(behavior as usize)?;
        let unix_timestamp_offset = flagged(flag, offset)?;
        let time_config = TimeConfig { microseconds_precision_overflow_behavior, unix_timestamp_offset };
        Some(DateTimeConfig { timestamp_unit: *units.get(unit as usize)?, time_config })
    }
}

/// It has no offset.
impl Field for DateConfig {
    fn of(field: &str) -> Option<Self> {
        let DateTimeConfig { timestamp_unit, time_config } = Field::of(field)?;
        time_config.unix_timestamp_offset.is_none().then_some(DateConfig { timestamp_unit })
    }
}

/// How a column is read.
struct Column {
    lines: LineConfig,
    parser: u8,
    assumes_utc: bool,
    goes_on: bool,
}

impl Field for Column {
    fn of(field: &str) -> Option<Self> {
        let field = if field == "default" { "1 0 0 0 0" } else { field };
        let [at_end, drops_returns, parser @ 0..=2, assumes_utc, goes_on] = numbers(field)? else { return None };
        let flag = |number| [false, true].get(number as usize).copied();
        let lines = LineConfig { at_end: flag(at_end)?, drops_returns: flag(drops_returns)? };
        Some(Column { lines, parser: parser as u8, assumes_utc: flag(assumes_utc)?, goes_on: flag(goes_on)? })
    }
}

impl Field for Date {
    fn of(field: &str) -> Option<Self> {
        let [year, month, day] = numbers(field)?;
        Some(Date { year: year as u16, month: month as u8, day: day as u8 })
    }
}

impl Field for Time {
    fn of(field: &str) -> Option<Self> {
        let [hour, minute, second, flag, microsecond, offset] = numbers(field)?;
        let [hour, minute, second] = [hour, minute, second].map(|it| it as u8);
        Some(Time { hour, minute, second, microsecond: microsecond as u32, tz_offset: flagged(flag, offset)? })
    }
}

impl Field for DateTime {
    fn of(field: &str) -> Option<Self> {
        let (place, _) = field.match_indices(' ').nth(2)?;
        Some(DateTime { date: Field::of(&field[..place])?, time: Field::of(&field[place + 1..])? })
    }
}

impl Field for Duration {
    fn of(field: &str) -> Option<Self> {
        let [negative @ 0..=1, numbers @ ..] = numbers::<4>(field)? else { return None };
        let [day, second, microsecond] = numbers.map(|it| it as u32);
        Some(Duration { positive: negative == 0, day, second, microsecond })
    }
}

/// An offset, or none, if the flag says either.
fn flagged(flag: i64, offset: i64) -> Option<Option<i32>> {
    [None, Some(offset as i32)].get(flag as usize).copied()
}
