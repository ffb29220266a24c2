use crate::ffi::{self, Code, ColumnConfig, Config};
use crate::value::Value;
use crate::{
    DateConfig, DateTimeConfig, Duration, Fault, Form, MicrosecondsPrecisionOverflowBehavior, ParseError, Refused,
    TimeConfig,
};

/// How a text is cut into lines.
///
/// ```
/// use speedate::{read_column, DateReader, LineConfig};
///
/// let text = b"1970-01-02\r\n1970-01-03";
/// let lines = |at_end| LineConfig { at_end, drops_returns: true };
/// assert_eq!(read_column(text, lines(true), &DateReader::Text, &mut [0; 8], None).unwrap().lines, 2);
/// assert_eq!(read_column(text, lines(false), &DateReader::Text, &mut [0; 8], None).unwrap().lines, 1);
/// ```
#[derive(Debug, PartialEq, Eq, Clone, Copy)]
pub struct LineConfig {
    /// Whether the end of the text ends its last line. Otherwise that line is left, since it may go on.
    pub at_end: bool,
    /// Whether a carriage return at the end of a line is dropped, as files of Windows have one. Otherwise it is part of the
    /// line, which is then refused.
    pub drops_returns: bool,
}

/// How far a column has come. [`read_column`] has an example.
#[derive(Debug, PartialEq, Eq, Clone)]
pub struct Progress {
    /// How many lines have a number in the column.
    pub lines: usize,
    /// How many bytes of the text these lines take, with their ends.
    pub bytes: usize,
    /// Why the next line is refused, if that ends the column. Its bytes are counted from the beginning of the line.
    pub error: Option<Refused>,
}

/// How texts are cut that are not lines, which C does not use.
const WHOLE: LineConfig = LineConfig { at_end: true, drops_returns: false };

mod sealed {
    /// Keeps the trait to the readers that C has.
    pub trait Sealed {}
}

/// Reads a line as a number. The readers of this crate do, and no other type can.
///
/// ```
/// use speedate::{read_column, DateReader, DurationReader, LineConfig, LineReader};
///
/// fn first<R: LineReader<Number: Default>>(text: &str, reader: &R) -> R::Number {
///     let (config, mut out) = (LineConfig { at_end: true, drops_returns: false }, [R::Number::default()]);
///     read_column(text.as_bytes(), config, reader, &mut out, None).unwrap();
///     out[0]
/// }
///
/// assert_eq!(first("1970-01-02", &DateReader::Text), 1);
/// assert_eq!(first("PT1.5S", &DurationReader::default()), 1_500_000);
/// ```
pub trait LineReader: sealed::Sealed {
    /// What a line is read as.
    type Number: Copy;

    #[doc(hidden)]
    fn column(&self, text: &[u8], config: LineConfig, places: Places<Self::Number>) -> Result<Progress, ParseError>;
}

/// Reads the whole lines of a text as numbers, in order, as many as `out` has room for, and returns how far it came.
///
/// A line is ended by a line feed, or by the end of the text if `config` says so. An empty line is a line. What follows
/// the bytes that the progress counts is left for a further call. The other places of `out` stay as they are.
///
/// A line that is refused ends the column, and the progress has its error. With `errors` it does not: it gets the smallest
/// number, which no other line has, and `errors` the [number](Fault::number) of each line's fault, or 0. Then as many
/// lines are read as both slices have room for. To learn more about one of these faults, read its line without `errors`.
///
/// ```
/// use speedate::{read_column, DateReader, Fault, LineConfig, ParseError};
///
/// let (config, mut out) = (LineConfig { at_end: true, drops_returns: false }, [0; 8]);
/// let text = b"1970-01-02\n1969-12-31\n2021-02-29\n";
/// let progress = read_column(text, config, &DateReader::Text, &mut out, None)?;
/// assert_eq!((progress.lines, progress.bytes, &out[..progress.lines]), (2, 22, &[1, -1][..]));
/// let refused = progress.error.unwrap();
/// assert_eq!((refused.start, refused.end), (8, 10));
/// assert_eq!(refused.expected().to_string(), "a day that the month has");
///
/// let mut errors = [0; 8];
/// let progress = read_column(text, config, &DateReader::Text, &mut out, Some(&mut errors))?;
/// assert_eq!((progress.lines, &out[..3]), (3, &[1, -1, i32::MIN][..]));
/// assert_eq!(Fault::numbered(errors[2]), Some(Fault::Parse(ParseError::OutOfRangeDay)));
/// # Ok::<(), ParseError>(())
/// ```
///
/// # Errors
///
/// [`OutOfRangeTz`](ParseError::OutOfRangeTz) if the reader takes timestamps and their configured offset is a day or more.
/// The slices then stay as they are. A line that is refused does not make the call fail.
#[inline]
pub fn read_column<R: LineReader>(
    text: &[u8],
    config: LineConfig,
    reader: &R,
    out: &mut [R::Number],
    errors: Option<&mut [u8]>,
) -> Result<Progress, ParseError> {
    reader.column(text, config, places(out, errors))
}

/// The places that C is given, of numbers and of errors.
type Places<'a, N> = (&'a mut [N], &'a mut [u8]);

/// Without places for errors C reads a column of only numbers.
fn places<'a, N>(out: &'a mut [N], errors: Option<&'a mut [u8]>) -> Places<'a, N> {
    match errors {
        Some(errors) if errors.is_empty() => (&mut [], errors),
        errors => (out, errors.unwrap_or_default()),
    }
}

/// Reads texts that are not lines. The readers of dates, date-times, times and durations do, and no other type can.
///
/// ```
/// use speedate::{read_texts, DateReader, DurationReader, TextReader};
///
/// fn first<R: TextReader<Number: Default>>(text: &str, reader: &R) -> R::Number {
///     let mut out = [R::Number::default()];
///     read_texts(text.as_bytes(), &[0, text.len() as i32], reader, &mut out, None).unwrap();
///     out[0]
/// }
///
/// assert_eq!(first("1970-01-02", &DateReader::Text), 1);
/// assert_eq!(first("PT1.5S", &DurationReader::default()), 1_500_000);
/// ```
pub trait TextReader: LineReader {
    #[doc(hidden)]
    fn texts(
        &self,
        bytes: &[u8],
        offsets: &[i32],
        places: Places<Self::Number>,
    ) -> Result<Option<Progress>, ParseError>;
}

/// Reads texts that are parts of the same bytes as numbers, in order, as many as `out` has room for, and returns how far it
/// came.
///
/// Each text begins at its offset and ends at the next one, as in a string array of Arrow, so there is one offset more than
/// texts. The progress counts the texts as `lines`, and its `bytes` is the offset at which the last of them ends. Texts
/// that are refused, and `errors`, are as in [`read_column`].
///
/// It is `None`, and the slices stay as they are, if an offset is negative, less than the one before it, or beyond the
/// bytes.
///
/// ```
/// use speedate::{read_texts, DateReader, ParseError};
///
/// let (mut out, mut errors) = ([0; 2], [0; 2]);
/// let progress = read_texts(b"1970-01-021969-12-31", &[0, 10, 20], &DateReader::Text, &mut out, None)?.unwrap();
/// assert_eq!((progress.lines, progress.bytes, progress.error), (2, 20, None));
/// assert_eq!(out, [1, -1]);
/// read_texts(b"1970-01-02x", &[0, 10, 11], &DateReader::Text, &mut out, Some(&mut errors))?;
/// assert_eq!((out, errors), ([1, i32::MIN], [0, ParseError::TooShort.number()]));
/// assert_eq!(read_texts(b"1970-01-02", &[0, 11], &DateReader::Text, &mut out, None)?, None);
/// # Ok::<(), ParseError>(())
/// ```
///
/// # Errors
///
/// Those of [`read_column`].
#[inline]
pub fn read_texts<R: TextReader>(
    bytes: &[u8],
    offsets: &[i32],
    reader: &R,
    out: &mut [R::Number],
    errors: Option<&mut [u8]>,
) -> Result<Option<Progress>, ParseError> {
    reader.texts(bytes, offsets, places(out, errors))
}

/// Defines what a reader reads, by its function of C for lines, and that for texts if there is one.
macro_rules! reader {
    ($name:ident by $column:ident and $texts:ident -> $number:ty) => {
        reader!($name by $column -> $number);

        impl TextReader for $name {
            #[inline]
            fn texts(
                &self,
                bytes: &[u8],
                offsets: &[i32],
                (out, errors): Places<$number>,
            ) -> Result<Option<Progress>, ParseError> {
                match ffi::$texts(bytes, offsets, WHOLE, self, out, errors) {
                    Err(Code::VALUE_OUT_OF_RANGE) => Ok(None),
                    read => Ok(Some(read?)),
                }
            }
        }
    };
    ($name:ident by $column:ident -> $number:ty) => {
        impl sealed::Sealed for $name {}

        impl LineReader for $name {
            type Number = $number;

            #[inline]
            fn column(&self, text: &[u8], config: LineConfig, places: Places<$number>) -> Result<Progress, ParseError> {
                Ok(ffi::$column(text, config, self, places.0, places.1)?)
            }
        }
    };
}

/// Reads a line as a date, and counts its days from 1970-01-01: 1 for `1970-01-02`, and -1 for `1969-12-31`.
///
/// ```
/// use speedate::{read_column, DateConfig, DateReader, LineConfig};
///
/// let (config, mut out) = (LineConfig { at_end: true, drops_returns: false }, [0; 2]);
/// read_column(b"86400\n1970-01-02", config, &DateReader::OrTimestamp(DateConfig::default()), &mut out, None).unwrap();
/// assert_eq!(out, [1, 1]);
/// ```
#[derive(Debug, Clone, Default, PartialEq)]
pub enum DateReader {
    /// Parses only dates, as [`Date::parse_bytes_rfc3339`](crate::Date::parse_bytes_rfc3339) does.
    #[default]
    Text,
    /// Parses timestamps too, as [`Date::parse_bytes_with_config`](crate::Date::parse_bytes_with_config) does.
    OrTimestamp(DateConfig),
}

reader!(DateReader by speedate_date_lines and speedate_date_texts -> i32);

impl From<&DateReader> for (Config, ColumnConfig) {
    fn from(reader: &DateReader) -> Self {
        match reader {
            DateReader::Text => Self::default(),
            DateReader::OrTimestamp(config) => (config.into(), ColumnConfig::default().form(Form::OrTimestamp)),
        }
    }
}

/// How a column parses its date-times. [`DateTimeReader`] has an example.
#[derive(Debug, Clone, PartialEq)]
pub enum DateTimeParser {
    /// No timestamps, as
    /// [`DateTime::parse_bytes_rfc3339_with_config`](crate::DateTime::parse_bytes_rfc3339_with_config).
    Text(TimeConfig),
    /// Timestamps too, as [`DateTime::parse_bytes_with_config`](crate::DateTime::parse_bytes_with_config).
    OrTimestamp(DateTimeConfig),
    /// Only texts of RFC 3339, as [`DateTime::parse_bytes_strict`](crate::DateTime::parse_bytes_strict).
    Strict(MicrosecondsPrecisionOverflowBehavior),
    /// No timestamps, but zones as programs print them, as
    /// [`DateTime::parse_bytes_loose`](crate::DateTime::parse_bytes_loose).
    Loose(MicrosecondsPrecisionOverflowBehavior),
}

/// [`Text`](Self::Text), with the default configuration.
impl Default for DateTimeParser {
    fn default() -> Self {
        Self::Text(TimeConfig::default())
    }
}

/// Reads a line as a date-time, and counts its microseconds from 1970-01-01T00:00:00 in UTC, as
/// [`DateTime::timestamp_tz_us`](crate::DateTime::timestamp_tz_us) does.
///
/// ```
/// use speedate::{read_column, DateTimeParser, DateTimeReader, LineConfig, TimeConfig};
///
/// let reader = DateTimeReader { assumes_utc: true, ..Default::default() };
/// assert_eq!(reader.parser, DateTimeParser::Text(TimeConfig::default()));
/// let (config, mut out) = (LineConfig { at_end: true, drops_returns: false }, [0; 2]);
/// read_column(b"1970-01-01T00:00:01\n1970-01-01T01:00+01:00\n", config, &reader, &mut out, None).unwrap();
/// assert_eq!(out, [1_000_000, 0]);
/// ```
#[derive(Debug, Clone, Default, PartialEq)]
pub struct DateTimeReader {
    /// How a line is parsed.
    pub parser: DateTimeParser,
    /// Whether a date-time without an offset is taken to be in UTC. Otherwise it is refused, with
    /// [`TzRequired`](ParseError::TzRequired).
    pub assumes_utc: bool,
}

reader!(DateTimeReader by speedate_datetime_lines and speedate_datetime_texts -> i64);

impl From<&DateTimeReader> for (Config, ColumnConfig) {
    fn from(reader: &DateTimeReader) -> Self {
        let (config, column) = Self::from(&reader.parser);
        (config, column.assumes_utc(reader.assumes_utc))
    }
}

impl From<&DateTimeParser> for (Config, ColumnConfig) {
    fn from(parser: &DateTimeParser) -> Self {
        let column = ColumnConfig::default();
        match parser {
            DateTimeParser::Text(config) => (config.into(), column),
            DateTimeParser::OrTimestamp(config) => (config.into(), column.form(Form::OrTimestamp)),
            DateTimeParser::Strict(behavior) => (Config::default().behavior(*behavior), column.form(Form::Strict)),
            DateTimeParser::Loose(behavior) => (Config::default().behavior(*behavior), column.form(Form::Loose)),
        }
    }
}

/// Defines what a reader that has nothing but a parser is to C.
macro_rules! configured {
    ($($name:ident),*) => {$(
        impl From<&$name> for (Config, ColumnConfig) {
            fn from(reader: &$name) -> Self {
                Self::from(&reader.parser)
            }
        }
    )*};
}

/// Reads a line as a date-time, and counts the microseconds from 1970-01-01T00:00:00 on the same clock, whatever the offset.
///
/// With the number of a [`DateTimeOffsetReader`] it gives the date-time and its offset, where a [`DateTimeReader`] gives only
/// the instant.
///
/// ```
/// use speedate::{read_column, DateTimeClockReader, LineConfig};
///
/// let reader = DateTimeClockReader::default();
/// let (config, mut out) = (LineConfig { at_end: true, drops_returns: false }, [0; 2]);
/// read_column(b"1970-01-01T00:00:01\n1970-01-01T01:00+01:00\n", config, &reader, &mut out, None).unwrap();
/// assert_eq!(out, [1_000_000, 3_600_000_000]);
/// ```
#[derive(Debug, Clone, Default, PartialEq)]
pub struct DateTimeClockReader {
    /// How a line is parsed.
    pub parser: DateTimeParser,
}

reader!(DateTimeClockReader by speedate_datetime_clock_column -> i64);

/// Reads a line as a date-time, and gives its offset from UTC in seconds, positive east of UTC.
///
/// A date-time without an offset is refused, with [`TzRequired`](ParseError::TzRequired). A timestamp has the offset of the
/// configuration.
///
/// ```
/// use speedate::{read_column, DateTimeOffsetReader, LineConfig};
///
/// let reader = DateTimeOffsetReader::default();
/// let (config, mut out) = (LineConfig { at_end: true, drops_returns: false }, [7; 2]);
/// read_column(b"1970-01-01T00:00:01Z\n1970-01-01T01:00+01:00\n", config, &reader, &mut out, None).unwrap();
/// assert_eq!(out, [0, 3_600]);
/// ```
#[derive(Debug, Clone, Default, PartialEq)]
pub struct DateTimeOffsetReader {
    /// How a line is parsed.
    pub parser: DateTimeParser,
}

reader!(DateTimeOffsetReader by speedate_datetime_offset_lines -> i32);

/// How a column parses its times. [`TimeReader`] has an example.
#[derive(Debug, Clone, PartialEq)]
pub enum TimeParser {
    /// Texts of RFC 3339, relaxed, as [`Time::parse_bytes_with_config`](crate::Time::parse_bytes_with_config).
    Text(TimeConfig),
    /// Only texts of RFC 3339, as [`Time::parse_bytes_strict`](crate::Time::parse_bytes_strict).
    Strict(MicrosecondsPrecisionOverflowBehavior),
}

/// [`Text`](Self::Text), with the default configuration.
impl Default for TimeParser {
    fn default() -> Self {
        Self::Text(TimeConfig::default())
    }
}

impl From<&TimeParser> for (Config, ColumnConfig) {
    fn from(parser: &TimeParser) -> Self {
        let column = ColumnConfig::default();
        match parser {
            TimeParser::Text(config) => (config.into(), column),
            TimeParser::Strict(behavior) => (Config::default().behavior(*behavior), column.form(Form::Strict)),
        }
    }
}

/// Reads a line as a time, and counts the microseconds after midnight that its clock shows, whatever the offset.
///
/// ```
/// use speedate::{read_column, LineConfig, TimeReader};
///
/// let (config, mut out) = (LineConfig { at_end: true, drops_returns: false }, [7; 2]);
/// read_column(b"12:13:14.5\n00:00+01:00\n", config, &TimeReader::default(), &mut out, None).unwrap();
/// assert_eq!(out, [43_994_500_000, 0]);
/// ```
#[derive(Debug, Clone, Default, PartialEq)]
pub struct TimeReader {
    /// How a line is parsed.
    pub parser: TimeParser,
}

reader!(TimeReader by speedate_time_lines and speedate_time_texts -> i64);

/// Reads a line as a time, and gives its offset from UTC in seconds, positive east of UTC.
///
/// A time without an offset is refused, with [`TzRequired`](ParseError::TzRequired).
///
/// ```
/// use speedate::{read_column, LineConfig, TimeOffsetReader};
///
/// let (config, mut out) = (LineConfig { at_end: true, drops_returns: false }, [7; 2]);
/// read_column(b"12:13Z\n12:13+01:00\n", config, &TimeOffsetReader::default(), &mut out, None).unwrap();
/// assert_eq!(out, [0, 3_600]);
/// ```
#[derive(Debug, Clone, Default, PartialEq)]
pub struct TimeOffsetReader {
    /// How a line is parsed.
    pub parser: TimeParser,
}

reader!(TimeOffsetReader by speedate_time_offset_lines -> i32);

configured!(DateTimeClockReader, DateTimeOffsetReader, TimeReader, TimeOffsetReader);

/// Reads a line as a duration, as [`Duration::parse_bytes_with_config`](crate::Duration::parse_bytes_with_config) does, and
/// counts its microseconds, with the sign.
///
/// One of 2^63 microseconds or more, which is over 106,751,991 days, is refused, with
/// [`NumberTooLarge`](Fault::NumberTooLarge).
///
/// ```
/// use speedate::{read_column, DurationReader, Fault, LineConfig};
///
/// let (config, mut out) = (LineConfig { at_end: true, drops_returns: false }, [0; 8]);
/// let reader = DurationReader::default();
/// let progress = read_column(b"-PT1.5S\n106751992 days\n", config, &reader, &mut out, None).unwrap();
/// assert_eq!((out[0], progress.error.unwrap().fault), (-1_500_000, Fault::NumberTooLarge));
/// ```
#[derive(Debug, Clone, Default, PartialEq)]
pub struct DurationReader {
    /// How a line is parsed.
    pub config: TimeConfig,
}

reader!(DurationReader by speedate_duration_lines and speedate_duration_texts -> i64);

impl From<&DurationReader> for (Config, ColumnConfig) {
    fn from(reader: &DurationReader) -> Self {
        ((&reader.config).into(), ColumnConfig::default())
    }
}

/// The microseconds of a duration with its sign, as a column of durations has them.
///
/// ```
/// use speedate::{duration_microseconds, Duration};
///
/// assert_eq!(duration_microseconds(&Duration::parse_str("-PT1.5S").unwrap()), Ok(-1_500_000));
/// ```
///
/// # Errors
///
/// [`NumberTooLarge`](Fault::NumberTooLarge) if they are 2^63 or more without the sign, which is over 106,751,991 days;
/// the error of the first field that is out of range.
pub fn duration_microseconds(duration: &Duration) -> Result<i64, Fault> {
    duration.check().map_err(Fault::Parse)?;
    ffi::speedate_duration_microseconds(duration).map_err(|_| Fault::NumberTooLarge)
}

/// How many bytes the longest line of a printer has, without its line feed.
pub const LINE_MAX: usize = 32;

/// Prints a number as a line. The printers of this crate do, and no other type can.
pub trait LinePrinter: sealed::Sealed {
    /// What is printed as a line.
    type Number: Copy;

    #[doc(hidden)]
    fn print(&self, numbers: &[Self::Number], out: &mut [u8]) -> Progress;
}

/// Prints numbers as lines, in order, each with a line feed, as many as `out` has room for, and returns how far it came.
///
/// The smallest number, which a column has of a refused line, is an empty line. A number that has no line ends the text,
/// and the progress has its error. If there is neither an error nor a line for each number, the next line does not fit:
/// the numbers after those that the progress counts are left for a further call.
///
/// ```
/// use speedate::{print_column, DatePrinter, LINE_MAX};
///
/// let mut out = [0; 2 * (LINE_MAX + 1)];
/// let progress = print_column(&[1, -1], &DatePrinter, &mut out);
/// assert_eq!(out[..progress.bytes], *b"1970-01-02\n1969-12-31\n");
/// ```
#[inline]
pub fn print_column<P: LinePrinter>(numbers: &[P::Number], printer: &P, out: &mut [u8]) -> Progress {
    printer.print(numbers, out)
}

/// Defines printers, each by its function of C.
macro_rules! printers {
    ($($(#[$document:meta])* $name:ident by $column:ident of $number:ty, $flags:literal;)*) => {$(
        $(#[$document])*
        #[derive(Debug, Clone, Copy, PartialEq, Eq)]
        pub struct $name;

        impl sealed::Sealed for $name {}

        impl LinePrinter for $name {
            type Number = $number;

            #[inline]
            fn print(&self, numbers: &[$number], out: &mut [u8]) -> Progress {
                ffi::$column(numbers, $flags, out)
            }
        }
    )*};
}

printers! {
    /// Prints days since 1970-01-01 as dates: 1 as `1970-01-02`. A day outside the years 0000 to 9999 is refused, with
    /// [`DateTooSmall`](ParseError::DateTooSmall) or [`DateTooLarge`](ParseError::DateTooLarge).
    DatePrinter by speedate_date_print_column of i32, 0;
    /// Prints microseconds since 1970-01-01T00:00:00 in UTC as date-times: 1,000,000 as `1970-01-01T00:00:01Z`. It refuses
    /// what a [`DatePrinter`] does.
    DateTimePrinter by speedate_datetime_print_column of i64, 0;
    /// Prints microseconds since 1970-01-01T00:00:00 on a clock as date-times without an offset: 1,000,000 as
    /// `1970-01-01T00:00:01`. It refuses what a [`DatePrinter`] does.
    DateTimeClockPrinter by speedate_datetime_print_column of i64, 0x10;
    /// Prints microseconds after midnight as times: 43,994,500,000 as `12:13:14.500000`. A number that is not 0 to
    /// 86,399,999,999 is refused, with [`TimeTooLarge`](ParseError::TimeTooLarge).
    TimePrinter by speedate_time_print_column of i64, 0;
    /// Prints microseconds as durations: -1,500,000 as `-PT1.5S`.
    DurationPrinter by speedate_duration_print_column of i64, 0;
}
