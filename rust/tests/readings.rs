//! The rows of the second reading of the grammar, which `tests/rows.py` describes, through each parser and the one that gives
//! the part too: the rows that are kept, and those of the file that `SPEEDATE_ROWS` names. What was expected is as the rows of C
//! have it.

use std::fmt::{Debug, Display};

use speedate::{
    Date, DateConfig, DateTime, DateTimeConfig, Duration, Form, MicrosecondsPrecisionOverflowBehavior, ParseError,
    Refused, Time, TimeConfig, TimestampUnit,
};

const KEPT: [&str; 2] = [include_str!("../../tests/rows.txt"), include_str!("../../tests/loose_rows.txt")];
const ROWS_OF_C: &str = include_str!("../../c/tests/rows.txt");

#[test]
fn rows() {
    assert!(KEPT.iter().map(|rows| try_rows(rows)).sum::<usize>() > 3_500);
    if let Some(file) = std::env::var_os("SPEEDATE_ROWS") {
        assert!(try_rows(&std::fs::read_to_string(file).unwrap()) > 3_000);
    }
}

/// How many answers of rows were tried, each of which is right.
fn try_rows(rows: &str) -> usize {
    let wrong: Vec<_> = rows.lines().flat_map(wrong_answers).collect();
    assert!(wrong.is_empty(), "{} answers, the first of which are {:#?}", wrong.len(), &wrong[..wrong.len().min(9)]);
    rows.lines().map(|row| Row::of(row).forms.len()).sum()
}

/// The answers to the text of a row that it does not have, each with the row.
fn wrong_answers(row: &str) -> Vec<String> {
    let it = Row::of(row);
    let answers = it.forms.iter().flat_map(|form| it.answers(*form));
    answers.filter(|answer| *answer != it.wanted).map(|answer| format!("{row}: {answer}")).collect()
}

struct Row<'a> {
    kind: &'a str,
    forms: Vec<Form>,
    config: [i32; 5],
    text: Vec<u8>,
    wanted: String,
}

impl<'a> Row<'a> {
    fn of(row: &'a str) -> Self {
        let [kind, forms, config, text, wanted] =
            row.splitn(5, '\t').collect::<Vec<_>>().try_into().unwrap_or_else(|_| panic!("{row}"));
        let config: Vec<i32> = config.split(' ').map(|it| it.parse().unwrap()).collect();
        let forms = forms.split(' ').map(|form| match form {
            "text" => Form::Text,
            "or_timestamp" => Form::OrTimestamp,
            "strict" => Form::Strict,
            "loose" => Form::Loose,
            "front" => Form::Front,
            "loose_front" => Form::LooseFront,
            _ => panic!("{row}"),
        });
        let (forms, text, wanted) = (forms.collect(), unescaped(text), wanted.to_owned());
        Row { kind, forms, config: config.try_into().unwrap(), text, wanted }
    }

    /// What the parsers in a form answer, unless the API has no such configuration.
    fn answers(&self, form: Form) -> Vec<String> {
        let [offset, flag, unit, truncates, is_ordered] = self.config;
        let units = [TimestampUnit::Infer, TimestampUnit::Second, TimestampUnit::Millisecond];
        let has_it = self.kind == "time" || self.kind == "duration" || form != Form::OrTimestamp || unit < 3;
        if !has_it || self.kind == "duration" && is_ordered == 1 {
            return vec![];
        }
        let behaviors = ["error", "truncate"].map(|it| it.parse::<MicrosecondsPrecisionOverflowBehavior>().unwrap());
        let behavior = behaviors[truncates as usize];
        let time_config = TimeConfig {
            microseconds_precision_overflow_behavior: behavior,
            unix_timestamp_offset: (flag == 1).then_some(offset),
        };
        let timestamp_unit = units[unit as usize % 3];
        let date_config = DateConfig { timestamp_unit };
        let config = DateTimeConfig { timestamp_unit, time_config: time_config.clone() };
        let text = &self.text[..];
        let str = std::str::from_utf8(text).ok();
        // The same text as a `str`, by the call without a configuration too.
        let default = str.filter(|_| self.config == [0; 5]);
        // The number of the kind in C, on which it depends what was expected.
        let kind = match (self.kind, form) {
            ("date", _) => 1 + i32::from(form == Form::OrTimestamp),
            ("time", _) => 3 + i32::from(form == Form::Strict),
            ("datetime", Form::OrTimestamp) => 6,
            ("datetime", Form::Strict) => 7,
            ("datetime", _) => 5,
            _ => 8,
        };
        match self.kind {
            "date" => {
                let alone = match form {
                    Form::OrTimestamp => whole(text, Date::parse_bytes_with_config(text, &date_config)),
                    Form::Front => Date::parse_front(text),
                    _ => whole(text, Date::parse_bytes_rfc3339(text)),
                };
                let strs = match form {
                    Form::OrTimestamp => {
                        [str.map(|it| Date::parse_str_with_config(it, &date_config)), default.map(Date::parse_str)]
                    }
                    Form::Front => [None, None],
                    _ => [str.map(Date::parse_str_rfc3339), None],
                };
                both(kind, as_strs(alone, strs), Date::parse_or_place(text, form, &date_config), of_date)
            }
            "time" => {
                let alone = match form {
                    Form::Strict => whole(text, Time::parse_bytes_strict(text, behavior)),
                    Form::Front => Time::parse_front(text, &time_config),
                    _ => whole(text, Time::parse_bytes_with_config(text, &time_config)),
                };
                let strs = default.filter(|_| form == Form::Text).map(Time::parse_str);
                both(kind, as_strs(alone, [strs]), Time::parse_or_place(text, form, &time_config), of_time)
            }
            "datetime" => {
                let alone = match form {
                    Form::OrTimestamp => whole(text, DateTime::parse_bytes_with_config(text, &config)),
                    Form::Strict => whole(text, DateTime::parse_bytes_strict(text, behavior)),
                    Form::Loose => whole(text, DateTime::parse_bytes_loose(text, behavior)),
                    Form::Front => DateTime::parse_front(text, &time_config),
                    Form::LooseFront => DateTime::parse_front_loose(text, behavior),
                    _ => whole(text, DateTime::parse_bytes_rfc3339_with_config(text, &time_config)),
                };
                let strs = match form {
                    Form::OrTimestamp => {
                        [str.map(|it| DateTime::parse_str_with_config(it, &config)), default.map(DateTime::parse_str)]
                    }
                    Form::Text => [default.map(DateTime::parse_str_rfc3339), None],
                    _ => [None, None],
                };
                both(kind, as_strs(alone, strs), DateTime::parse_or_place(text, form, &config), |it| {
                    format!("{} {}", of_date(&it.date), of_time(&it.time))
                })
            }
            _ => {
                let alone = whole(text, Duration::parse_bytes_with_config(text, &time_config));
                both(
                    kind,
                    as_strs(alone, [default.map(Duration::parse_str)]),
                    Duration::parse_or_place(text, form, &time_config),
                    |it| format!("{} {} {} {}", u8::from(!it.positive), it.day, it.second, it.microsecond),
                )
            }
        }
    }
}

/// A text whose other bytes than printable ones are written as `\xHH`.
fn unescaped(text: &str) -> Vec<u8> {
    let (front, rest) = text.split_once('\\').map_or((text, None), |(front, rest)| (front, Some(rest)));
    let mut bytes = front.as_bytes().to_vec();
    if let Some(rest) = rest {
        bytes.push(u8::from_str_radix(&rest[1..3], 16).unwrap());
        bytes.extend(unescaped(&rest[3..]));
    }
    bytes
}

/// The answer of a parser of whole texts, with the size of the text.
fn whole<T>(text: &[u8], answer: Result<T, ParseError>) -> Result<(T, usize), ParseError> {
    answer.map(|value| (value, text.len()))
}

/// An answer, unless the same text as a `str` has another one.
fn as_strs<T: Clone + Debug + PartialEq, const N: usize>(
    answer: Result<(T, usize), ParseError>,
    strs: [Option<Result<T, ParseError>>; N],
) -> Result<(T, usize), ParseError> {
    for it in strs.into_iter().flatten() {
        assert_eq!(it, answer.clone().map(|front| front.0));
    }
    answer
}

/// The answer of the parser that gives the part, as a row has it, and that of the other if it is not the same.
fn both<T: Debug + Display + PartialEq>(
    kind: i32,
    alone: Result<(T, usize), ParseError>,
    placed: Result<(T, usize), Refused>,
    numbers_of: impl Fn(&T) -> String,
) -> Vec<String> {
    let shown = match &placed {
        Ok((value, size)) => format!("ok\t{}\t{value}\t0\t{size}", numbers_of(value)),
        Err(refused) if !is_expected(refused, kind) => format!("{refused}"),
        Err(Refused { fault, start, end, .. }) => format!("{fault}\t\t\t{start}\t{end}"),
    };
    let is_same = match (&alone, &placed) {
        (Ok(value), Ok(other)) => value == other,
        (Err(error), Err(refused)) => error.to_string() == refused.fault.to_string(),
        _ => false,
    };
    if is_same {
        vec![shown]
    } else {
        vec![shown, format!("{alone:?} without a part")]
    }
}

/// Whether a refusal names what a call of a kind expected, if C has a row with the phrase.
fn is_expected(refused: &Refused, kind: i32) -> bool {
    let row = format!("code_expected|{}|{kind}|ok|", refused.fault.number());
    let phrase = ROWS_OF_C.lines().find_map(|it| it.strip_prefix(&row));
    phrase.is_none_or(|phrase| refused.expected().to_string() == phrase)
}

fn of_date(it: &Date) -> String {
    format!("{} {} {}", it.year, it.month, it.day)
}

fn of_time(it: &Time) -> String {
    let (flag, offset) = (u8::from(it.tz_offset.is_some()), it.tz_offset.unwrap_or_default());
    format!("{} {} {} {flag} {} {offset}", it.hour, it.minute, it.second, it.microsecond)
}
