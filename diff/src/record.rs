//! Lines of the program, drawn from a seed, with the answers to them, for tests that run without the Rust crate.

use std::collections::{BTreeMap, BTreeSet};
use std::path::Path;
use std::{fs, io};

use crate::answer::is_fault;
use crate::call::Call;
use crate::compare::{Compared, Difference, compared};
use crate::draw::Draw;
use crate::known::KNOWN;
use crate::text::Kind;
use crate::{ours, rust};

const GRAMMAR: &str = include_str!("../../docs/GRAMMAR.md");

/// The kinds of lines, by their words.
const KINDS: [(&str, Kind); 4] =
    [("date", Kind::Date), ("time", Kind::Time), ("datetime", Kind::DateTime), ("duration", Kind::Duration)];

/// How many lines are drawn, of which few are kept.
const DRAWN: usize = 1_000_000;

/// How many lines of each kind are accepted by both sides.
const ACCEPTED: usize = 500;

/// How many lines of a kind both sides refuse with the same error, at most. Each error has so many at least.
const REFUSED: usize = 28;

/// How many lines a known difference has, at most.
const DIFFERENT: usize = 50;

/// Lines that were drawn, each with its answer, or with both where they differ.
#[derive(Default)]
pub struct Record {
    seed: u64,
    /// Rows with equal answers, by the kind, and by the error if it is one.
    equal: BTreeMap<(&'static str, Option<String>), Vec<String>>,
    known: [Vec<String>; KNOWN.len()],
}

impl Record {
    pub fn drawn(seed: u64) -> Result<Self, Box<Difference>> {
        let (mut draw, mut drawn) = (Draw::new(seed), BTreeSet::new());
        let mut record = Record { seed, ..Record::default() };
        for _ in 0..DRAWN {
            let (word, kind) = draw.pick(&KINDS);
            let text = draw.text(kind);
            let Some(shown) = shown(&text) else { continue };
            let line = format!("{word} {shown}");
            if drawn.insert(line.clone()) {
                record.push(word, &line, &Call::of_line(kind, text))?;
            }
        }
        Ok(record)
    }

    fn push(&mut self, word: &'static str, line: &str, call: &Call) -> Result<(), Box<Difference>> {
        match compared(call)? {
            Compared::Equal(answer) => {
                if let Ok(value) = &answer {
                    compared(&Call::Print(value.clone()))?;
                }
                let row = format!("{line}\t{}\n", rust::reply(&answer));
                let most = if answer.is_ok() { ACCEPTED } else { REFUSED };
                keep(row, self.equal.entry((word, answer.err())).or_default(), most);
            }
            Compared::Known { place, rust, ours } => {
                let row = format!("{line}\t{}\t{}\n", rust::reply(&rust), ours::reply(&ours));
                keep(row, &mut self.known[place], DIFFERENT);
            }
        }
        Ok(())
    }

    /// Says of what there are too few lines, if of anything.
    pub fn check(&self) -> Result<(), String> {
        let errors = errors();
        if errors.is_empty() {
            return Err("docs/GRAMMAR.md has no table of errors".to_owned());
        }
        for error in errors {
            require(REFUSED, self.count(|_, it| it == Some(error)), &format!("refused with {error}"))?;
        }
        for (word, _) in KINDS {
            let accepted = self.count(|kind, error| kind == word && error.is_none());
            let refused = self.count(|kind, error| kind == word && error.is_some());
            require(ACCEPTED, accepted, &format!("of the kind {word} accepted"))?;
            require(REFUSED, refused, &format!("of the kind {word} refused"))?;
        }
        Ok(())
    }

    /// How many rows with equal answers are of such a kind and such an error.
    fn count(&self, is_counted: impl Fn(&str, Option<&str>) -> bool) -> usize {
        let counted = self.equal.iter().filter(|((kind, error), _)| is_counted(kind, error.as_deref()));
        counted.map(|(_, rows)| rows.len()).sum()
    }

    /// Writes the two files into a folder.
    pub fn write(&self, folder: &Path) -> io::Result<()> {
        let head = format!("# Written by `bin/compare --record {}`: README.md.\n", self.seed);
        let equal: String = self.equal.values().flatten().map(String::as_str).collect();
        fs::write(folder.join("answers.txt"), format!("{head}{equal}"))?;
        let known = KNOWN.iter().zip(&self.known).filter(|(_, rows)| !rows.is_empty());
        let known: String = known.map(|(known, rows)| format!("# {}\n{}", known.row, rows.concat())).collect();
        fs::write(folder.join("known_differences.txt"), format!("{head}{known}"))
    }

    pub fn print(&self) {
        println!("{:>12}  accepted", self.count(|_, error| error.is_none()));
        for error in errors() {
            println!("{:>12}  {error}", self.count(|_, it| it == Some(error)));
        }
        println!("Known differences, by their rows in docs/DIFFERENCES.md:");
        for (known, rows) in KNOWN.iter().zip(&self.known) {
            println!("{:>12}  {}", rows.len(), known.row);
        }
        println!("No other difference.");
    }
}

/// The text, if it has no character but printable ones of ASCII and the minus sign.
fn shown(text: &[u8]) -> Option<&str> {
    let is_shown = |it| matches!(it, ' '..='~' | '\u{2212}');
    str::from_utf8(text).ok().filter(|text| text.chars().all(is_shown))
}

/// Keeps a row, if there are not yet as many as there may be at most.
fn keep(row: String, rows: &mut Vec<String>, most: usize) {
    if rows.len() < most {
        rows.push(row);
    }
}

/// The errors of the table in `docs/GRAMMAR.md` with which the Rust crate refuses the lines of their rows.
fn errors() -> Vec<&'static str> {
    GRAMMAR.lines().filter_map(error_of_row).collect()
}

fn error_of_row(row: &'static str) -> Option<&'static str> {
    let (error, _) = row.strip_prefix("| <a id=\"fault-")?.split_once('"')?;
    let (_, line) = row.strip_suffix("` |")?.rsplit_once(" | `")?;
    let (word, text) = line.split_once(' ')?;
    let (_, kind) = KINDS.iter().find(|(it, _)| *it == word)?;
    is_fault(&rust::answer(&Call::of_line(*kind, text.into())), error).then_some(error)
}

fn require(least: usize, count: usize, what: &str) -> Result<(), String> {
    if count < least { Err(format!("{count} lines are {what}, and not {least}")) } else { Ok(()) }
}
