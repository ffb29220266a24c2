//! Compares this library with the Rust crate `speedate`, on texts and calls that are drawn from a seed.

use std::collections::BTreeMap;
use std::path::Path;
use std::process::ExitCode;
use std::time::SystemTime;

use speedate_diff::call::Call;
use speedate_diff::compare::{Compared, Difference, compared};
use speedate_diff::draw::Draw;
use speedate_diff::known::KNOWN;
use speedate_diff::record::Record;
use speedate_diff::rust;

const DIFFERENCES: &str = include_str!("../../docs/DIFFERENCES.md");
const DEFAULT_COUNT: u64 = 1_000_000;
/// The seed of the recorded answers.
const RECORDED_SEED: u64 = 1;
const USAGE: &str = "usage: bin/compare [COUNT [SEED]] | --record [SEED]";

fn main() -> ExitCode {
    let Some(task) = Task::of_arguments() else {
        eprintln!("{USAGE}");
        return ExitCode::from(3);
    };
    if let Some(known) = KNOWN.iter().find(|known| !known.is_in(DIFFERENCES)) {
        eprintln!("docs/DIFFERENCES.md has no row: {}", known.row);
        return ExitCode::FAILURE;
    }
    rust::hide_panics();
    match task {
        Task::Compare { count, seed } => compare(count, seed),
        Task::Record { seed } => record(seed),
    }
    .unwrap_or_else(|difference| {
        difference.print();
        ExitCode::FAILURE
    })
}

/// What the arguments ask for.
enum Task {
    /// So many comparisons, drawn from the seed.
    Compare { count: u64, seed: u64 },
    /// The answers to lines, drawn from the seed, are written.
    Record { seed: u64 },
}

impl Task {
    fn of_arguments() -> Option<Self> {
        let words: Vec<String> = std::env::args().skip(1).collect();
        let (is_record, numbers) = match words.split_first() {
            Some((first, rest)) if first == "--record" => (true, rest),
            _ => (false, &words[..]),
        };
        let numbers: Vec<u64> = numbers.iter().map(|word| word.parse().ok()).collect::<Option<_>>()?;
        match (is_record, &numbers[..]) {
            (true, []) => Some(Task::Record { seed: RECORDED_SEED }),
            (true, &[seed]) => Some(Task::Record { seed }),
            (false, []) => Some(Task::Compare { count: DEFAULT_COUNT, seed: seed_of_clock() }),
            (false, &[count]) => Some(Task::Compare { count, seed: seed_of_clock() }),
            (false, &[count, seed]) => Some(Task::Compare { count, seed }),
            _ => None,
        }
    }
}

fn seed_of_clock() -> u64 {
    SystemTime::UNIX_EPOCH.elapsed().map_or(0, |time| time.as_secs())
}

fn compare(count: u64, seed: u64) -> Result<ExitCode, Box<Difference>> {
    println!("seed {seed}, {count} comparisons");
    Counts::of(count, seed)?.print();
    Ok(ExitCode::SUCCESS)
}

fn record(seed: u64) -> Result<ExitCode, Box<Difference>> {
    let record = Record::drawn(seed)?;
    record.print();
    if let Err(lack) = record.check() {
        println!("Nothing is written: {lack}.");
        return Ok(ExitCode::FAILURE);
    }
    match record.write(Path::new(env!("CARGO_MANIFEST_DIR"))) {
        Ok(()) => Ok(ExitCode::SUCCESS),
        Err(error) => {
            eprintln!("the recorded answers cannot be written: {error}");
            Ok(ExitCode::from(3))
        }
    }
}

/// How many calls were compared, and how many differed as a row says.
#[derive(Default)]
struct Counts {
    groups: BTreeMap<&'static str, u64>,
    known: [u64; KNOWN.len()],
    equal: u64,
}

impl Counts {
    fn of(count: u64, seed: u64) -> Result<Self, Box<Difference>> {
        let (mut draw, mut counts) = (Draw::new(seed), Counts::default());
        for _ in 0..count {
            let call = Call::drawn(&mut draw);
            *counts.groups.entry(call.group()).or_default() += 1;
            match compared(&call)? {
                Compared::Equal(_) => counts.equal += 1,
                Compared::Known { place, .. } => counts.known[place] += 1,
            }
        }
        Ok(counts)
    }

    fn print(&self) {
        for (group, count) in &self.groups {
            println!("{count:>12}  {group}");
        }
        println!("{:>12}  equal answers", self.equal);
        println!("Known differences, by their rows in docs/DIFFERENCES.md:");
        for (known, count) in KNOWN.iter().zip(self.known) {
            println!("{count:>12}  {}", known.row);
        }
        println!("No other difference.");
    }
}
