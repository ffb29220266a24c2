//! Reads the lines of a log, each of which begins with a date-time, and prints them with that date-time in UTC. Its last
//! line says how long the log lasts. Lines without a date-time are reported on standard error.
//!
//! ```text
//! cargo run --example log < LOG
//! ```

use std::error::Error;
use std::io::{stdin, BufRead};

use speedate::{DateTime, DateTimeConfig, Duration, Form, MicrosecondsPrecisionOverflowBehavior::Truncate, TimeConfig};

fn main() -> Result<(), Box<dyn Error>> {
    let mut moments = Vec::new();
    for (place, line) in stdin().lock().split(b'\n').enumerate() {
        match entry(&line?) {
            Ok((moment, rest)) => {
                println!("{moment}{rest}");
                moments.push(moment);
            }
            Err(error) => eprintln!("line {}: {error}", place + 1),
        }
    }
    if let [first, .., last] = &moments[..] {
        println!("{} lines in {}", moments.len(), Duration::between(first, last));
    }
    Ok(())
}

/// The date-time of a line in UTC, and what follows it. Of nine digits of a second, which Go, Docker and Kubernetes print, those
/// after the sixth are dropped; by default they are refused.
fn entry(line: &[u8]) -> Result<(DateTime, String), Box<dyn Error>> {
    let time_config = TimeConfig::builder().microseconds_precision_overflow_behavior(Truncate).build();
    let config = DateTimeConfig { time_config, ..Default::default() };
    let (moment, size) = DateTime::parse_or_place(line, Form::Front, &config)?;
    Ok((moment.in_timezone(0)?, String::from_utf8_lossy(&line[size..]).into_owned()))
}
