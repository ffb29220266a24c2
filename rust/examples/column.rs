//! Reads the date-times of a file, one on each line, in blocks, by one call for a thousand lines. It prints how many there
//! are, and the latest in microseconds since 1970-01-01T00:00:00 in UTC.
//!
//! ```text
//! cargo run --release --example column < FILE
//! ```

use std::error::Error;
use std::io::{stdin, Read};

use speedate::{read_column, DateTimeReader, LineConfig};

fn main() -> Result<(), Box<dyn Error>> {
    let reader = DateTimeReader::default();
    let (mut block, mut microseconds) = (vec![0; 65_536], [0; 1_000]);
    let (mut kept, mut lines, mut latest) = (0, 0, None);
    loop {
        let size = stdin().lock().read(&mut block[kept..])?;
        let config = LineConfig { at_end: size == 0, drops_returns: true };
        let text = &block[..kept + size];
        let mut done = 0;
        loop {
            let progress = read_column(&text[done..], config, &reader, &mut microseconds, None)?;
            latest = latest.max(microseconds[..progress.lines].iter().copied().max());
            lines += progress.lines;
            done += progress.bytes;
            if let Some(refused) = progress.error {
                return Err(format!("line {}: {refused}", lines + 1).into());
            }
            if progress.lines < microseconds.len() {
                break;
            }
        }
        if config.at_end {
            break;
        }
        // What is left is a line that goes on in the next block.
        kept = text.len() - done;
        block.copy_within(done..done + kept, 0);
        if kept == block.len() {
            return Err(format!("line {} is longer than a block", lines + 1).into());
        }
    }
    match latest {
        Some(latest) => println!("{lines} lines, the latest at {latest}"),
        None => println!("no lines"),
    }
    Ok(())
}
