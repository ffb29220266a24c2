//! Times the calls of this library, of the Rust crate `speedate`, and of other crates that read the same texts, in nanoseconds
//! for each call. Values and texts are drawn at random, the calls run in turns, and the lowest of many rounds counts.

mod arithmetic;
mod peers;
mod print;
mod read;
mod row;
mod texts;

use std::process::ExitCode;

use row::Table;

fn main() -> ExitCode {
    let prefix = std::env::args().nth(1).unwrap_or_default();
    let mut table = Table::new(prefix);
    read::rows(&mut table);
    print::rows(&mut table);
    arithmetic::rows(&mut table);
    match table.prefix_of_none() {
        Some(prefix) => {
            eprintln!("bench: no row begins with {prefix}");
            ExitCode::from(3)
        }
        None => ExitCode::SUCCESS,
    }
}
