//! How a row is timed and printed.

use std::hint::black_box;
use std::time::Instant;

const ROUNDS: usize = 300;

/// One library's call of a row.
pub struct Side<I> {
    name: &'static str,
    round: Box<dyn Fn(&[I]) -> f64>,
}

/// A library by its name, and its call.
pub fn side<I: 'static, T: 'static>(name: &'static str, call: impl Fn(&I) -> T + 'static) -> Side<I> {
    let round = move |items: &[I]| {
        let start = Instant::now();
        for item in items {
            black_box(&called(&call, black_box(item)));
        }
        start.elapsed().as_nanos() as f64 / items.len() as f64
    };
    Side { name, round: Box::new(round) }
}

/// A call that is not inlined into the loop around it.
#[inline(never)]
fn called<I, T>(call: &impl Fn(&I) -> T, item: &I) -> T {
    call(item)
}

/// The rows whose names begin with a prefix, as a table on standard output.
pub struct Table {
    prefix: String,
    is_empty: bool,
}

impl Table {
    pub fn new(prefix: String) -> Self {
        Table { prefix, is_empty: true }
    }

    /// The prefix, if no row began with it.
    pub fn prefix_of_none(&self) -> Option<&str> {
        self.is_empty.then_some(&self.prefix)
    }

    /// Times the Rust crate, this library and the others on the items, in turns.
    pub fn row<I>(&mut self, name: &str, items: &[I], rust: Side<I>, ours: Side<I>, others: Vec<Side<I>>) {
        if !name.starts_with(&self.prefix) {
            return;
        }
        if self.is_empty {
            println!("{:34} {:>10} {:>12} {:>6}  others", "nanoseconds a call", "Rust crate", "this library", "ratio");
            self.is_empty = false;
        }
        let sides: Vec<Side<I>> = [rust, ours].into_iter().chain(others).collect();
        let lowest = lowest_rounds(&sides, items);
        let others: Vec<String> =
            sides.iter().zip(&lowest).skip(2).map(|(side, time)| format!("{} {time:.2}", side.name)).collect();
        let (rust, ours) = (lowest[0], lowest[1]);
        println!("{name:34} {rust:>10.2} {ours:>12.2} {:>6.2}  {}", ours / rust, others.join(", "));
    }
}

fn lowest_rounds<I>(sides: &[Side<I>], items: &[I]) -> Vec<f64> {
    let mut lowest = vec![f64::MAX; sides.len()];
    for _ in 0..ROUNDS {
        for (lowest, side) in lowest.iter_mut().zip(sides) {
            *lowest = lowest.min((side.round)(items));
        }
    }
    lowest
}
