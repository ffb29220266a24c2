//! Both answers to a call.

use crate::answer::Answer;
use crate::call::Call;
use crate::known::place;
use crate::{ours, rust};

/// What both sides answer to a call.
pub enum Compared {
    Equal(Answer),
    /// Answers that differ as a row says, which has this place in `KNOWN`.
    Known {
        place: usize,
        rust: Answer,
        ours: Answer,
    },
}

/// A difference that no row explains.
pub struct Difference {
    call: Call,
    rust: Answer,
    ours: Answer,
}

/// Compares both answers to a call.
pub fn compared(call: &Call) -> Result<Compared, Box<Difference>> {
    let (rust, ours) = (rust::answer(call), ours::answer(call));
    if rust == ours {
        return Ok(Compared::Equal(rust));
    }
    match place(call, &rust, &ours) {
        Some(place) => Ok(Compared::Known { place, rust, ours }),
        None => Err(Box::new(Difference { call: call.clone(), rust, ours })),
    }
}

impl Difference {
    pub fn print(&self) {
        println!("No row of docs/DIFFERENCES.md explains this difference:");
        println!("  call          {:?}", self.call);
        println!("  Rust crate    {:?}", self.rust);
        println!("  this library  {:?}", self.ours);
    }
}
