//! The C functions of this library as Rust functions, and the comparison with the Rust crate `speedate`.

#![deny(unsafe_code)]

pub mod answer;
pub mod call;
pub mod compare;
pub mod draw;
pub mod exact;
#[allow(unsafe_code)]
pub mod ffi;
pub mod known;
pub mod ours;
pub mod record;
pub mod rust;
pub mod text;
