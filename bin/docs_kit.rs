// What the signatures of the reference name in addition to the library's own types. bin/docs puts this before them.
use {kit::*, traits::*};

/// No page shows these.
mod kit {
    pub use std::cmp::Ordering;
    pub mod fmt {
        pub trait Write {}
        pub struct Formatter<W>(W);
        pub type Result = std::result::Result<(), ()>;
    }
    pub trait Allocator {}
    pub struct AllocError;
    pub struct String<A>(A);
    pub struct ArrayString<const CAPACITY: usize>;
}

/// The traits of Rattle's own library that the types have, as they are there.
pub mod traits {
    use crate::kit::*;

    /// A copy of the value, in a `Result`, because other clones need memory. For this library's types it is always `Ok`.
    pub trait Clone: Sized {
        /// A copy of the value, in a `Result`, because other clones need memory. For this library's types it is always `Ok`.
        fn clone(&self) -> Result<Self, AllocError> { loop {} }
    }

    /// An assignment copies the value.
    pub trait Copy: Clone {}

    /// What `{:?}` writes.
    pub trait Debug {}

    /// What `{}` writes.
    pub trait Display {
        /// What `{}` writes.
        fn fmt<W: fmt::Write>(&self, f: &mut fmt::Formatter<W>) -> fmt::Result;
    }

    /// What `{}` writes, in memory of the allocator.
    pub trait ToString: Display {
        /// What `{}` writes, in memory of the allocator.
        fn to_string<A: Allocator>(&self, alloc: A) -> Result<String<A>, AllocError> { loop {} }
    }

    /// What `text.parse()` gives.
    pub trait FromStr: Sized {
        /// What `text.parse()` gives.
        fn from_str(text: &str) -> Result<Self, Self::Err>;
        type Err;
    }

    /// The value where none is chosen.
    pub trait Default: Sized {
        /// The value where none is chosen.
        fn default() -> Self { loop {} }
    }

    /// Why something is refused. Rattle's trait has no methods.
    pub trait Error: Debug + Display {}

    /// `==` and `!=`.
    pub trait PartialEq {}

    /// Every value is equal to itself.
    pub trait Eq: PartialEq {}

    /// `<`, `<=`, `>` and `>=`.
    pub trait PartialOrd: PartialEq {
        /// `<`, `<=`, `>` and `>=`.
        fn partial_cmp(&self, other: &Self) -> Option<Ordering>;
    }

    /// An order of all values, with `max`, `min` and `clamp`.
    pub trait Ord: Eq + PartialOrd {
        /// An order of all values, with `max`, `min` and `clamp`.
        fn cmp(&self, other: &Self) -> Ordering;
    }
}
