//! The independent second program: the rules of the scope paper, a generator
//! of random cases, answers to them, and a comparison with the library.

pub mod answers;
pub mod big;
pub mod case;
#[cfg(feature = "library")]
pub mod compare;
#[cfg(feature = "library")]
mod comparison;
pub mod convert;
pub mod descriptions;
pub mod differ;
pub mod generate;
pub mod literals;
pub mod looked;
pub mod mend;
pub mod merge;
pub mod outside;
pub mod random;
pub mod rules;
pub mod show;
pub mod spelling;
pub mod stats;
pub mod subject;
pub mod sweep;
pub mod texts;
