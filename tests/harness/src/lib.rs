//! The proved library (librules.a) set beside the independent implementation.

pub mod compare;
pub mod comparison;
pub mod fuzz;
pub mod guard;
pub mod measure;
pub mod options;
pub mod sheets;
pub mod tally;
pub mod texts;
pub mod translate;
