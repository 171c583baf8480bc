//! The numbers that the documents fix, each with the paragraph of document 01 or the request that it stands in.

/// "Numbers are in base ten, ... up to 65,535"; W-204: "n from 0 to 65,535".
pub const LARGEST_NUMBER: u32 = 65_535;
/// "The sheet": arity 0 to 4.
pub const LARGEST_ARITY: usize = 4;
/// "The sheet": variables 0 to 7.
pub const VARIABLES: usize = 8;
/// "Names are 1 to 16 of ...".
pub const NAME_BYTES: usize = 16;
/// "Terms on a sheet are ... of at most 1,024 variables and symbols".
pub const TERM_SIZE: usize = 1_024;
/// "& of clauses with at most 64 members in all".
pub const MEMBERS: usize = 64;

/// Refusal 1.
pub const SHEET_BYTES: usize = 16_384;
/// Refusal 2.
pub const TABLE_NUMBERS: usize = 8_192;
/// Refusal 3, and the units the checker accepts.
pub const LARGEST_BUDGET: u32 = 50_000;
/// Refusal 13 (W-202).
pub const LARGEST_PROOFS: u32 = 64;
/// Refusals 4 and 12.
pub const TEXT_BYTES: usize = 65_535;
/// Refusal 5: for each unit of budget, or for each LF of the text.
pub const WORK_NUMBERS: usize = 64;
/// Refusal 7.
pub const SYMBOLS: usize = 256;
/// Refusal 7.
pub const NODES: usize = 1_024;
/// Refusal 7.
pub const CLAUSES: usize = 128;

/// The sheet runner's budget.
pub const RUNNER_BUDGET: u32 = 256;
/// The sheet runner's answer buffer.
pub const RUNNER_ANSWER: usize = 16_384;
