//! Document 01 and the requests of document 02 that have landed (W-201, W-204, W-206, W-207, W-202), as a Rust program, written
//! from these documents alone, to judge another program by.
//!
//! Everything the search can come back to is persistent: formulas are shared trees, and bindings, levels, open goals,
//! programs and the trace are persistent maps and lists. A choice point keeps the old state; nothing is undone by hand.
//!
//! No function here calls itself on a term, a text or a list, so deep inputs need no deep stack. Only the sheet's own
//! nodes are dropped recursively, and a sheet has at most 1,024 of them.

pub mod api;
pub mod checker;
pub mod field;
pub mod formula;
pub mod interface;
pub mod limits;
pub mod list;
pub mod map;
pub mod program;
pub mod refusal;
pub mod search;
pub mod sheet;
pub mod term;
pub mod text;
pub mod unification;

pub use api::{answer, answers, check, check_text, engine_ask, engine_run, runner, runner_for};
pub use api::{Answer, Outcome, Request, Run, Verdict};
pub use refusal::Refusal;
