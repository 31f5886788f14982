//! An independent second program for Herdspiral, the relay-board simulator.
//!
//! Each module renders one part of the rule book, as requests A1, A2, A4, A6 to
//! A8 and A10 changed it, in its order: `number` and `file` are "The board
//! file" with the refusals of a read, `board` is "Parts of a board", `chains`,
//! `shunts` and `judge` are "Chains and current", `ways`, `leaps` and `tell` are
//! the judge of A6, `moves` and `runs` are "How a relay moves", `report` is the
//! report of A10, `calls` is the order of refusals for what is handed in,
//! `session` is "The session program". Only `groups`, `streams` and `cases` are
//! not in the rule book: the first links terminals, the others fetch sessions,
//! and single calls, from a stream.
#![forbid(unsafe_code)]

pub mod board;
pub mod calls;
pub mod cases;
pub mod chains;
pub mod file;
pub mod groups;
pub mod judge;
pub mod leaps;
pub mod moves;
pub mod number;
pub mod report;
pub mod runs;
pub mod session;
pub mod shunts;
pub mod streams;
pub mod tell;
pub mod ways;

#[cfg(test)]
mod samples;
#[cfg(test)]
mod vectors;
