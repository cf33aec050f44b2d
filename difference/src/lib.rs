//! The differential test: every call of the proved library on random groups, beside the same call
//! of the second implementation. Answers and every lent word must be equal after each call.
//!
//! All is drawn from a seed, so a seed and a count give the same run every time.

#![deny(warnings)]

pub mod agreement;
pub mod draw;
pub mod engine;
pub mod failure;
pub mod op;
pub mod pair;
pub mod proved;
pub mod report;
pub mod run;
pub mod shrink;
pub mod tally;
