//! Two members' states side by side, for support: where their lists part, and who broke the rules.
//!
//! The states' lists and whether they are well formed come from the proved library. The names of
//! clauses, the layout and the rules of votes and paths come from the second implementation.
//! Identifiers use the field's terms; what is printed uses 01's words: sheet, sound, ref, ready.

#![deny(warnings)]
#![forbid(unsafe_code)]

pub mod arguments;
pub mod drawing;
pub mod evidence;
pub mod faults;
mod findings;
pub mod member;
pub mod node;
pub mod origin;
pub mod page;
pub mod pair;
pub mod report;
mod shown;
pub mod text;
pub mod why;
