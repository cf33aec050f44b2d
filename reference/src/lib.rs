//! Ordering state of a Sailfish group: an independent second implementation.
//!
//! This crate was written from documents 01 (`01-scope.md`) and 02 (`02-change-requests.md`)
//! alone, without sight of the other implementation it is compared with. It favours clarity over
//! speed: a call decodes the words of the state into maps and lists, computes the next state there,
//! and encodes it back.
//!
//! Identifiers use the field's terms: state (01: sheet), vertex id (01: ref), well formed
//! (01: sound), committable (01: ready), status (01: head), model (01: plain book), pending buffer
//! (02: shelf).

#![deny(warnings)]
#![forbid(unsafe_code)]

pub mod answer;
pub mod broken;
pub mod call;
pub mod calls;
mod commit;
pub mod graph;
pub mod group;
pub mod growing;
pub mod harness;
pub mod layout;
pub mod line;
pub mod model;
mod own;
pub mod pending;
pub mod record;
pub mod rng;
pub mod sheetlog;
pub mod simulate;
pub mod state;
pub mod vectors;
pub mod well_formed;

pub use answer::{Answer, Proposal, Status};
pub use broken::Broken;
pub use call::Call;
pub use calls::{
    ask_journal, ask_leaders, hand_journal, hand_leaders, open, propose, sign_no_vote, status,
    take_first_message, take_no_vote, take_timeout, take_timeouts, take_vertex, take_vertex_with,
};
pub use layout::{BUFFER_WORDS, STATE_WORDS};
pub use model::Model;
pub use well_formed::{first_broken, is_well_formed};
