//! Several leaders in a round (02, request A10), on models alone: states have no words for them yet.

#[path = "../common/mod.rs"]
mod common;
mod follower;
mod groups;
mod premises;
mod seen;
mod worked;
mod wrong;
