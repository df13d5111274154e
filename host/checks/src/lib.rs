//! What the archive is checked with.
//!
//! `random` gives tests and measurements their inputs.
//! `generator` makes good and damaged images and appends.
//! `against` compares the archive with the independent reading of the rules.
//! `corpus` has files that journald wrote.
//! `program` runs the listing program.
pub mod against;
pub mod corpus;
pub mod generator;
pub mod program;
pub mod random;
