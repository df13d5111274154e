//! Mutations of good images: for each clause of the table of refusals, alone and combined, at several
//! places at once, and untargeted ones.
mod clause;
mod combined;
mod committed;
mod crowded;
mod hashes;
mod late;
mod links;
mod lists;
mod low;
mod noise;
mod objects;
mod scattered;
mod tables;
mod tails;
mod tangled;
mod untargeted;
pub mod untidy;

pub use clause::targeted;
pub use combined::combined;
pub use crowded::crowded;
pub use scattered::scattered;
pub use untargeted::{mutated, untargeted};
