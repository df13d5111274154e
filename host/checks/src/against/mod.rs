//! The archive compared with the reading, for tests and long runs. What differs comes back as a
//! text.
pub mod batch;
pub mod batch_cuts;
pub mod boot;
pub mod cuts;
pub mod exchange;
pub mod foreign;
pub mod lent;
pub mod lookups;
pub mod merged;
pub mod orders;
pub mod plain;
pub mod plan;
pub mod syncs;
pub mod trial;
pub mod why;
