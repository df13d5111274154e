//! The archive's `journal_plan_batch` against the independent reading: the answer, every store of the list,
//! and every other byte that was lent. And every cut of batches that the archive works out and carries
//! out.
mod cuts;
mod examples;
mod framing;
mod free;
mod indexes;
mod made;
mod many;
mod one;
mod order;
mod shared;
mod short;
mod syncs;
mod trays;
mod typed;
