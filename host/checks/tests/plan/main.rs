//! The archive's `journal_plan` against the independent reading: the answer, every store of the list,
//! and every other byte that was lent. And every cut of appends that the archive works out and
//! carries out.
mod again;
mod arrays;
mod compact;
mod corpus;
mod cuts;
mod drafted;
mod examples;
mod fields;
mod foreign;
mod late;
mod lists;
mod made;
mod many;
mod order;
mod places;
mod redo;
mod refusals;
mod rule;
mod set_clock;
mod sets;
mod syncs;
mod tails;
