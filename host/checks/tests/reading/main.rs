//! The independent reading of the rules, tried on the worked examples, on real files, on good
//! and damaged images, and at every cut of many appends.
mod appends;
mod batches;
mod compact;
mod compact_refused;
mod corpus;
mod cuts;
mod examples;
mod exchange;
mod foreign;
mod forms;
mod freedoms;
mod index;
mod late;
mod merged;
mod merged_answers;
mod pages;
mod plain;
mod refusals;
mod set_clock;
mod stores;
mod why;
