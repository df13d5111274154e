//! Files that the archive alone makes and writes, and journalctl: it passes each, and shows what the
//! archive's lookups show. The same for journald's own files with appends of the archive, and for
//! crash states of an append, which are shown as before it or as after it. What journalctl exports is imported,
//! and what the archive exports is taken by systemd-journal-remote.
//!
//! It needs journalctl, so that `cargo test` runs it only when it is asked for by name:
//! `cargo test --offline --release -p checks --test journalctl`.
mod batches;
mod check;
mod corpus;
mod cuts;
mod damaged;
mod entries;
mod exchange;
mod export;
mod file;
mod foreign;
mod lookups;
mod payloads;
mod remote;
mod set_clock;
mod stamps;
mod streams;
mod written;
