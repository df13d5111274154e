//! A safe wrapper over `libjournal.a`, the proved archive: each of its calls as a function of the
//! same name without the prefix `journal_`, with slices as arguments and with answers that have
//! types. Those of the plain reader, `journal_plain_`, are in `plain`.
//!
//! Over them: `entries` and `stream` show all entries one after the other, and `foreign_objects` all
//! objects that are walked over; `Fields` packs the fields of an append and `Batch` the entries of a
//! batch, `stores` and `stores_batch` are the list of its stores as long as it has to be, and
//! `between_syncs` has it in the parts between two syncs. `export`, `text` and `import` have a buffer of
//! their own; `export_into` and `text_into` write to one that is lent.
//!
//! `raw` has the calls with the numbers that the archive answers, and makes all `unsafe` calls into
//! it.
mod batch;
mod boot;
mod call;
mod entries;
mod exchange;
mod fields;
mod foreign;
mod lookups;
mod merged;
mod pages;
pub mod plain;
pub mod raw;
mod records;
mod refusal;
mod rows;
mod stores;
mod stream;
mod syncs;
mod turning;
mod why;

pub use batch::{plan_batch, stores_batch, Batch, NewEntry, PlannedBatch, RefusedBatch};
pub use boot::{boot_meaning, BootMeaning};
pub use entries::{entries, Entries};
pub use exchange::{export, export_into, import, text, text_into, Exchanged, LONGEST_TEXT};
pub use fields::Fields;
pub use foreign::{foreign, foreign_objects, Foreign, ForeignObjects};
pub use lookups::{
    by_payload, by_realtime, by_seqnum, entry, item, open, stamps, value, Offset, Stamps,
};
pub use merged::{
    all_merged, merged, merged_item, page_merged, Merged, MergedPage, Refused, Which,
};
pub use pages::{
    all_entries, all_matches, all_values, page_entries, page_matches, page_values, Entry, Page,
};
pub use raw::{hash_lookup3, hash_siphash24, Request};
pub use refusal::Refusal;
pub use stores::{carry_out, new, plan, stores, Planned};
pub use stream::{stream, Stream};
pub use syncs::{between_syncs, sync_points};
pub use why::{why, Place, Why, WrongHash};

/// An image has at most so many bytes: 2.
pub const LONGEST_IMAGE: u64 = 8_388_608;

/// The examples of the pages for those who write a host, as tests of the documentation.
#[cfg(doctest)]
#[doc = include_str!("../../../docs/HOST.md")]
struct HostPage;

#[cfg(doctest)]
#[doc = include_str!("../../../docs/host/appending.md")]
struct AppendingPage;
