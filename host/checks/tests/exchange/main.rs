//! Entries as text: the archive's `journal_export`, `journal_text` and `journal_import` against the independent
//! reading, and one against another.
mod asking;
mod cases;
mod changed;
mod counts;
mod forms;
mod given;
mod images;
mod lengths;
mod long;
mod payloads;
mod returned;
mod soup;
mod stamps;
mod typed;
mod values;
