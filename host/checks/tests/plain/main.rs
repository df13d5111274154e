//! The archive's plain reader: against the independent one, and against the archive's other reader, which
//! gives the same answers on every image that 1 to 11 and 14 let pass.
mod asking;
mod clauses;
mod cuts;
mod images;
mod late;
mod long;
mod set_clock;
mod source;
mod words;
