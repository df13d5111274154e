//! The archive's `journal_new` and `journal_carry_out` against the independent reading: the answer,
//! and every byte of the image then.
mod carrying;
mod lending;
mod new_files;
