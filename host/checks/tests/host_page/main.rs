//! The pages for those who write a host: their C programs compile, link with the archive and do what the
//! wrapper does, their declarations are those of the exports, and their tables are whole. The Rust
//! examples there are tests of the documentation of the wrapper.
mod appending;
mod declarations;
mod page;
mod reading;
mod tables;
