//! "How much room do the arrays eat?" Files that the archive makes and writes, by appends and batches
//! that are taken and refused: after each call the arrays of every chain are those of the rule, and their
//! room is within the bound. And the numbers of the page for those who size cards.
mod calls;
mod caught;
mod file;
mod look;
mod page;
mod runs;
mod seen;
mod tight;
