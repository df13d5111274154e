//! Why an image is refused: the archive's `journal_why` against the independent reading, and against what
//! was damaged.
mod asking;
mod clauses;
mod corpus;
mod images;
mod long;
mod made;
mod places;
mod typed;
mod words;
