//! Refusals by their number.
use crate::rows::ROWS;
use std::fmt::{Display, Formatter};
use std::num::NonZeroU64;

/// Why a call is refused: a number of the rules' tables, 1 to 25 or 28. It is an error with words, so
/// that `?` hands it on and a host can print it as it is.
///
/// ```
/// let refusal = wrapper::open(b"no journal").expect_err("it is too short");
/// assert_eq!(refusal.number(), 1);
/// assert_eq!(refusal.row(), "fewer than 256 bytes");
/// assert!(refusal.sentence().starts_with("this is no journal"));
/// let error: Box<dyn std::error::Error> = refusal.into();
/// assert!(error.to_string().ends_with(" (refusal 1: fewer than 256 bytes)"));
/// ```
#[derive(Clone, Copy, Debug, PartialEq, Eq, PartialOrd, Ord, Hash)]
pub struct Refusal(NonZeroU64);

impl Refusal {
    /// The refusal of a number; 0 is accepted, and none.
    pub fn new(number: u64) -> Option<Refusal> {
        NonZeroU64::new(number).map(Refusal)
    }

    /// A call's answer that is 0 or a refusal.
    pub(crate) fn check(number: u64) -> Result<(), Refusal> {
        Refusal::new(number).map_or(Ok(()), Err)
    }

    pub fn number(self) -> u64 {
        self.0.get()
    }

    /// For a person: what is wrong, and what to do about it if there is something.
    pub fn sentence(self) -> &'static str {
        self.words().0
    }

    /// The condition that applies, as it stands in the rules' tables.
    pub fn row(self) -> &'static str {
        self.words().1
    }

    /// The number and the row.
    pub fn rule(self) -> String {
        format!("refusal {}: {}", self.number(), self.row())
    }

    fn words(self) -> (&'static str, &'static str) {
        let unknown = ("refused", "a number that the rules do not have");
        let row = ROWS.iter().find(|&&(number, ..)| number == self.number());
        row.map_or(unknown, |&(_, sentence, row)| (sentence, row))
    }
}

/// The sentence, and then the number with its row.
impl Display for Refusal {
    fn fmt(&self, to: &mut Formatter) -> std::fmt::Result {
        write!(to, "{} ({})", self.sentence(), self.rule())
    }
}

impl std::error::Error for Refusal {}
