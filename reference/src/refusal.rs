//! Why something is turned away: a number for the rule and a place in the bytes.

use std::fmt;

/// The rules by which a book or a line is turned away; `at` is the place where a rule was broken.
#[derive(Clone, Copy, Debug, PartialEq, Eq)]
pub enum Refusal {
    NumberOfPeople,
    Kind,
    Length { there: usize },
    NoSuchPerson { at: usize },
    Amount { at: usize },
    WeightTooHigh { at: usize },
    NoWeight,
    PaysItself,
    NothingToTakeBack,
    BookFull,
}

impl Refusal {
    /// The number under which the rule is printed.
    pub fn number(self) -> u8 {
        match self {
            Refusal::NumberOfPeople => 1,
            Refusal::Kind => 2,
            Refusal::Length { .. } => 3,
            Refusal::NoSuchPerson { .. } => 4,
            Refusal::Amount { .. } => 5,
            Refusal::WeightTooHigh { .. } => 6,
            Refusal::NoWeight => 7,
            Refusal::PaysItself => 8,
            Refusal::NothingToTakeBack => 9,
            Refusal::BookFull => 11,
        }
    }

    /// The place that is printed; most rules always name the same one.
    pub fn place(self) -> usize {
        match self {
            Refusal::NumberOfPeople | Refusal::Kind | Refusal::BookFull => 0,
            Refusal::NothingToTakeBack => 1,
            Refusal::PaysItself => 2,
            Refusal::NoWeight => 6,
            Refusal::Length { there } => there,
            Refusal::NoSuchPerson { at }
            | Refusal::Amount { at }
            | Refusal::WeightTooHigh { at } => at,
        }
    }
}

impl fmt::Display for Refusal {
    /// The words that are the same for books and lines.
    fn fmt(&self, f: &mut fmt::Formatter) -> fmt::Result {
        write!(f, "refused {} at {}", self.number(), self.place())
    }
}
