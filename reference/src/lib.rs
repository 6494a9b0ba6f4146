//! The purser's book a second time, written from its rules: a book is read, balances are worked out, and payments that settle it are found or judged.

pub mod audit;
pub mod balances;
pub mod book;
pub mod frames;
pub mod groups;
pub mod line;
pub mod refusal;
pub mod report;
pub mod settlement;
pub mod shares;

/// A person's number, from 0.
pub type Person = usize;

/// An amount in cents that may be below 0.
pub type Cents = i64;

/// The most people that a book can have.
pub const MOST_PEOPLE: usize = 16;
