//! Payments from elsewhere, judged for a book.

use std::fmt;

use crate::balances::Balances;
use crate::book::Book;
use crate::frames::{little_endian, push_frame, Frame, Frames};
use crate::groups::groups;
use crate::refusal::Refusal;
use crate::settlement::Payment;
use crate::{Cents, Person};

/// The most payments that are judged.
pub const MOST_PAYMENTS: usize = 1024;

/// The highest amount of a payment that is judged.
pub const MOST_MOVED: u64 = 1 << 48;

/// How many bytes a payment has.
const PAYMENT_BYTES: usize = 10;

/// What is said of a list of payments.
#[derive(Clone, Copy, Debug, PartialEq, Eq)]
pub enum Verdict {
    BookRefused(Refusal),
    PaymentRefused { place: usize },
    NotQuit(Person),
    Settles { fewest: bool, least: bool },
}

impl fmt::Display for Verdict {
    /// The line that is printed, without its end.
    fn fmt(&self, f: &mut fmt::Formatter) -> fmt::Result {
        match self {
            Verdict::BookRefused(refusal) => write!(f, "{refusal}"),
            Verdict::PaymentRefused { place } => write!(f, "payment refused 12 at {place}"),
            Verdict::NotQuit(person) => write!(f, "{person} is not quit"),
            Verdict::Settles {
                fewest: true,
                least: true,
            } => write!(f, "fewest and least"),
            Verdict::Settles {
                fewest: true,
                least: false,
            } => write!(f, "fewest"),
            Verdict::Settles {
                fewest: false,
                least: true,
            } => write!(f, "least"),
            Verdict::Settles {
                fewest: false,
                least: false,
            } => write!(f, "settles"),
        }
    }
}

/// Judges the bytes of a list for the bytes of a book.
pub fn audit(book: &[u8], list: &[u8]) -> Verdict {
    let book = match Book::read(book) {
        Ok((book, _)) => book,
        Err(refusal) => return Verdict::BookRefused(refusal),
    };
    match read_payments(list, book.people()) {
        Ok(payments) => judge(&Balances::of(&book), &payments),
        Err(place) => Verdict::PaymentRefused { place },
    }
}

/// Judges payments between people of the book.
pub fn judge(balances: &Balances, payments: &[Payment]) -> Verdict {
    let mut left = balances.clone();
    for payment in payments {
        left.pay(payment.from, payment.to, payment.amount);
    }
    let first_open = left.open().next();
    if let Some((person, _)) = first_open {
        return Verdict::NotQuit(person);
    }
    let moved: Cents = payments.iter().map(|payment| payment.amount).sum();
    let needed = balances.open().count() - groups(balances).len();
    Verdict::Settles {
        fewest: payments.len() == needed,
        least: moved == balances.owed(),
    }
}

/// Reads a list of payments, or tells the place of the first that can not be taken.
fn read_payments(list: &[u8], people: usize) -> Result<Vec<Payment>, usize> {
    let numbered = Frames::of(list).enumerate();
    numbered
        .map(|(place, frame)| {
            read_payment(frame, people)
                .filter(|_| place < MOST_PAYMENTS)
                .ok_or(place)
        })
        .collect()
}

/// Reads one payment, if it is whole and can be made.
fn read_payment(frame: Frame, people: usize) -> Option<Payment> {
    if !frame.whole || frame.bytes.len() != PAYMENT_BYTES {
        return None;
    }
    let from = Person::from(frame.bytes[0]);
    let to = Person::from(frame.bytes[1]);
    let amount = little_endian(&frame.bytes[2..]);
    let can_be_made =
        from < people && to < people && from != to && (1..=MOST_MOVED).contains(&amount);
    can_be_made.then_some(Payment {
        from,
        to,
        amount: amount as Cents,
    })
}

/// The bytes of a payment, without its length byte.
pub fn payment_bytes(payment: &Payment) -> Vec<u8> {
    let mut bytes = vec![payment.from as u8, payment.to as u8];
    bytes.extend_from_slice(&payment.amount.to_le_bytes());
    bytes
}

/// The bytes of a list of payments, as the auditor reads them.
pub fn list_bytes(payments: &[Payment]) -> Vec<u8> {
    let mut bytes = Vec::new();
    for payment in payments {
        push_frame(&mut bytes, &payment_bytes(payment));
    }
    bytes
}

#[cfg(test)]
mod tests {
    use super::*;
    use crate::settlement::settle;

    /// Payments written as from, to, amount.
    fn list(payments: &[(Person, Person, Cents)]) -> Vec<Payment> {
        payments
            .iter()
            .map(|&(from, to, amount)| Payment { from, to, amount })
            .collect()
    }

    /// What is printed of payments for balances of three people.
    fn verdict(payments: &[(Person, Person, Cents)]) -> String {
        judge(&Balances::from_cents(&[57, -23, -34]), &list(payments)).to_string()
    }

    #[test]
    fn every_verdict() {
        assert_eq!(verdict(&[(1, 0, 23), (2, 0, 34)]), "fewest and least");
        assert_eq!(verdict(&[(1, 2, 23), (2, 0, 57)]), "fewest");
        assert_eq!(verdict(&[(1, 0, 20), (1, 0, 3), (2, 0, 34)]), "least");
        assert_eq!(verdict(&[(1, 0, 24), (0, 1, 1), (2, 0, 34)]), "settles");
        assert_eq!(verdict(&[(1, 0, 23), (2, 0, 33)]), "0 is not quit");
        assert_eq!(verdict(&[(1, 0, 22), (2, 0, 35)]), "1 is not quit");
    }

    #[test]
    fn own_payments_are_best() {
        let balances = Balances::from_cents(&[-5, -5, 10, -7, 3, 4]);
        assert_eq!(
            judge(&balances, &settle(&balances)),
            Verdict::Settles {
                fewest: true,
                least: true
            }
        );
    }

    #[test]
    fn the_first_bad_payment_is_named() {
        let good = list_bytes(&list(&[(0, 1, 1 << 48), (1, 0, 1 << 48)]));
        let say = |bad: &[u8]| audit(&[2], &[&good, bad].concat()).to_string();
        assert_eq!(say(&[]), "settles");
        let refused = "payment refused 12 at 2";
        let bad = [
            (0, 2, 5),
            (2, 0, 5),
            (1, 1, 5),
            (0, 1, 0),
            (0, 1, (1 << 48) + 1),
            (0, 1, -1),
        ];
        assert!(bad
            .iter()
            .all(|&payment| say(&list_bytes(&list(&[payment]))) == refused));
        assert!([
            &[0][..],
            &[10],
            &[10, 0, 1, 5, 0, 0],
            &[11, 0, 1, 5, 0, 0, 0, 0, 0, 0, 0]
        ]
        .iter()
        .all(|bad| say(bad) == refused));
    }

    #[test]
    fn a_list_can_be_too_long() {
        let most = good_pairs(MOST_PAYMENTS / 2);
        assert_eq!(audit(&[2], &most).to_string(), "settles");
        let more = [&most[..], &most[..11]].concat();
        assert_eq!(audit(&[2], &more).to_string(), "payment refused 12 at 1024");
    }

    /// The bytes of payments there and back.
    fn good_pairs(count: usize) -> Vec<u8> {
        list_bytes(&list(&[(0, 1, 7), (1, 0, 7)])).repeat(count)
    }

    #[test]
    fn a_book_for_nobody_is_refused() {
        assert_eq!(audit(&[], &[1]).to_string(), "refused 1 at 0");
    }
}
