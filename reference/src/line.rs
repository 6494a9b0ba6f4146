//! One line of a book: what its bytes say, and the rules that can be checked without the other lines.

use crate::frames::{little_endian, Frame};
use crate::refusal::Refusal;
use crate::Person;

/// The highest amount of a bill or payment, in cents.
pub const MOST_CENTS: u32 = 1_000_000_000;

/// The highest weight of a person in a bill.
pub const MOST_WEIGHT: u16 = 1_000;

/// A line that keeps every rule which does not speak of other lines.
#[derive(Clone, Debug, PartialEq, Eq)]
pub enum Line {
    Bill {
        payer: Person,
        amount: u32,
        weights: Vec<u16>,
    },
    Payment {
        from: Person,
        to: Person,
        amount: u32,
    },
    TakingBack {
        number: usize,
    },
}

#[derive(Clone, Copy)]
enum Kind {
    Bill,
    Payment,
    TakingBack,
}

impl Kind {
    /// Tells the kind by the first byte.
    fn of(bytes: &[u8]) -> Result<Kind, Refusal> {
        match bytes.first() {
            Some(1) => Ok(Kind::Bill),
            Some(2) => Ok(Kind::Payment),
            Some(3) => Ok(Kind::TakingBack),
            _ => Err(Refusal::Kind),
        }
    }

    /// How many bytes a line of this kind has; a bill has a weight for everybody.
    fn length(self, people: usize) -> usize {
        match self {
            Kind::Bill => 6 + 2 * people,
            Kind::Payment => 7,
            Kind::TakingBack => 3,
        }
    }
}

impl Line {
    /// Reads a line by the rules in their order; a line that was cut never has its length.
    pub fn parse(frame: Frame, people: usize) -> Result<Line, Refusal> {
        let bytes = frame.bytes;
        let kind = Kind::of(bytes)?;
        if !frame.whole || bytes.len() != kind.length(people) {
            return Err(Refusal::Length { there: bytes.len() });
        }
        match kind {
            Kind::Bill => bill(bytes, people),
            Kind::Payment => payment(bytes, people),
            Kind::TakingBack => Ok(Line::TakingBack {
                number: little_endian(&bytes[1..3]) as usize,
            }),
        }
    }
}

/// Reads a bill of the right length: payer, amount, weights.
fn bill(bytes: &[u8], people: usize) -> Result<Line, Refusal> {
    let payer = person(bytes, 1, people)?;
    let amount = amount(bytes, 2)?;
    let weights: Vec<u16> = bytes[6..]
        .chunks_exact(2)
        .map(|pair| little_endian(pair) as u16)
        .collect();
    if let Some(first) = weights.iter().position(|&weight| weight > MOST_WEIGHT) {
        return Err(Refusal::WeightTooHigh { at: 6 + 2 * first });
    }
    if weights.iter().all(|&weight| weight == 0) {
        return Err(Refusal::NoWeight);
    }
    Ok(Line::Bill {
        payer,
        amount,
        weights,
    })
}

/// Reads a payment of the right length: from, to, amount.
fn payment(bytes: &[u8], people: usize) -> Result<Line, Refusal> {
    let from = person(bytes, 1, people)?;
    let to = person(bytes, 2, people)?;
    let amount = amount(bytes, 3)?;
    if from == to {
        return Err(Refusal::PaysItself);
    }
    Ok(Line::Payment { from, to, amount })
}

/// Reads a person, who must be one of the people of the book.
fn person(bytes: &[u8], at: usize, people: usize) -> Result<Person, Refusal> {
    let person = Person::from(bytes[at]);
    if person < people {
        Ok(person)
    } else {
        Err(Refusal::NoSuchPerson { at })
    }
}

/// Reads an amount of four bytes, which must be above 0 and not too high.
fn amount(bytes: &[u8], at: usize) -> Result<u32, Refusal> {
    let amount = little_endian(&bytes[at..at + 4]) as u32;
    if (1..=MOST_CENTS).contains(&amount) {
        Ok(amount)
    } else {
        Err(Refusal::Amount { at })
    }
}

#[cfg(test)]
mod tests {
    use super::*;

    /// What a book of two people says to a line.
    fn refusal(bytes: &[u8]) -> Option<(u8, usize)> {
        let answer = Line::parse(Frame { bytes, whole: true }, 2);
        answer
            .err()
            .map(|refusal| (refusal.number(), refusal.place()))
    }

    #[test]
    fn the_first_rule_decides() {
        assert_eq!(refusal(&[]), Some((2, 0)));
        assert_eq!(refusal(&[4, 9, 9]), Some((2, 0)));
        assert_eq!(refusal(&[2, 9, 9, 0, 0, 0]), Some((3, 6)));
        assert_eq!(refusal(&[2, 2, 9, 0, 0, 0, 0]), Some((4, 1)));
        assert_eq!(refusal(&[2, 1, 2, 0, 0, 0, 0]), Some((4, 2)));
        assert_eq!(refusal(&[2, 1, 1, 0, 0, 0, 0]), Some((5, 3)));
        assert_eq!(refusal(&[2, 1, 1, 1, 0, 0, 0]), Some((8, 2)));
        assert_eq!(refusal(&[2, 0, 1, 1, 0, 0, 0]), None);
        assert_eq!(refusal(&[1, 2, 0, 0, 0, 0, 0, 0, 0, 0]), Some((4, 1)));
        assert_eq!(refusal(&[1, 1, 0, 0, 0, 0, 0, 0, 0, 0]), Some((5, 2)));
        assert_eq!(refusal(&[1, 1, 1, 0, 0, 0, 0, 0, 0, 0]), Some((7, 6)));
        assert_eq!(refusal(&[1, 1, 1, 0, 0, 0, 0, 0, 233, 3]), Some((6, 8)));
        assert_eq!(refusal(&[1, 1, 1, 0, 0, 0, 0, 0, 232, 3]), None);
    }

    #[test]
    fn amounts_have_limits() {
        let payment = |amount: u32| [&[2, 0, 1][..], &amount.to_le_bytes()].concat();
        assert_eq!(refusal(&payment(MOST_CENTS)), None);
        assert_eq!(refusal(&payment(MOST_CENTS + 1)), Some((5, 3)));
    }

    #[test]
    fn a_cut_line_never_has_its_length() {
        let cut = |bytes| {
            Line::parse(
                Frame {
                    bytes,
                    whole: false,
                },
                2,
            )
        };
        assert_eq!(
            cut(&[2, 0, 1, 1, 0, 0, 0]),
            Err(Refusal::Length { there: 7 })
        );
        assert_eq!(cut(&[]), Err(Refusal::Kind));
    }
}
