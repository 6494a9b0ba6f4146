//! A book: its people and the lines that were taken.

use crate::frames::{Frame, Frames};
use crate::line::Line;
use crate::refusal::Refusal;
use crate::MOST_PEOPLE;

/// The most lines that a book takes.
pub const MOST_LINES: usize = 512;

/// The number that a line got, or why it was turned away.
pub type Answer = Result<usize, Refusal>;

struct Entry {
    line: Line,
    taken_back: bool,
}

/// The lines that were taken, in order; a line's number is its place among them.
pub struct Book {
    people: usize,
    entries: Vec<Entry>,
}

impl Book {
    /// An empty book for so many people.
    pub fn new(people: usize) -> Result<Book, Refusal> {
        if (1..=MOST_PEOPLE).contains(&people) {
            Ok(Book {
                people,
                entries: Vec::new(),
            })
        } else {
            Err(Refusal::NumberOfPeople)
        }
    }

    /// Reads a whole input: the book and the answers to its lines; no byte at all is a book for nobody.
    pub fn read(input: &[u8]) -> Result<(Book, Vec<Answer>), Refusal> {
        let (people, lines) = input.split_first().unwrap_or((&0, &[]));
        let mut book = Book::new(usize::from(*people))?;
        let answers = Frames::of(lines).map(|frame| book.add(frame)).collect();
        Ok((book, answers))
    }

    /// Takes a line and gives it the next number, or turns it away and changes nothing.
    pub fn add(&mut self, frame: Frame) -> Answer {
        if self.entries.len() >= MOST_LINES {
            return Err(Refusal::BookFull);
        }
        let line = Line::parse(frame, self.people)?;
        if let Line::TakingBack { number } = line {
            self.take_back(number)?;
        }
        self.entries.push(Entry {
            line,
            taken_back: false,
        });
        Ok(self.entries.len() - 1)
    }

    /// Marks a bill or payment that stands as taken back.
    fn take_back(&mut self, number: usize) -> Result<(), Refusal> {
        match self.entries.get_mut(number) {
            Some(entry) if !entry.taken_back && !matches!(entry.line, Line::TakingBack { .. }) => {
                entry.taken_back = true;
                Ok(())
            }
            _ => Err(Refusal::NothingToTakeBack),
        }
    }

    /// How many people the book has.
    pub fn people(&self) -> usize {
        self.people
    }

    /// The lines that were not taken back.
    pub fn standing(&self) -> impl Iterator<Item = &Line> {
        self.entries
            .iter()
            .filter(|entry| !entry.taken_back)
            .map(|entry| &entry.line)
    }
}

#[cfg(test)]
mod tests {
    use super::*;

    const PAYMENT: [u8; 8] = [7, 2, 0, 1, 5, 0, 0, 0];

    #[test]
    fn people_are_one_to_sixteen() {
        for input in [&[][..], &[0], &[17], &[255, 1, 2]] {
            assert_eq!(Book::read(input).err(), Some(Refusal::NumberOfPeople));
        }
        assert!(Book::read(&[1]).is_ok() && Book::read(&[16]).is_ok());
    }

    #[test]
    fn only_standing_bills_and_payments_are_taken_back() {
        let take_back = |number| [3, 3, number, 0];
        let input = [
            &[2][..],
            &take_back(0),
            &PAYMENT,
            &take_back(0),
            &take_back(0),
            &take_back(1),
            &take_back(2),
        ]
        .concat();
        let (book, answers) = Book::read(&input).expect("two people");
        let refused = Err(Refusal::NothingToTakeBack);
        assert_eq!(answers, [refused, Ok(0), Ok(1), refused, refused, refused]);
        assert!(book
            .standing()
            .all(|line| matches!(line, Line::TakingBack { .. })));
    }

    #[test]
    fn a_full_book_turns_everything_away() {
        let input = [&[2][..], &PAYMENT.repeat(MOST_LINES), &[0], &PAYMENT, &[9]].concat();
        let (_, answers) = Book::read(&input).expect("two people");
        assert_eq!(answers[MOST_LINES - 1], Ok(MOST_LINES - 1));
        assert_eq!(answers[MOST_LINES..], [Err(Refusal::BookFull); 3]);
    }
}
