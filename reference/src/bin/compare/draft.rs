//! A book while it is made: its lines are still apart from their length bytes, so that they can be edited.

use reference::frames::push_frame;
use reference::line::MOST_CENTS;
use reference::{Cents, Person};

use crate::random::Random;

/// People and lines of a book to come.
pub struct Draft {
    pub people: u8,
    pub lines: Vec<Vec<u8>>,
    /// The numbers of bills and payments that were not taken back, as long as no line is refused.
    standing: Vec<usize>,
}

impl Draft {
    /// A book without lines.
    pub fn new(people: usize) -> Draft {
        Draft {
            people: people as u8,
            lines: Vec::new(),
            standing: Vec::new(),
        }
    }

    /// How many people there are, as an index.
    pub fn crew(&self) -> usize {
        usize::from(self.people)
    }

    /// The bytes of the book.
    pub fn bytes(&self) -> Vec<u8> {
        let mut bytes = vec![self.people];
        for line in &self.lines {
            push_frame(&mut bytes, line);
        }
        bytes
    }

    /// Adds a bill.
    pub fn bill(&mut self, payer: Person, amount: u32, weights: &[u16]) {
        let mut line = vec![1, payer as u8];
        line.extend(amount.to_le_bytes());
        line.extend(weights.iter().flat_map(|weight| weight.to_le_bytes()));
        self.standing.push(self.lines.len());
        self.lines.push(line);
    }

    /// Adds a payment that was made.
    pub fn payment(&mut self, from: Person, to: Person, amount: u32) {
        let mut line = vec![2, from as u8, to as u8];
        line.extend(amount.to_le_bytes());
        self.standing.push(self.lines.len());
        self.lines.push(line);
    }

    /// Takes back one of the lines that stand, if there is any.
    pub fn take_back_any(&mut self, random: &mut Random) {
        if !self.standing.is_empty() {
            let number = self.standing.swap_remove(random.below(self.standing.len()));
            self.take_back(number);
        }
    }

    /// Takes back the last line, which must be a bill or payment.
    pub fn take_back_last(&mut self) {
        if let Some(number) = self.standing.pop() {
            self.take_back(number);
        }
    }

    /// Adds a line that takes back another one.
    pub fn take_back(&mut self, number: usize) {
        let [low, high] = (number as u16).to_le_bytes();
        self.lines.push(vec![3, low, high]);
    }

    /// Adds lines by which one person gives another so much: payments, or bills that only the other one has to bear.
    pub fn give(&mut self, random: &mut Random, from: Person, to: Person, amount: Cents) {
        let mut left = amount;
        while left > 0 {
            let part = left.min(Cents::from(MOST_CENTS));
            left -= part;
            if random.one_in(3) {
                let mut weights = vec![0; self.crew()];
                weights[to] = random.within(1, 1000) as u16;
                self.bill(from, part as u32, &weights);
            } else {
                self.payment(from, to, part as u32);
            }
        }
    }
}
