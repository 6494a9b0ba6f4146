//! What everybody gave less what everybody had.

use crate::book::Book;
use crate::line::Line;
use crate::shares::shares;
use crate::{Cents, Person};

/// Everybody's balance: below 0 owes, above 0 is owed.
#[derive(Clone, Debug, PartialEq, Eq)]
pub struct Balances(Vec<Cents>);

impl Balances {
    /// Works out the balances from the lines that stand.
    pub fn of(book: &Book) -> Balances {
        let mut balances = Balances(vec![0; book.people()]);
        for line in book.standing() {
            balances.count(line);
        }
        balances
    }

    /// Balances as given, one for each person.
    pub fn from_cents(cents: &[Cents]) -> Balances {
        Balances(cents.to_vec())
    }

    /// Adds one line to what people gave and had.
    fn count(&mut self, line: &Line) {
        match line {
            Line::Bill {
                payer,
                amount,
                weights,
            } => {
                self.0[*payer] += Cents::from(*amount);
                for (balance, share) in self.0.iter_mut().zip(shares(*amount, weights)) {
                    *balance -= Cents::from(share);
                }
            }
            Line::Payment { from, to, amount } => self.pay(*from, *to, Cents::from(*amount)),
            Line::TakingBack { .. } => {}
        }
    }

    /// Counts money that goes from one person to another.
    pub fn pay(&mut self, from: Person, to: Person, amount: Cents) {
        self.0[from] += amount;
        self.0[to] -= amount;
    }

    /// The balance of one person.
    pub fn get(&self, person: Person) -> Cents {
        self.0[person]
    }

    /// How many people have a balance, open or not.
    pub fn people(&self) -> usize {
        self.0.len()
    }

    /// The people whose balance is not 0, with it.
    pub fn open(&self) -> impl Iterator<Item = (Person, Cents)> + '_ {
        self.0
            .iter()
            .copied()
            .enumerate()
            .filter(|&(_, balance)| balance != 0)
    }

    /// What all who are owed something are owed together.
    pub fn owed(&self) -> Cents {
        self.0.iter().filter(|&&balance| balance > 0).sum()
    }
}
