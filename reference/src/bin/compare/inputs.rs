//! The inputs on which the programs are compared, by number.

use crate::lists::{self, Case};
use crate::random::Random;
use crate::{books, crews, damage};

/// What both programs are given.
pub struct Input {
    pub kind: &'static str,
    pub book: Vec<u8>,
    /// The list to judge, where the auditor is asked.
    pub payments: Option<Vec<u8>>,
    /// Whether the book is given as a file and not on standard input.
    pub by_file: bool,
}

type BookMaker = fn(&mut Random) -> Vec<u8>;
type ListMaker = fn(&mut Random, &Case) -> Vec<u8>;

/// Kinds of books for the report, each with how often it comes in a hundred.
const BOOKS: [(&str, usize, BookMaker); 7] = [
    ("whole", 17, books::whole),
    ("damaged", 25, damage::damaged),
    ("cut", 10, books::cut),
    ("long", 6, books::long),
    ("grouped", 34, crews::grouped),
    ("garbage", 6, books::garbage),
    ("empty", 2, books::empty),
];

/// Kinds of lists for the auditor, each with how often it comes in a hundred.
const LISTS: [(&str, usize, ListMaker); 11] = [
    ("audit best", 11, lists::best),
    ("audit split", 10, lists::split),
    ("audit roundabout", 12, lists::roundabout),
    ("audit carried", 12, lists::carried),
    ("audit dropped", 6, lists::dropped),
    ("audit changed", 8, lists::changed),
    ("audit none", 3, lists::none),
    ("audit full", 8, lists::full),
    ("audit damaged", 18, lists::damaged),
    ("audit cut", 6, lists::cut),
    ("audit garbage", 6, lists::garbage),
];

/// Makes the input of a number, always the same for the same seed.
pub fn input(seed: u64, number: u64) -> Input {
    let random = &mut Random::of(seed, number);
    let by_file = random.one_in(6);
    if random.one_in(5) {
        let book = audited_book(random);
        let (kind, make) = choose(random, &LISTS);
        let payments = make(random, &Case::of(&book));
        return Input {
            kind,
            book,
            payments: Some(payments),
            by_file,
        };
    }
    let (kind, make) = choose(random, &BOOKS);
    Input {
        kind,
        book: make(random),
        payments: None,
        by_file,
    }
}

/// A book for which payments are judged; now and then one that was damaged.
fn audited_book(random: &mut Random) -> Vec<u8> {
    match random.below(20) {
        0 => books::empty(random),
        1 | 2 => damage::damaged(random),
        3..=8 => books::whole(random),
        _ => crews::grouped(random),
    }
}

/// One of a table's rows, each as often as it says.
fn choose<T: Copy>(random: &mut Random, table: &[(&'static str, usize, T)]) -> (&'static str, T) {
    let all = table.iter().map(|row| row.1).sum();
    let mut left = random.below(all);
    for &(name, often, value) in table {
        if left < often {
            return (name, value);
        }
        left -= often;
    }
    unreachable!("the number lies below the sum of the table")
}

#[cfg(test)]
mod tests {
    use super::*;
    use reference::audit::audit;
    use reference::report::report;
    use std::collections::BTreeMap;

    /// How many of the first inputs print a line with each of these ways to end or begin.
    fn met(count: u64, has: impl Fn(&str) -> Vec<String>) -> BTreeMap<String, usize> {
        let mut met = BTreeMap::new();
        for number in 0..count {
            let input = input(1, number);
            let text = match &input.payments {
                Some(payments) => audit(&input.book, payments).to_string(),
                None => report(&input.book),
            };
            for found in has(&text) {
                *met.entry(found).or_insert(0) += 1;
            }
        }
        met
    }

    #[test]
    fn an_input_can_be_made_again() {
        for number in 0..50 {
            let (first, again) = (input(3, number), input(3, number));
            assert_eq!(
                (first.book, first.payments, first.by_file),
                (again.book, again.payments, again.by_file)
            );
        }
    }

    #[test]
    fn every_refusal_is_met() {
        let numbers = |text: &str| {
            let mut numbers: Vec<String> = text
                .lines()
                .filter_map(|line| line.split("refused ").nth(1))
                .map(String::from)
                .collect();
            numbers
                .iter_mut()
                .for_each(|rest| rest.truncate(rest.find(' ').unwrap_or(rest.len())));
            numbers.sort();
            numbers.dedup();
            numbers
        };
        let met = met(1000, numbers);
        for refusal in ["1", "2", "3", "4", "5", "6", "7", "8", "9", "11", "12"] {
            assert!(
                met.get(refusal).is_some_and(|&times| times >= 10),
                "{refusal}: {met:?}"
            );
        }
    }

    #[test]
    fn every_verdict_is_met() {
        let met = met(1000, |text| {
            vec![text
                .trim_start_matches(|c: char| c.is_ascii_digit())
                .to_string()]
        });
        for verdict in [
            "fewest and least",
            "fewest",
            "least",
            "settles",
            " is not quit",
        ] {
            assert!(
                met.get(verdict).is_some_and(|&times| times >= 10),
                "{verdict}"
            );
        }
    }
}
