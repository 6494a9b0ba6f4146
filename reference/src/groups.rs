//! The greatest number of groups that come out even, found by a search over partings.
//!
//! Every set that comes out even is listed once, under its smallest person. A parting takes for the smallest person left one of the sets listed
//! under it, and goes on with the people left; what each remainder can still give is kept.

use crate::balances::Balances;
use crate::{Cents, Person, MOST_PEOPLE};

/// A set of people, read as a binary number: person i for 2^i.
#[derive(Clone, Copy, Debug, Default, PartialEq, Eq, PartialOrd, Ord)]
pub struct People(u16);

impl People {
    /// This set with one more person.
    pub fn with(self, person: Person) -> People {
        People(self.0 | 1 << person)
    }

    /// This set without the people of another one.
    pub fn without(self, others: People) -> People {
        People(self.0 & !others.0)
    }

    /// Whether everybody of this set is in the other one.
    pub fn within(self, other: People) -> bool {
        self.without(other) == People::default()
    }

    /// Whether a person is in this set.
    pub fn has(self, person: Person) -> bool {
        self.0 >> person & 1 == 1
    }

    /// How many people are in this set.
    pub fn count(self) -> usize {
        self.0.count_ones() as usize
    }

    /// The person with the smallest number, if there is anybody.
    fn smallest(self) -> Option<Person> {
        (self.0 != 0).then(|| self.0.trailing_zeros() as Person)
    }

    /// The people in order of their numbers.
    pub fn iter(self) -> impl Iterator<Item = Person> {
        (0..MOST_PEOPLE).filter(move |&person| self.has(person))
    }
}

/// The groups in the order in which they are fixed; the balances must come out even.
pub fn groups(balances: &Balances) -> Vec<People> {
    let open: Vec<(Person, Cents)> = balances.open().collect();
    let everybody = open
        .iter()
        .fold(People::default(), |set, &(person, _)| set.with(person));
    let mut search = Search::of(&open);
    let mut left = everybody;
    let mut fixed = Vec::new();
    while let Some(group) = search.least_best(left) {
        fixed.push(group);
        left = left.without(group);
    }
    fixed
}

struct Search {
    /// For each person the sets that come out even and have that person as smallest, least first.
    even: Vec<Vec<People>>,
    /// The greatest number of groups of each set of people that was met.
    known: Vec<Option<u8>>,
}

impl Search {
    /// Lists the sets that come out even under each of the open people.
    fn of(open: &[(Person, Cents)]) -> Search {
        let mut even = vec![Vec::new(); MOST_PEOPLE];
        for (place, &(person, balance)) in open.iter().enumerate() {
            let sets = &mut even[person];
            list_even(
                &open[place + 1..],
                People::default().with(person),
                balance,
                sets,
            );
            sets.sort_unstable();
        }
        Search {
            even,
            known: vec![None; 1 << MOST_PEOPLE],
        }
    }

    /// The greatest number of groups of the people left, whose balances come out even.
    fn most(&mut self, left: People) -> u8 {
        let Some(smallest) = left.smallest() else {
            return 0;
        };
        if let Some(most) = self.known[usize::from(left.0)] {
            return most;
        }
        // Nobody open is even alone, so a group has two people or more and pairs can not be beaten.
        let pairs = (left.count() / 2) as u8;
        let mut most = 0;
        for place in 0..self.even[smallest].len() {
            let group = self.even[smallest][place];
            if group.within(left) {
                most = most.max(1 + self.most(left.without(group)));
            }
            if most == pairs {
                break;
            }
        }
        self.known[usize::from(left.0)] = Some(most);
        most
    }

    /// The least set for the smallest person left with which the greatest number is still reached.
    fn least_best(&mut self, left: People) -> Option<People> {
        let smallest = left.smallest()?;
        let most = self.most(left);
        let sets = self.even[smallest].clone();
        sets.into_iter()
            .find(|&group| group.within(left) && 1 + self.most(left.without(group)) == most)
    }
}

/// Adds every set that comes out even and consists of `chosen` and some of the people still to come.
fn list_even(to_come: &[(Person, Cents)], chosen: People, sum: Cents, sets: &mut Vec<People>) {
    match to_come.split_first() {
        None if sum == 0 => sets.push(chosen),
        None => {}
        Some((&(person, balance), later)) => {
            list_even(later, chosen, sum, sets);
            list_even(later, chosen.with(person), sum + balance, sets);
        }
    }
}

#[cfg(test)]
mod tests {
    use super::*;

    /// All partings into groups that come out even, by adding each person to a group or to a new one.
    fn partings(
        open: &[(Person, Cents)],
        parts: &mut Vec<(People, Cents)>,
        found: &mut Vec<Vec<People>>,
    ) {
        let Some((&(person, balance), later)) = open.split_first() else {
            if parts.iter().all(|&(_, sum)| sum == 0) {
                found.push(parts.iter().map(|&(set, _)| set).collect());
            }
            return;
        };
        for place in 0..parts.len() {
            let before = parts[place];
            parts[place] = (before.0.with(person), before.1 + balance);
            partings(later, parts, found);
            parts[place] = before;
        }
        parts.push((People::default().with(person), balance));
        partings(later, parts, found);
        parts.pop();
    }

    /// The groups by the rule, from all partings: as many as can be, and of these the least, group by group.
    fn by_all_partings(balances: &Balances) -> Vec<People> {
        let open: Vec<_> = balances.open().collect();
        let mut found = Vec::new();
        partings(&open, &mut Vec::new(), &mut found);
        let most = found.iter().map(Vec::len).max().unwrap_or(0);
        found
            .into_iter()
            .filter(|parts| parts.len() == most)
            .min()
            .unwrap_or_default()
    }

    /// Numbers that only look random.
    fn scramble(state: &mut u64) -> u64 {
        *state = state
            .wrapping_mul(6364136223846793005)
            .wrapping_add(1442695040888963407);
        *state >> 33
    }

    #[test]
    fn small_crews_agree_with_all_partings() {
        let mut state = 1;
        for round in 0..3000 {
            let people = 1 + round % 7;
            let span = [3, 5, 9, 21][round / 7 % 4];
            let mut cents: Vec<Cents> = (0..people)
                .map(|_| (scramble(&mut state) % span) as Cents - span as Cents / 2)
                .collect();
            let rest: Cents = cents[1..].iter().sum();
            cents[0] = -rest;
            let balances = Balances::from_cents(&cents);
            assert_eq!(groups(&balances), by_all_partings(&balances), "{cents:?}");
        }
    }

    #[test]
    fn sixteen_people_in_pairs() {
        let cents: Vec<Cents> = (0..16)
            .map(|person| if person < 8 { -1 } else { 1 })
            .collect();
        let pairs: Vec<People> = (0..8)
            .map(|i| People::default().with(i).with(8 + i))
            .collect();
        assert_eq!(groups(&Balances::from_cents(&cents)), pairs);
    }

    #[test]
    fn nobody_open_is_no_group() {
        assert_eq!(groups(&Balances::from_cents(&[0, 0])), []);
    }
}
