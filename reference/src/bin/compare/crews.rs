//! Books in which many small balances cancel, so that there are many groups and many ways to part people.

use reference::Cents;

use crate::draft::Draft;
use crate::random::Random;

/// A book whose open people fall into many groups.
pub fn grouped(random: &mut Random) -> Vec<u8> {
    draft(random).bytes()
}

/// Such a book before it is put into bytes.
pub fn draft(random: &mut Random) -> Draft {
    let people = if random.one_in(5) {
        random.within(2, 9)
    } else {
        random.within(10, 16)
    };
    let mut balances = match random.below(4) {
        0 => any_small(random, people),
        1 => by_equal_amounts(random, people),
        _ => by_groups(random, people),
    };
    let unit = random.pick(&[1, 1, 1, 1, 1, 1, 100, 10_000_019, 1_000_000_000]);
    for balance in &mut balances {
        *balance *= unit;
    }
    if random.one_in(3) {
        miss(&mut balances, unit, random);
    }
    random.shuffle(&mut balances);
    bring_about(&balances, random)
}

/// Pairs, threes, fours and fives that come out even; whoever is left over at the end is not open.
fn by_groups(random: &mut Random, people: usize) -> Vec<Cents> {
    let highest = random.pick(&[1, 2, 3, 3, 7, 20, 100]);
    let sizes: &[usize] = random.pick(&[&[2, 3, 4][..], &[2], &[3], &[4], &[3, 4, 5], &[2, 2, 3]]);
    let mut balances = Vec::new();
    while balances.len() + 2 <= people {
        let size = random.pick(sizes).min(people - balances.len());
        let start = balances.len();
        balances.extend((1..size).map(|_| signed(random, highest)));
        let rest: Cents = balances[start..].iter().sum();
        balances.push(-rest);
    }
    balances.resize(people, 0);
    balances
}

/// Any balances up to a few cents, the last of which makes them even.
fn any_small(random: &mut Random, people: usize) -> Vec<Cents> {
    let highest = random.pick(&[1, 2, 3, 5, 10, 30]);
    let mut balances: Vec<Cents> = (1..people).map(|_| signed(random, highest)).collect();
    let rest: Cents = balances.iter().sum();
    balances.push(-rest);
    balances
}

/// Some owe one amount and others are owed another one, as 3 3 against 2 2 2.
fn by_equal_amounts(random: &mut Random, people: usize) -> Vec<Cents> {
    let owed = random.within(1, 5) as Cents;
    let owing = random.within(1, 5) as Cents;
    let some = random.within(1, people - 1);
    let mut balances: Vec<Cents> = (0..people)
        .map(|person| if person < some { owed } else { -owing })
        .collect();
    let rest: Cents = balances.iter().sum();
    balances[people - 1] -= rest;
    balances
}

/// Moves a cent between people, so that groups nearly come out even, or so much that they do if high bits are lost.
fn miss(balances: &mut [Cents], unit: Cents, random: &mut Random) {
    let step = random.pick(&[1, 1, unit, 1 << 16, 1 << 32]);
    for _ in 0..random.within(1, 3) {
        let (first, second) = random.two_of(balances.len());
        balances[first] += step;
        balances[second] -= step;
    }
}

/// An amount other than 0 that is owed or owing.
fn signed(random: &mut Random, highest: usize) -> Cents {
    let amount = random.within(1, highest) as Cents;
    random.pick(&[amount, -amount])
}

/// Writes a book that leaves these balances, with lines between that change nothing.
fn bring_about(balances: &[Cents], random: &mut Random) -> Draft {
    let mut draft = Draft::new(balances.len());
    let mut left = balances.to_vec();
    let noise = random.pick(&[0, 2, 5]);
    loop {
        let givers: Vec<usize> = (0..left.len()).filter(|&person| left[person] > 0).collect();
        let takers: Vec<usize> = (0..left.len()).filter(|&person| left[person] < 0).collect();
        if givers.is_empty() || takers.is_empty() {
            return draft;
        }
        let (giver, taker) = (random.pick(&givers), random.pick(&takers));
        let amount = left[giver].min(-left[taker]);
        left[giver] -= amount;
        left[taker] += amount;
        draft.give(random, giver, taker, amount);
        if noise > 0 && random.one_in(noise) {
            change_nothing(&mut draft, random);
        }
    }
}

/// Adds lines that leave all balances as they are.
fn change_nothing(draft: &mut Draft, random: &mut Random) {
    let crew = draft.crew();
    let (first, second) = random.two_of(crew);
    let amount = random.within(1, 500);
    match random.below(3) {
        0 => {
            draft.payment(first, second, amount as u32);
            draft.payment(second, first, amount as u32);
        }
        1 => {
            draft.payment(first, second, amount as u32);
            draft.take_back_last();
        }
        _ => {
            // Everybody's share is exact, and everybody gives it back.
            draft.bill(first, (amount * crew) as u32, &vec![7; crew]);
            for person in (0..crew).filter(|&person| person != first) {
                draft.payment(person, first, amount as u32);
            }
        }
    }
}

#[cfg(test)]
mod tests {
    use super::*;
    use reference::balances::Balances;
    use reference::book::Book;

    #[test]
    fn a_book_leaves_the_balances_it_was_made_for() {
        for number in 0..300 {
            let random = &mut Random::of(5, number);
            let people = random.within(2, 16);
            let balances = by_groups(random, people);
            let draft = bring_about(&balances, random);
            let (book, answers) = Book::read(&draft.bytes()).expect("people are there");
            assert!(answers.iter().all(Result::is_ok));
            assert_eq!(Balances::of(&book), Balances::from_cents(&balances));
        }
    }
}
