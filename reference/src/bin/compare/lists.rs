//! Lists of payments for the auditor, good ones and others.

use reference::audit::{self, list_bytes, payment_bytes, MOST_PAYMENTS};
use reference::balances::Balances;
use reference::book::Book;
use reference::frames::push_frame;
use reference::settlement::{settle, Payment};
use reference::Cents;

use crate::damage::edit_bytes;
use crate::random::Random;

/// The highest amount that is judged, as payments hold it.
const MOST_MOVED: Cents = audit::MOST_MOVED as Cents;

/// A book for which a list is made: its people and its best payments.
pub struct Case {
    people: usize,
    best: Vec<Payment>,
}

impl Case {
    /// The case of a book; one that is refused has two people for whom nothing is to be paid.
    pub fn of(book: &[u8]) -> Case {
        match Book::read(book) {
            Ok((book, _)) => Case {
                people: book.people(),
                best: settle(&Balances::of(&book)),
            },
            Err(_) => Case {
                people: 2,
                best: Vec::new(),
            },
        }
    }

    /// The place of any of the best payments, if there are any.
    fn any(&self, random: &mut Random) -> Option<usize> {
        (!self.best.is_empty()).then(|| random.below(self.best.len()))
    }
}

/// The best payments, in order or not.
pub fn best(random: &mut Random, case: &Case) -> Vec<u8> {
    let mut list = case.best.clone();
    if random.one_in(2) {
        random.shuffle(&mut list);
    }
    list_bytes(&list)
}

/// One payment made in two parts.
pub fn split(random: &mut Random, case: &Case) -> Vec<u8> {
    let mut list = case.best.clone();
    if let Some(place) = case.any(random) {
        split_at(&mut list, place, random);
    }
    list_bytes(&list)
}

/// Parts a payment in two, if it has more than a cent.
fn split_at(list: &mut Vec<Payment>, place: usize, random: &mut Random) {
    let amount = list[place].amount;
    if amount > 1 {
        let part = random.within(1, amount as usize - 1) as Cents;
        list[place].amount = part;
        list.push(Payment {
            amount: amount - part,
            ..list[place]
        });
    }
}

/// The best payments with money that goes round and comes back, or with a payment by way of somebody else.
pub fn roundabout(random: &mut Random, case: &Case) -> Vec<u8> {
    let mut list = case.best.clone();
    match case.any(random) {
        Some(place) if case.people > 2 && random.one_in(2) => {
            detour(&mut list, place, case.people, random)
        }
        _ if case.people > 1 => round(&mut list, case.people, random),
        _ => {}
    }
    list_bytes(&list)
}

/// Sends a payment through a third person.
fn detour(list: &mut Vec<Payment>, place: usize, people: usize, random: &mut Random) {
    let Payment { from, to, amount } = list[place];
    let others: Vec<usize> = (0..people)
        .filter(|&person| person != from && person != to)
        .collect();
    let by = random.pick(&others);
    list[place].to = by;
    list.push(Payment {
        from: by,
        to,
        amount,
    });
}

/// Adds payments from one person to another and back, or round three.
fn round(list: &mut Vec<Payment>, people: usize, random: &mut Random) {
    let (first, second) = random.two_of(people);
    let amount = random.pick(&[1, 100, MOST_MOVED - 1, MOST_MOVED]);
    list.push(Payment {
        from: first,
        to: second,
        amount,
    });
    match (0..people).find(|&person| person != first && person != second) {
        Some(third) if random.one_in(2) => {
            list.push(Payment {
                from: second,
                to: third,
                amount,
            });
            list.push(Payment {
                from: third,
                to: first,
                amount,
            });
        }
        _ => list.push(Payment {
            from: second,
            to: first,
            amount,
        }),
    }
}

/// As few payments as the best, some of which carry another one's money too.
pub fn carried(random: &mut Random, case: &Case) -> Vec<u8> {
    let mut list = case.best.clone();
    for _ in 0..random.within(1, 3) {
        carry(&mut list, random);
    }
    list_bytes(&list)
}

/// Lets the giver of a payment pass on what another one pays to the same person.
fn carry(list: &mut [Payment], random: &mut Random) {
    let same = |first: usize, second: usize| {
        first != second
            && list[first].to == list[second].to
            && list[first].from != list[second].from
    };
    let count = list.len();
    let couples: Vec<(usize, usize)> = (0..count * count)
        .map(|i| (i / count, i % count))
        .filter(|&(first, second)| same(first, second))
        .collect();
    if !couples.is_empty() {
        let (first, second) = random.pick(&couples);
        list[second].amount += list[first].amount;
        list[first].to = list[second].from;
    }
}

/// The best payments without one of them.
pub fn dropped(random: &mut Random, case: &Case) -> Vec<u8> {
    let mut list = case.best.clone();
    if let Some(place) = case.any(random) {
        list.remove(place);
    }
    list_bytes(&list)
}

/// The best payments with an amount changed by a cent, with a receiver changed, or with one turned round.
pub fn changed(random: &mut Random, case: &Case) -> Vec<u8> {
    let mut list = case.best.clone();
    if let Some(place) = case.any(random) {
        let payment = &mut list[place];
        match random.below(4) {
            0 => payment.amount += 1,
            1 => payment.amount -= 1,
            2 => payment.to = random.below(case.people),
            _ => std::mem::swap(&mut payment.from, &mut payment.to),
        }
    }
    list_bytes(&list)
}

/// No payment at all.
pub fn none(_: &mut Random, _: &Case) -> Vec<u8> {
    Vec::new()
}

/// As many payments as can be judged, one less or one more, which settle the book if it has three people or more.
pub fn full(random: &mut Random, case: &Case) -> Vec<u8> {
    let count = random.pick(&[
        MOST_PAYMENTS - 1,
        MOST_PAYMENTS,
        MOST_PAYMENTS + 1,
        MOST_PAYMENTS + 1,
        MOST_PAYMENTS + 70,
    ]);
    let mut list = case.best.clone();
    while list.len() < count && case.people > 1 {
        if random.one_in(3) {
            round(&mut list, case.people, random);
        } else {
            let place = random.below(list.len());
            match list.get(place) {
                Some(payment) if payment.amount > 1 => split_at(&mut list, place, random),
                _ => round(&mut list, case.people, random),
            }
        }
    }
    shorten(&mut list, count);
    if random.one_in(2) {
        random.shuffle(&mut list);
    }
    list_bytes(&list)
}

/// Brings a list that is a little too long back to its length by payments that can be made together.
fn shorten(list: &mut Vec<Payment>, count: usize) {
    while list.len() > count {
        let Some(last) = list.pop() else { return };
        let alike = |payment: &&mut Payment| {
            (payment.from, payment.to) == (last.from, last.to)
                && payment.amount + last.amount <= MOST_MOVED
        };
        match list.iter_mut().find(alike) {
            Some(payment) => payment.amount += last.amount,
            None => return list.truncate(count),
        }
    }
}

/// A list with payments that can not be taken.
pub fn damaged(random: &mut Random, case: &Case) -> Vec<u8> {
    let mut pieces: Vec<Vec<u8>> = case.best.iter().map(payment_bytes).collect();
    for _ in 0..random.within(1, 2) {
        let place = random.below(pieces.len() + 1);
        let piece = bad_piece(random, case.people);
        pieces.insert(place, piece);
    }
    let mut bytes = Vec::new();
    for piece in &pieces {
        push_frame(&mut bytes, piece);
    }
    bytes
}

/// A payment at or beyond a limit.
fn bad_piece(random: &mut Random, people: usize) -> Vec<u8> {
    let (from, to) = random.two_of(people.max(2));
    let mut payment = Payment {
        from,
        to,
        amount: random.within(1, 1000) as Cents,
    };
    match random.below(6) {
        0 => payment.from = random.pick(&[people, people + 1, 255]),
        1 => payment.to = random.pick(&[people, people + 1, 255]),
        2 => payment.to = payment.from,
        3 | 4 => {
            payment.amount = random.pick(&[
                0,
                0,
                MOST_MOVED,
                MOST_MOVED,
                MOST_MOVED + 1,
                MOST_MOVED + 1,
                -1,
                1 << 56,
            ])
        }
        _ => {}
    }
    let mut bytes = payment_bytes(&payment);
    if random.one_in(4) {
        bytes.resize(random.pick(&[0, 1, 9, 11, 20]), 0);
    }
    bytes
}

/// The best payments with the end cut off, or with a last one that announces more than there is.
pub fn cut(random: &mut Random, case: &Case) -> Vec<u8> {
    let mut bytes = list_bytes(&case.best);
    match random.below(4) {
        0 => bytes.extend([10].iter().chain(&[0; 10]).take(random.within(1, 11))),
        1 if bytes.len() >= 11 => {
            let last = bytes.len() - 11;
            bytes[last] = random.pick(&[11, 12, 255]);
        }
        2 => bytes.truncate(bytes.len().saturating_sub(random.within(1, 12))),
        _ => bytes.truncate(random.below(bytes.len() + 1)),
    }
    bytes
}

/// Bytes of any kind, or the best payments with some bytes changed.
pub fn garbage(random: &mut Random, case: &Case) -> Vec<u8> {
    let mut bytes = list_bytes(&case.best);
    if random.one_in(3) {
        bytes = (0..random.within(1, 100)).map(|_| random.byte()).collect();
    }
    for _ in 0..random.within(1, 3) {
        edit_bytes(&mut bytes, random);
    }
    bytes
}
