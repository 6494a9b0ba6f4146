//! Books as pursers write them: whole, long, cut, empty, or no book at all.

use crate::crews;
use crate::damage;
use crate::draft::Draft;
use crate::random::Random;

/// A book of which every line is taken.
pub fn whole(random: &mut Random) -> Vec<u8> {
    whole_draft(random).bytes()
}

/// A whole book before it is put into bytes.
pub fn whole_draft(random: &mut Random) -> Draft {
    let people = random.within(1, 16);
    let lines = match random.below(8) {
        0 => random.within(0, 3),
        1 => random.within(60, 400),
        _ => random.within(3, 60),
    };
    let mut draft = Draft::new(people);
    add_lines(&mut draft, random, lines);
    draft
}

/// A book for more lines than it can take, some with the odd bad line or with a cut at the end.
pub fn long(random: &mut Random) -> Vec<u8> {
    let mut draft = Draft::new(random.within(2, 16));
    let lines = if random.one_in(4) {
        random.within(510, 514)
    } else {
        random.within(505, 560)
    };
    add_lines(&mut draft, random, lines);
    for _ in 0..random.pick(&[0, 0, 1, 3, 20]) {
        damage::edit_line(&mut draft, random);
    }
    let mut bytes = draft.bytes();
    if random.one_in(4) {
        bytes.truncate(bytes.len() - random.below(20));
    }
    bytes
}

/// The first bytes of a book, or a book whose last line announces more than there is.
pub fn cut(random: &mut Random) -> Vec<u8> {
    let draft = if random.one_in(3) {
        crews::draft(random)
    } else {
        whole_draft(random)
    };
    let mut bytes = draft.bytes();
    match random.below(3) {
        0 => announce_more(&mut bytes, &draft, random),
        1 => bytes.truncate(bytes.len().saturating_sub(random.within(1, 40))),
        _ => bytes.truncate(random.below(bytes.len() + 1)),
    }
    bytes
}

/// Raises the length byte of the last line, all bytes of which are there.
fn announce_more(bytes: &mut [u8], draft: &Draft, random: &mut Random) {
    if let Some(last) = draft.lines.last() {
        let place = bytes.len() - last.len() - 1;
        let most = usize::from(u8::MAX) - last.len();
        bytes[place] += random.pick(&[1, 1, 2, 10, most]) as u8;
    }
}

/// Bytes of any kind, mostly after a number of people that can be.
pub fn garbage(random: &mut Random) -> Vec<u8> {
    let low = random.one_in(2);
    let length = random.within(1, 600);
    let usual = [0, 1, 2, 3, 3, 7, 7, 8, 10, 12, 38];
    let mut bytes: Vec<u8> = (0..length)
        .map(|_| {
            if low {
                random.pick(&usual)
            } else {
                random.byte()
            }
        })
        .collect();
    if !random.one_in(4) {
        bytes[0] = random.within(1, 16) as u8;
    }
    bytes
}

/// No byte at all, or a number of people without lines.
pub fn empty(random: &mut Random) -> Vec<u8> {
    if random.one_in(2) {
        Vec::new()
    } else {
        vec![random.within(0, 18) as u8]
    }
}

/// Adds bills, payments and takings back.
fn add_lines(draft: &mut Draft, random: &mut Random, count: usize) {
    let takings_back = random.pick(&[0, 5, 15, 40]);
    while draft.lines.len() < count {
        let choice = random.below(100);
        if choice < takings_back && !draft.lines.is_empty() {
            let before = draft.lines.len();
            draft.take_back_any(random);
            if draft.lines.len() > before {
                continue;
            }
        }
        if choice < 75 || draft.crew() < 2 {
            add_bill(draft, random);
        } else {
            let (from, to) = random.two_of(draft.crew());
            let amount = amount(random);
            draft.payment(from, to, amount);
        }
    }
}

/// Adds a bill that anybody paid for anybody.
fn add_bill(draft: &mut Draft, random: &mut Random) {
    let payer = random.below(draft.crew());
    let highest = random.pick(&[0, 1, 1, 2, 5, 100, 1000]);
    let mut weights: Vec<u16> = (0..draft.crew())
        .map(|_| {
            if highest == 0 {
                1
            } else {
                random.within(0, highest) as u16
            }
        })
        .collect();
    if weights.iter().all(|&weight| weight == 0) {
        let bearer = random.below(draft.crew());
        weights[bearer] = random.within(1, 1000) as u16;
    }
    let amount = amount(random);
    draft.bill(payer, amount, &weights);
}

/// An amount as it is usual, or now and then a very small or high one.
fn amount(random: &mut Random) -> u32 {
    let amount = match random.below(12) {
        0 => random.within(1, 9),
        1 => random.pick(&[1, 999_999_999, 1_000_000_000]),
        2 => random.within(1, 1_000_000_000),
        3 | 4 => 100 * random.within(1, 300),
        _ => random.within(50, 50_000),
    };
    amount as u32
}
