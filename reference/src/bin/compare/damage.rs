//! Books with damage: fields at and beyond their limits, lines of wrong lengths, bytes changed, added and lost.

use crate::books;
use crate::crews;
use crate::draft::Draft;
use crate::random::Random;

/// A book with some damage, often more than once in the same line.
pub fn damaged(random: &mut Random) -> Vec<u8> {
    let mut draft = if random.one_in(4) {
        crews::draft(random)
    } else {
        books::whole_draft(random)
    };
    if !random.one_in(5) {
        for _ in 0..random.within(1, 8) {
            edit_line(&mut draft, random);
        }
    }
    if random.one_in(8) {
        draft.people = random.pick(&[0, 1, 15, 16, 17, 255, draft.people - 1, draft.people + 1]);
    }
    let mut bytes = draft.bytes();
    if random.one_in(3) {
        for _ in 0..random.within(1, 4) {
            edit_bytes(&mut bytes, random);
        }
    }
    bytes
}

/// Edits a line, in one to three places.
pub fn edit_line(draft: &mut Draft, random: &mut Random) {
    if draft.lines.is_empty() {
        return;
    }
    let place = random.below(draft.lines.len());
    for _ in 0..random.pick(&[1, 1, 2, 3]) {
        match random.below(8) {
            0 => edit_length(&mut draft.lines[place], random),
            1 => edit_first(&mut draft.lines[place], random),
            2 => {
                let other = random.below(draft.lines.len());
                draft.lines[place] = draft.lines[other].clone();
            }
            _ => edit_field(draft, place, random),
        }
    }
}

/// Makes a line a little shorter or longer, or empty.
fn edit_length(line: &mut Vec<u8>, random: &mut Random) {
    match random.below(4) {
        0 => line.clear(),
        1 if line.len() < 200 => line.extend(std::iter::repeat_n(0, random.within(1, 4))),
        2 => line.truncate(random.below(line.len() + 1)),
        _ => {
            line.pop();
        }
    }
}

/// Sets the kind.
fn edit_first(line: &mut [u8], random: &mut Random) {
    if let Some(kind) = line.first_mut() {
        *kind = random.pick(&[0, 1, 2, 3, 4, 255]);
    }
}

/// Sets a field of the line's kind to one of its limits.
fn edit_field(draft: &mut Draft, place: usize, random: &mut Random) {
    let people = draft.people;
    let number = line_number(draft.lines.len(), place, random);
    let line = &mut draft.lines[place];
    match line.first() {
        Some(1) if random.one_in(2) => edit_weights(line, random),
        Some(1) if random.one_in(2) => set(line, 2, &amount(random)),
        Some(1) => set(line, 1, &[person(people, random)]),
        Some(2) if random.one_in(3) => set(line, 3, &amount(random)),
        Some(2) if random.one_in(2) => pay_itself(line, people, random),
        Some(2) => set(line, random.within(1, 2), &[person(people, random)]),
        Some(3) => set(line, 1, &number.to_le_bytes()),
        _ => edit_first(line, random),
    }
}

/// An amount at its limits, in bytes.
fn amount(random: &mut Random) -> [u8; 4] {
    random
        .pick(&[
            0_u32,
            1,
            1_000_000_000,
            1_000_000_001,
            u32::MAX,
            256,
            1 << 31,
        ])
        .to_le_bytes()
}

/// The last person, or one that is not there.
fn person(people: u8, random: &mut Random) -> u8 {
    random.pick(&[
        people.saturating_sub(1),
        people,
        people.saturating_add(1),
        16,
        255,
    ])
}

/// A line's number near the limits: this line's own, the ones beside it, the last, and none.
fn line_number(lines: usize, place: usize, random: &mut Random) -> u16 {
    let any = random.below(lines);
    random.pick(&[
        place,
        place.saturating_sub(1),
        place + 1,
        any,
        any,
        lines,
        511,
        512,
        65_535,
        place + 256,
    ]) as u16
}

/// Sets weights to their limits: one or two of them, or all to 0.
fn edit_weights(line: &mut [u8], random: &mut Random) {
    let weights = line.len().saturating_sub(6) / 2;
    if random.one_in(4) {
        line.iter_mut().skip(6).for_each(|byte| *byte = 0);
    }
    if random.one_in(4) {
        return;
    }
    for _ in 0..random.within(1, 2) {
        let weight = random.pick(&[0_u16, 1000, 1001, 1001, 65_535, 1024]);
        set(line, 6 + 2 * random.below(weights), &weight.to_le_bytes());
    }
}

/// Makes the receiver the giver, who may be one that is not there.
fn pay_itself(line: &mut [u8], people: u8, random: &mut Random) {
    if random.one_in(4) {
        set(line, 1, &[person(people, random)]);
    }
    if let Some(&from) = line.get(1) {
        set(line, 2, &[from]);
    }
}

/// Writes bytes into a line, if it has that place.
fn set(line: &mut [u8], at: usize, bytes: &[u8]) {
    if let Some(field) = line.get_mut(at..at + bytes.len()) {
        field.copy_from_slice(bytes);
    }
}

/// Changes, adds or loses a byte anywhere, length bytes among them, so that all later lines may be read otherwise.
pub fn edit_bytes(bytes: &mut Vec<u8>, random: &mut Random) {
    if bytes.is_empty() {
        return;
    }
    // The first byte decides on the whole book, so it is mostly left alone.
    let first = usize::from(!random.one_in(10));
    let place = (first + random.below(bytes.len())).min(bytes.len() - 1);
    match random.below(5) {
        0 => bytes[place] ^= 1 << random.below(8),
        1 => bytes.insert(place, random.byte()),
        2 => {
            bytes.remove(place);
        }
        3 => bytes[place] = bytes[place].wrapping_add(random.pick(&[1, 255])),
        _ => move_length(bytes, random),
    }
}

/// Makes the length byte of some line one more or one less.
fn move_length(bytes: &mut [u8], random: &mut Random) {
    let mut places = Vec::new();
    let mut place = 1;
    while place < bytes.len() {
        places.push(place);
        place += 1 + usize::from(bytes[place]);
    }
    if !places.is_empty() {
        let place = random.pick(&places);
        bytes[place] = bytes[place].wrapping_add(random.pick(&[1, 255]));
    }
}
