//! The program in plain Rust, by the same algorithm and with no proof: what the benchmark measures purser against.
//! It reads a book from a file or from standard input and prints the report.
use std::fmt::{self, Display, Write as _};
use std::io::{self, Read, Write as _};

const MAX_PEOPLE: usize = 16;
const ROOM: usize = 512;
const MAX_AMOUNT: u32 = 1_000_000_000;
const MAX_WEIGHT: u16 = 1_000;

#[derive(Clone, Copy)]
enum Line {
    Bill { payer: u8, amount: u32 },
    Payment { from: u8, to: u8, amount: u32 },
    TakeBack { number: u16 },
}

#[derive(Clone, Copy)]
struct Entry {
    line: Line,
    weights: [u16; MAX_PEOPLE],
}

/// Why a line is turned away: the rule's number, and the place.
struct Refusal {
    number: u8,
    place: usize,
}

impl Display for Refusal {
    fn fmt(&self, f: &mut fmt::Formatter) -> fmt::Result {
        write!(f, "refused {} at {}", self.number, self.place)
    }
}

fn refuse<T>(number: u8, place: usize) -> Result<T, Refusal> {
    Err(Refusal { number, place })
}

struct Book {
    people: u8,
    entries: Vec<Entry>,
    stands: Vec<bool>,
}

impl Book {
    fn new(people: u8) -> Result<Book, Refusal> {
        if people == 0 || people as usize > MAX_PEOPLE {
            return refuse(1, 0);
        }
        Ok(Book {
            people,
            entries: Vec::with_capacity(ROOM),
            stands: Vec::with_capacity(ROOM),
        })
    }

    fn add(&mut self, bytes: &[u8], whole: bool) -> Result<usize, Refusal> {
        let number = self.entries.len();
        if number >= ROOM {
            return refuse(11, 0);
        }
        let entry = decode(self.people, bytes, whole)?;
        if let Line::TakeBack { number } = entry.line {
            if !self.returnable(number as usize) {
                return refuse(9, 1);
            }
            self.stands[number as usize] = false;
        }
        self.entries.push(entry);
        self.stands.push(true);
        Ok(number)
    }

    fn returnable(&self, number: usize) -> bool {
        match self.entries.get(number) {
            Some(entry) => !matches!(entry.line, Line::TakeBack { .. }) && self.stands[number],
            None => false,
        }
    }
}

fn u16_at(bytes: &[u8], at: usize) -> u16 {
    u16::from_le_bytes([bytes[at], bytes[at + 1]])
}

fn u32_at(bytes: &[u8], at: usize) -> u32 {
    u32::from_le_bytes([bytes[at], bytes[at + 1], bytes[at + 2], bytes[at + 3]])
}

fn decode(people: u8, bytes: &[u8], whole: bool) -> Result<Entry, Refusal> {
    let length = match bytes.first() {
        Some(1) => 6 + 2 * people as usize,
        Some(2) => 7,
        Some(3) => 3,
        _ => return refuse(2, 0),
    };
    if !whole || bytes.len() != length {
        return refuse(3, bytes.len());
    }
    match bytes[0] {
        1 => bill(people, bytes),
        2 => payment(people, bytes),
        _ => Ok(Entry {
            line: Line::TakeBack {
                number: u16_at(bytes, 1),
            },
            weights: [0; MAX_PEOPLE],
        }),
    }
}

fn person(people: u8, bytes: &[u8], at: usize) -> Result<u8, Refusal> {
    if bytes[at] < people {
        Ok(bytes[at])
    } else {
        refuse(4, at)
    }
}

fn amount(bytes: &[u8], at: usize) -> Result<u32, Refusal> {
    match u32_at(bytes, at) {
        amount @ 1..=MAX_AMOUNT => Ok(amount),
        _ => refuse(5, at),
    }
}

fn bill(people: u8, bytes: &[u8]) -> Result<Entry, Refusal> {
    let payer = person(people, bytes, 1)?;
    let amount = amount(bytes, 2)?;
    let mut weights = [0; MAX_PEOPLE];
    for i in 0..people as usize {
        let at = 6 + 2 * i;
        weights[i] = u16_at(bytes, at);
        if weights[i] > MAX_WEIGHT {
            return refuse(6, at);
        }
    }
    if weights.iter().all(|weight| *weight == 0) {
        return refuse(7, 6);
    }
    Ok(Entry {
        line: Line::Bill { payer, amount },
        weights,
    })
}

fn payment(people: u8, bytes: &[u8]) -> Result<Entry, Refusal> {
    let from = person(people, bytes, 1)?;
    let to = person(people, bytes, 2)?;
    let amount = amount(bytes, 3)?;
    if from == to {
        return refuse(8, 2);
    }
    Ok(Entry {
        line: Line::Payment { from, to, amount },
        weights: [0; MAX_PEOPLE],
    })
}

fn shares_of(amount: u32, weights: &[u16; MAX_PEOPLE]) -> [u32; MAX_PEOPLE] {
    let all: u32 = weights.iter().map(|weight| u32::from(*weight)).sum();
    let mut shares = [0; MAX_PEOPLE];
    let (mut part, mut before) = (0, 0);
    for (share, weight) in shares.iter_mut().zip(weights) {
        part += u32::from(*weight);
        let up_to = (u64::from(amount) * u64::from(part) / u64::from(all)) as u32;
        *share = up_to - before;
        before = up_to;
    }
    shares
}

fn balances_of(book: &Book) -> Vec<i64> {
    let mut cents = [0; MAX_PEOPLE];
    for (entry, _) in book.entries.iter().zip(&book.stands).filter(|(_, stands)| **stands) {
        match entry.line {
            Line::Bill { payer, amount } => {
                cents[payer as usize] += i64::from(amount);
                for (cents, share) in cents.iter_mut().zip(shares_of(amount, &entry.weights)) {
                    *cents -= i64::from(share);
                }
            }
            Line::Payment { from, to, amount } => {
                cents[from as usize] += i64::from(amount);
                cents[to as usize] -= i64::from(amount);
            }
            Line::TakeBack { .. } => {}
        }
    }
    cents[..book.people as usize].to_vec()
}

/// The people of a set, the smallest first.
fn people_of(mut set: u32) -> impl Iterator<Item = u32> {
    std::iter::from_fn(move || {
        if set == 0 {
            return None;
        }
        let person = set.trailing_zeros();
        set &= set - 1;
        Some(person)
    })
}

/// The balances of the people of a set together, worked out from nothing.
fn sum_of(balances: &[i64], set: u32) -> i64 {
    people_of(set).map(|person| balances[person as usize]).sum()
}

/// The greatest number of groups inside a set, from those of the sets before it.
fn count_of(balances: &[i64], sum: i64, counts: &[u8], set: u32) -> u8 {
    if set == 0 {
        return 0;
    }
    let rest = counts[(set & (set - 1)) as usize];
    if balances[set.trailing_zeros() as usize] == 0 {
        rest
    } else if sum == 0 {
        rest + 1
    } else {
        people_of(set).map(|person| counts[(set - (1 << person)) as usize]).max().unwrap_or(0)
    }
}

struct Tables {
    sums: Vec<i64>,
    counts: Vec<u8>,
}

fn fill(balances: &[i64]) -> Tables {
    let sets = 1 << balances.len();
    let mut sums = vec![0; sets];
    let mut counts = vec![0; sets];
    for set in 0..sets as u32 {
        let sum = sum_of(balances, set);
        sums[set as usize] = sum;
        counts[set as usize] = count_of(balances, sum, &counts, set);
    }
    Tables { sums, counts }
}

/// The least set of the smallest person left with which the greatest number of groups is reached.
fn choose(tables: &Tables, left: u32) -> u32 {
    let others = left & (left - 1);
    let mut rest = others;
    loop {
        let part = left - rest;
        if tables.sums[part as usize] == 0 && tables.counts[rest as usize] + 1 == tables.counts[left as usize] {
            return part;
        }
        if rest == 0 {
            unreachable!("all who are left come out even together");
        }
        rest = (rest - 1) & others;
    }
}

fn groups_of(balances: &[i64]) -> Vec<u32> {
    let tables = fill(balances);
    let mut left = 0;
    for (person, cents) in balances.iter().enumerate() {
        if *cents != 0 {
            left |= 1 << person;
        }
    }
    let mut groups = Vec::with_capacity(balances.len());
    while left != 0 {
        let group = choose(&tables, left);
        groups.push(group);
        left -= group;
    }
    groups
}

struct Payment {
    from: usize,
    to: usize,
    amount: u64,
}

fn pay_set(balances: &[i64], set: u32, payments: &mut Vec<Payment>) {
    let mut left = balances.to_vec();
    loop {
        let Some(from) = people_of(set).map(|i| i as usize).find(|i| left[*i] < 0) else {
            return;
        };
        let Some(to) = people_of(set).map(|i| i as usize).find(|i| left[*i] > 0) else {
            return;
        };
        let amount = left[to].min(-left[from]);
        left[from] += amount;
        left[to] -= amount;
        payments.push(Payment {
            from,
            to,
            amount: amount as u64,
        });
    }
}

fn read_lines(book: &mut Book, mut rest: &[u8], text: &mut String) -> fmt::Result {
    while let Some((length, left)) = rest.split_first() {
        let length = *length as usize;
        let there = length.min(left.len());
        match book.add(&left[..there], there == length) {
            Ok(number) => writeln!(text, "line {number}")?,
            Err(refusal) => writeln!(text, "line {refusal}")?,
        }
        rest = &left[there..];
    }
    Ok(())
}

fn report(input: &[u8]) -> Result<String, fmt::Error> {
    let mut text = String::new();
    let (people, lines) = input.split_first().unwrap_or((&0, input));
    let mut book = match Book::new(*people) {
        Ok(book) => book,
        Err(refusal) => {
            writeln!(text, "{refusal}")?;
            return Ok(text);
        }
    };
    read_lines(&mut book, lines, &mut text)?;
    let balances = balances_of(&book);
    for (person, cents) in balances.iter().enumerate() {
        match cents.signum() {
            -1 => writeln!(text, "{person} owes {}", cents.unsigned_abs())?,
            1 => writeln!(text, "{person} is owed {cents}")?,
            _ => {}
        }
    }
    let mut payments = Vec::with_capacity(MAX_PEOPLE);
    for set in groups_of(&balances) {
        pay_set(&balances, set, &mut payments);
    }
    for Payment { from, to, amount } in payments {
        writeln!(text, "{from} pays {to} {amount}")?;
    }
    Ok(text)
}

fn main() -> io::Result<()> {
    let mut input = Vec::new();
    match std::env::args().nth(1) {
        Some(name) => input = std::fs::read(name)?,
        None => drop(io::stdin().read_to_end(&mut input)?),
    }
    let text = report(&input).map_err(io::Error::other)?;
    io::stdout().write_all(text.as_bytes())
}
