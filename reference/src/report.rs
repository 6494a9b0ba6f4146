//! The text that is printed of a book.

use std::fmt::Write;

use crate::balances::Balances;
use crate::book::{Answer, Book};
use crate::settlement::settle;

/// Answers, balances and payments, or the one line for a book that can not be opened.
pub fn report(input: &[u8]) -> String {
    match Book::read(input) {
        Ok((book, answers)) => text(&Balances::of(&book), &answers),
        Err(refusal) => format!("{refusal}\n"),
    }
}

/// Puts the three parts of a report together.
fn text(balances: &Balances, answers: &[Answer]) -> String {
    let mut text = String::new();
    // Writing to a string can not fail.
    let _ = write_report(&mut text, balances, answers);
    text
}

/// Writes a line for each answer, open person and payment.
fn write_report(out: &mut String, balances: &Balances, answers: &[Answer]) -> std::fmt::Result {
    for answer in answers {
        match answer {
            Ok(number) => writeln!(out, "line {number}")?,
            Err(refusal) => writeln!(out, "line {refusal}")?,
        }
    }
    for (person, balance) in balances.open() {
        let word = if balance < 0 { "owes" } else { "is owed" };
        writeln!(out, "{person} {word} {}", balance.abs())?;
    }
    for payment in settle(balances) {
        writeln!(
            out,
            "{} pays {} {}",
            payment.from, payment.to, payment.amount
        )?;
    }
    Ok(())
}

#[cfg(test)]
mod tests {
    use super::*;

    #[test]
    fn a_cab_for_three() {
        let bill = [12, 1, 0, 100, 0, 0, 0, 1, 0, 1, 0, 1, 0];
        let payment = [7, 2, 1, 0, 10, 0, 0, 0];
        let input = [&[3][..], &bill, &payment].concat();
        let expected =
            "line 0\nline 1\n0 is owed 57\n1 owes 23\n2 owes 34\n1 pays 0 23\n2 pays 0 34\n";
        assert_eq!(report(&input), expected);
    }

    #[test]
    fn refusals_are_printed() {
        assert_eq!(report(&[]), "refused 1 at 0\n");
        assert_eq!(
            report(&[3, 0, 2, 1, 0]),
            "line refused 2 at 0\nline refused 3 at 2\n"
        );
    }
}
