//! The payments that settle balances, group by group.

use crate::balances::Balances;
use crate::groups::{groups, People};
use crate::{Cents, Person};

/// Money that one person should pay another.
#[derive(Clone, Copy, Debug, PartialEq, Eq)]
pub struct Payment {
    pub from: Person,
    pub to: Person,
    pub amount: Cents,
}

/// The payments of all groups in the order of the groups.
pub fn settle(balances: &Balances) -> Vec<Payment> {
    let mut left = balances.clone();
    let mut payments = Vec::new();
    for group in groups(balances) {
        while let Some(payment) = next_payment(&left, group) {
            left.pay(payment.from, payment.to, payment.amount);
            payments.push(payment);
        }
    }
    payments
}

/// The smallest who still owes pays the smallest who is still owed, if the group is not even yet.
fn next_payment(left: &Balances, group: People) -> Option<Payment> {
    let from = group.iter().find(|&person| left.get(person) < 0)?;
    let to = group.iter().find(|&person| left.get(person) > 0)?;
    let amount = left.get(to).min(-left.get(from));
    Some(Payment { from, to, amount })
}

#[cfg(test)]
mod tests {
    use super::*;

    /// The payments for balances, as from, to, amount.
    fn paid(cents: &[Cents]) -> Vec<(Person, Person, Cents)> {
        let payments = settle(&Balances::from_cents(cents));
        payments
            .iter()
            .map(|payment| (payment.from, payment.to, payment.amount))
            .collect()
    }

    #[test]
    fn worked_examples() {
        assert_eq!(
            paid(&[-5, -5, 10, -7, 3, 4]),
            [(0, 2, 5), (1, 2, 5), (3, 4, 3), (3, 5, 4)]
        );
        assert_eq!(paid(&[-8, 8, -6, 6]), [(0, 1, 8), (2, 3, 6)]);
        assert_eq!(paid(&[-3, -4, -5, 12]), [(0, 3, 3), (1, 3, 4), (2, 3, 5)]);
        assert_eq!(paid(&[0, 0]), []);
        assert_eq!(paid(&[-1, 1]), [(0, 1, 1)]);
    }

    #[test]
    fn a_pair_is_kept_apart() {
        let cents = [-30, -20, -10, 25, 25, 10];
        assert_eq!(groups(&Balances::from_cents(&cents)).len(), 2);
        let payments = paid(&cents);
        assert_eq!(payments.len(), 4);
        assert!(payments.contains(&(2, 5, 10)));
    }
}
