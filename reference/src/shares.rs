//! How a bill is shared out by weights.

/// What falls to each person: everybody up to a person together bear their part of the amount, rounded down.
pub fn shares(amount: u32, weights: &[u16]) -> Vec<u32> {
    let all: u64 = weights.iter().map(|&weight| u64::from(weight)).sum();
    let mut weight_so_far = 0;
    let mut borne = 0;
    let mut shares = Vec::with_capacity(weights.len());
    for &weight in weights {
        weight_so_far += u64::from(weight);
        let together = u64::from(amount) * weight_so_far / all;
        shares.push((together - borne) as u32);
        borne = together;
    }
    shares
}

#[cfg(test)]
mod tests {
    use super::*;

    #[test]
    fn worked_examples() {
        assert_eq!(shares(100, &[1, 1, 1]), [33, 33, 34]);
        assert_eq!(shares(100, &[2, 0, 1]), [66, 0, 34]);
        assert_eq!(shares(1, &[1, 1]), [0, 1]);
        assert_eq!(shares(1_000_000_000, &[1000; 16]), [62_500_000; 16]);
    }
}
