//! The allowed rank: the largest R whose Fibonacci number R + 3 is at most 2m.

/// The first 32 Fibonacci numbers, from 1, 1.
const FIBONACCI: [u32; 32] = [
    1, 1, 2, 3, 5, 8, 13, 21, 34, 55, 89, 144, 233, 377, 610, 987, 1_597, 2_584, 4_181, 6_765,
    10_946, 17_711, 28_657, 46_368, 75_025, 121_393, 196_418, 317_811, 514_229, 832_040, 1_346_269,
    2_178_309,
];

/// 0 with m = 0, where no rank fits.
pub fn allowed_rank(m: u32) -> u32 {
    // Place R + 2 of the table, counted from 0, holds number R + 3.
    let fits = |&rank: &u32| u64::from(FIBONACCI[rank as usize + 2]) <= 2 * u64::from(m);
    (0..30).rev().find(fits).unwrap_or(0)
}

#[cfg(test)]
mod tests {
    use super::*;

    #[test]
    fn adding_rule() {
        assert_eq!(FIBONACCI[..2], [1, 1]);
        for i in 2..32 {
            assert_eq!(FIBONACCI[i], FIBONACCI[i - 1] + FIBONACCI[i - 2]);
        }
    }

    #[test]
    fn printed_values() {
        for (m, rank) in [
            (0, 0),
            (1, 0),
            (2, 1),
            (3, 2),
            (4, 3),
            (10, 4),
            (1_000_000, 28),
        ] {
            assert_eq!(allowed_rank(m), rank, "m = {m}");
        }
    }
}
