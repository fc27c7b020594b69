//! Loads as the program prints them: to the nearest thousandth of H, by request 2026-02.

/// The whole number of thousandths of H that is nearest to the load; of two that are equally near, the even
/// one. H is at least 1. How far a load is from k thousandths is |1000 × load − k × H|, in thousandths of a
/// tick.
pub fn nearest_thousandth(load: u64, hyperperiod: u64) -> u64 {
    let load = 1000 * u128::from(load);
    let distance = |thousandths: u128| load.abs_diff(thousandths * u128::from(hyperperiod));
    // From 0 on each number is nearer than the one before it, up to the nearest, and after it none is. As H
    // is at least 1, it is at most 1000 × load.
    let (mut first, mut last) = (0, load);
    while first < last {
        let middle = (first + last) / 2;
        match distance(middle + 1) < distance(middle) {
            true => first = middle + 1,
            false => last = middle,
        }
    }
    let is_tie = distance(first + 1) == distance(first);
    (if is_tie && first % 2 == 1 { first + 1 } else { first }) as u64
}

#[cfg(test)]
mod tests {
    use super::*;
    use crate::model::{LARGEST_HYPERPERIOD, MOST_TASKS};
    use crate::random::Random;

    fn rounds(cases: &[(u64, u64, u64)]) {
        for &(load, hyperperiod, thousandths) in cases {
            assert_eq!(nearest_thousandth(load, hyperperiod), thousandths, "{load} of {hyperperiod}");
        }
    }

    #[test]
    fn cases_of_the_request() {
        rounds(&[
            (1, 16, 62),        // 1000 / 16 = 62.5: half way between 62 and 63.
            (3, 16, 188),       // 3000 / 16 = 187.5: half way between 187 and 188.
            (1, 2000, 0),       // 0.5: half way between 0 and 1.
            (3, 2000, 2),       // 1.5: half way between 1 and 2.
            (1999, 2000, 1000), // 999.5: half way between 999 and 1000.
        ]);
    }

    /// A thousandth of a million is 1,000 ticks, half of one 500.
    #[test]
    fn one_tick_beside_a_half() {
        rounds(&[
            (499, 1_000_000, 0),        // 0.499
            (500, 1_000_000, 0),        // 0.5
            (501, 1_000_000, 1),        // 0.501
            (1_499, 1_000_000, 1),      // 1.499
            (1_500, 1_000_000, 2),      // 1.5
            (1_501, 1_000_000, 2),      // 1.501
            (62_499, 1_000_000, 62),    // 62.499
            (62_500, 1_000_000, 62),    // 62.5
            (62_501, 1_000_000, 63),    // 62.501
            (187_499, 1_000_000, 187),  // 187.499
            (187_500, 1_000_000, 188),  // 187.5
            (999_499, 1_000_000, 999),  // 999.499
            (999_500, 1_000_000, 1000), // 999.5
            (999_501, 1_000_000, 1000), // 999.501
        ]);
    }

    /// Of 999,000,000 a thousandth is 999,000 ticks and half of one 499,500; of 1,000,000,000, which is the
    /// limit, 1,000,000 and 500,000. Of 999,999,999 a thousandth is 999,999.999 ticks and half of one
    /// 499,999.9995: no load is half way.
    #[test]
    fn long_hyperperiods() {
        rounds(&[
            (499_499, 999_000_000, 0),
            (499_500, 999_000_000, 0),
            (499_501, 999_000_000, 1),
            (1_498_499, 999_000_000, 1), // 999,000 + 499,500 = 1,498,500
            (1_498_500, 999_000_000, 2),
            (1_498_501, 999_000_000, 2),
            (500_000, 1_000_000_000, 0),
            (500_001, 1_000_000_000, 1),
            (1_499_999, 1_000_000_000, 1),
            (1_500_000, 1_000_000_000, 2),
            (2_500_000, 1_000_000_000, 2),
            (2_500_001, 1_000_000_000, 3),
            (499_999, 999_999_999, 0),
            (500_000, 999_999_999, 1),
            (1_499_999, 999_999_999, 1), // 999,999.999 + 499,999.9995 = 1,499,999.9985
            (1_500_000, 999_999_999, 2),
        ]);
    }

    /// The greatest load is that of 24 tasks that each take every tick.
    #[test]
    fn nothing_all_and_more() {
        for hyperperiod in [1, 2, 3, 16, 2000, 999_999_999, LARGEST_HYPERPERIOD] {
            rounds(&[(0, hyperperiod, 0), (hyperperiod, hyperperiod, 1000)]);
            rounds(&[(24 * hyperperiod, hyperperiod, 24_000)]);
        }
        rounds(&[
            (1, 1, 1000),
            (24_000_000_000, 1, 24_000_000_000_000),
            (17, 16, 1062),     // 1000 + 62.5
            (19, 16, 1188),     // 1000 + 187.5
            (2001, 2000, 1000), // 1000.5
            (2003, 2000, 1002), // 1001.5
            (4, 3, 1333),       // 1333.33..
            (5, 3, 1667),       // 1666.66..
        ]);
    }

    /// The load is at most half a thousandth below or above the result, and exactly half of one only if that
    /// is even; and the numbers beside the result are no nearer, so that none further away is.
    fn is_nearest(load: u64, hyperperiod: u64, result: u64) -> bool {
        let [load, hyperperiod, result] = [load, hyperperiod, result].map(i128::from);
        let (low, twice, high) =
            ((2 * result - 1) * hyperperiod, 2000 * load, (2 * result + 1) * hyperperiod);
        let is_half = [low, high].contains(&twice);
        let distance = |thousandths: i128| (1000 * load - thousandths * hyperperiod).abs();
        (low..=high).contains(&twice)
            && (!is_half || result % 2 == 0)
            && [result - 1, result + 1].iter().all(|&other| distance(other) >= distance(result))
    }

    /// Any loads, and those around a half: (2 × k + 1) × H / 2000, rounded down, and the ticks beside it.
    #[test]
    fn random_loads() {
        let mut random = Random::new(50);
        let mut halves = 0;
        for _ in 0..100_000 {
            let (step, longest) =
                (random.pick(&[1, 16, 2_000]), random.pick(&[2_000, 1_000_000, 1_000_000_000]));
            let hyperperiod = u64::from(step * random.within(1, longest / step));
            let any = random.below(MOST_TASKS * hyperperiod as usize + 1) as u64;
            let half = (2 * random.below(1_000) as u64 + 1) * hyperperiod / 2000;
            for load in [any, half, half + 1, half.saturating_sub(1)] {
                let result = nearest_thousandth(load, hyperperiod);
                assert!(is_nearest(load, hyperperiod, result), "{load} of {hyperperiod}: {result}");
                assert!(!is_nearest(load, hyperperiod, result + 1), "{load} of {hyperperiod}: {result}");
                halves += u64::from(2000 * load % (2 * hyperperiod) == hyperperiod);
            }
        }
        assert!(halves >= 30_000, "{halves}");
    }
}
