//! Where an exact load lies between the thousandths around it.

use std::cmp::Ordering;

/// How often a load was met at a thousandth, and at each place between a lower and an upper one.
#[derive(Debug, Default, PartialEq, Eq)]
pub struct Loads {
    pub exact: u64,
    pub nearer_lower: u64,
    /// Half way, where one of the two is even.
    pub half_lower_even: u64,
    pub half_upper_even: u64,
    pub nearer_upper: u64,
}

impl Loads {
    pub fn note(&mut self, load: u64, hyperperiod: u64) {
        let (lower, above) = (1000 * load / hyperperiod, 1000 * load % hyperperiod);
        let count = match (2 * above).cmp(&hyperperiod) {
            _ if above == 0 => &mut self.exact,
            Ordering::Less => &mut self.nearer_lower,
            Ordering::Equal if lower % 2 == 0 => &mut self.half_lower_even,
            Ordering::Equal => &mut self.half_upper_even,
            Ordering::Greater => &mut self.nearer_upper,
        };
        *count += 1;
    }

    /// The place that was met least often.
    pub fn least(&self) -> u64 {
        let halves = self.half_lower_even.min(self.half_upper_even);
        halves.min(self.exact).min(self.nearer_lower).min(self.nearer_upper)
    }
}

#[cfg(test)]
mod tests {
    use super::*;

    /// 0 and 125; 333.3 and 0.499; 62.5 and 0.5; 187.5 and 999.5; 666.6 and 0.501; two of each place, but of
    /// the last one more, 1.9.
    #[test]
    fn each_load_has_its_place() {
        let mut loads = Loads::default();
        for (load, hyperperiod) in [(0, 7), (1, 8), (1, 3), (499, 1_000_000), (1, 16), (1, 2000), (3, 16)] {
            loads.note(load, hyperperiod);
        }
        for (load, hyperperiod) in [(1999, 2000), (2, 3), (501, 1_000_000), (19, 10_000)] {
            loads.note(load, hyperperiod);
        }
        let (exact, nearer_lower, half_lower_even, half_upper_even, nearer_upper) = (2, 2, 2, 2, 3);
        let expected = Loads { exact, nearer_lower, half_lower_even, half_upper_even, nearer_upper };
        assert_eq!((loads.least(), loads), (2, expected));
    }
}
