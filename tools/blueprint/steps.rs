//! The steps that make the search faster. Each can be left out, so that what it gains can be measured; none changes
//! the placement that is found.

/// Which steps are taken; each field names the step's letter.
#[derive(Clone, Copy, Default)]
pub struct Steps {
    /// C: the weights of the bound adapt to the region (`multipliers`).
    pub adaptive_weights: bool,
    /// E: a larger table of known sets, and an end to packings and to work at the root that take too long.
    pub limits: bool,
    /// A: the candidates of each processor are kept in the state.
    pub kept_candidates: bool,
    /// B: after a long refutation all minimal late sets are listed at once (`conflicts`).
    pub listed_at_once: bool,
    /// G: with a full list, which sets hold a listed conflict is kept in a table.
    pub covered_sets: bool,
    /// D: the network has its part in the bound with adaptive weights (`network`).
    pub network_bound: bool,
    /// F: what refutes a task on a processor refutes the tasks equal to it there.
    pub equal_tasks: bool,
}

impl Steps {
    /// The steps that the tool is compared with.
    pub const USUAL: &'static str = "CEABG";

    /// None if a letter is no step's.
    pub fn of(letters: &str) -> Option<Steps> {
        let mut steps = Steps::default();
        for letter in letters.chars() {
            *steps.named(letter)? = true;
        }
        Some(steps)
    }

    fn named(&mut self, letter: char) -> Option<&mut bool> {
        match letter {
            'A' => Some(&mut self.kept_candidates),
            'B' => Some(&mut self.listed_at_once),
            'C' => Some(&mut self.adaptive_weights),
            'D' => Some(&mut self.network_bound),
            'E' => Some(&mut self.limits),
            'F' => Some(&mut self.equal_tasks),
            'G' => Some(&mut self.covered_sets),
            _ => None,
        }
    }

    /// The index of a set in the table of known sets has so many bits.
    pub fn known_bits(self) -> u32 {
        if self.limits { 16 } else { 13 }
    }

    /// A packing may go on for so many calls; what it has not looked at then counts in full.
    pub fn packing_calls(self) -> u64 {
        if self.limits { 4_000 } else { u64::MAX }
    }

    /// What one search for weights at the root may cost, beside as much as the decision has cost so far.
    pub fn root_work(self) -> u64 {
        if self.limits { 300_000 } else { 1 << 60 }
    }
}
