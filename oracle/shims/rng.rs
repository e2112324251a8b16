//! Stands in for the random generator and the clock: orders, draws, the start and the
//! budgets are lent, and turns and passes are counted.

#[derive(Debug, Clone, Default)]
pub struct Rng {
    /// Pass i uses order i mod their number; none means 0, 1, 2 ..
    pub(crate) orders: Vec<Vec<usize>>,
    /// The n-th bucket that holds omission uses draw n mod their number; none means 0.
    pub(crate) draws: Vec<u32>,
    pub(crate) start_at_last: bool,
    pub(crate) pass_budget: u64,
    pub(crate) total_budget: u64,
    /// The scope's full search instead of the Rust's.
    pub(crate) full: bool,

    pub(crate) turns: u64,
    pub(crate) passes: usize,
    pub(crate) limit: u32,
    pub(crate) out_of_turns: bool,
    pub(crate) check_passed: bool,
    pub(crate) pass_turns: u64,
    pub(crate) pass_is_last: bool,
    pub(crate) draws_used: usize,
}

impl Rng {
    pub fn from_global_seed() -> Self {
        Self::default()
    }

    pub(crate) fn begin_pass(&mut self, limit: u32, is_last: bool) {
        self.passes += 1;
        self.pass_turns = 0;
        self.pass_is_last = is_last;
        self.check_passed = false;
        self.limit = limit;
    }

    /// Counts one turn if both budgets have one left. The total budget is looked at first.
    pub(crate) fn take_turn(&mut self) -> bool {
        if self.turns == self.total_budget {
            self.out_of_turns = true;
            return false;
        }
        if !self.pass_is_last && self.pass_turns == self.pass_budget {
            return false;
        }
        self.turns += 1;
        self.pass_turns += 1;
        true
    }

    /// Puts the order of the pass in place of 0, 1, 2 ..
    pub(crate) fn lend_order(&self, scramble: &mut [usize]) {
        if !self.orders.is_empty() {
            let pass = self.passes - 1;
            scramble.copy_from_slice(&self.orders[pass % self.orders.len()]);
        }
    }

    /// The pattern comes as zeros for `slots` slots, then a one if there is omission.
    pub(crate) fn place_omission(&mut self, pattern: &mut [u8], slots: usize) {
        if pattern.len() == slots {
            return;
        }
        assert_eq!(pattern.len(), slots + 1, "omission stands once in a bucket");
        let draw = if self.draws.is_empty() {
            0
        } else {
            self.draws[self.draws_used % self.draws.len()] as usize
        };
        self.draws_used += 1;
        pattern.fill(0);
        pattern[draw % (slots + 1)] = 1;
    }
}
