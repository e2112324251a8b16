//! The listing: the same recursion written in Rust against `list_plans`.
//!
//! The published sources have no listing. `rust_list_plans` visits the same nodes in the
//! same order, first to count them and then to list, since out of turns has to leave the
//! buffer untouched. `rust_list_once` does both in one run, and leaves plans of a day that
//! turns out to be over its budget in the buffer.

use std::hint::black_box;

use crate::measure::{Side, measure};
use crate::thalluscrest::calls;
use crate::wire::Input;

const OMITTED: u8 = 255;
const MOST_CHOICES: usize = 64;
const MOST_SLOTS: usize = 24;
const FIRST: u64 = 10;
const ROOM: u64 = 50;
const BUDGET: u64 = 10_000_000;
/// What the call says of a page, as against out of turns.
const LISTED: u64 = 1;

struct Day {
    choices: usize,
    slots: usize,
    choosers: usize,
    rows: Vec<u64>,
    mins: Vec<u16>,
    maxs: Vec<u16>,
    optional: Vec<u8>,
}

impl Day {
    fn of(record: &[u8]) -> Self {
        let mut case = Input::new(record);
        let choices = case.count8();
        let slots = case.count8();
        let choosers = case.count8();
        let count = case.count16();
        Self {
            choices,
            slots,
            choosers,
            rows: (0..count).map(|_| case.u64()).collect(),
            mins: (0..choices).map(|_| case.u16()).collect(),
            maxs: (0..choices).map(|_| case.u16()).collect(),
            optional: (0..choices).map(|_| case.u8()).collect(),
        }
    }

    /// The plan check: a pass over the choices, one over the slots and one over the rows.
    fn is_feasible(&self, plan: &[u8]) -> bool {
        let mut least = [0_u32; MOST_SLOTS];
        let mut most = [0_u32; MOST_SLOTS];
        let mut sizes = [0_u32; MOST_SLOTS];
        for (choice, &place) in plan.iter().enumerate() {
            let slot = usize::from(place);
            if slot < self.slots {
                least[slot] += u32::from(self.mins[choice]);
                most[slot] += u32::from(self.maxs[choice]);
                sizes[slot] += 1;
            } else if place != OMITTED || self.optional[choice] != 1 {
                return false;
            }
        }
        let choosers = self.choosers as u32;
        let fits = |slot: usize| least[slot] <= choosers && choosers <= most[slot];
        (0..self.slots).all(fits) && self.rows.iter().all(|&row| keeps(row, plan, &sizes))
    }
}

/// Whether a plan keeps a row, by its number.
fn keeps(row: u64, plan: &[u8], sizes: &[u32; MOST_SLOTS]) -> bool {
    let left = usize::from((row >> 32) as u16);
    let right = usize::from((row >> 16) as u16);
    let extra = row as u16;
    match row >> 48 {
        1 => usize::from(plan[left]) == right,
        2 => usize::from(plan[left]) != right,
        3 => plan[left] == plan[right],
        4 => plan[left] == OMITTED || plan[left] != plan[right],
        5 => match (plan[left], plan[right]) {
            (OMITTED, to) => to == OMITTED,
            (_, OMITTED) => false,
            (from, to) => u32::from(to) + 32_768 == u32::from(from) + u32::from(extra),
        },
        6 => op_holds(extra, sizes[left], right as u32),
        _ => false,
    }
}

fn op_holds(op: u16, count: u32, limit: u32) -> bool {
    match op.wrapping_sub(32_768) as i16 {
        1 => count == limit,
        2 => count > limit,
        3 => count >= limit,
        -1 => count != limit,
        -2 => count <= limit,
        -3 => count < limit,
        _ => false,
    }
}

/// The first run: each start that is reached spends one of the budget.
struct Nodes<'a> {
    day: &'a Day,
    sums: [usize; MOST_SLOTS],
    left: u64,
}

impl Nodes<'_> {
    fn choice(&mut self, choice: usize) -> bool {
        if self.left == 0 {
            return false;
        }
        self.left -= 1;
        if choice == self.day.choices {
            return true;
        }
        (0..self.day.slots).all(|slot| self.place(choice, slot))
            && (self.day.optional[choice] != 1 || self.choice(choice + 1))
    }

    fn place(&mut self, choice: usize, slot: usize) -> bool {
        let before = self.sums[slot];
        let after = before + usize::from(self.day.mins[choice]);
        if after > self.day.choosers {
            return true;
        }
        self.sums[slot] = after;
        let holds = self.choice(choice + 1);
        self.sums[slot] = before;
        holds
    }
}

/// The second run: each full start is given to the plan check once.
struct Plans<'a> {
    day: &'a Day,
    plan: [u8; MOST_CHOICES],
    sums: [usize; MOST_SLOTS],
    leaves: u64,
    total: u64,
    buffer: &'a mut [u8],
}

impl Plans<'_> {
    fn choice(&mut self, choice: usize) {
        if choice == self.day.choices {
            self.leaf();
            return;
        }
        for slot in 0..self.day.slots {
            self.place(choice, slot);
        }
        if self.day.optional[choice] == 1 {
            self.plan[choice] = OMITTED;
            self.choice(choice + 1);
        }
    }

    fn place(&mut self, choice: usize, slot: usize) {
        let before = self.sums[slot];
        let after = before + usize::from(self.day.mins[choice]);
        if after > self.day.choosers {
            return;
        }
        self.sums[slot] = after;
        self.plan[choice] = slot as u8;
        self.choice(choice + 1);
        self.sums[slot] = before;
    }

    fn leaf(&mut self) {
        self.leaves += 1;
        let plan = &self.plan[..self.day.choices];
        if !self.day.is_feasible(plan) {
            return;
        }
        if (FIRST..FIRST + ROOM).contains(&self.total) {
            let at = (self.total - FIRST) as usize * plan.len();
            self.buffer[at..at + plan.len()].copy_from_slice(plan);
        }
        self.total += 1;
    }
}

/// Both in one run.
struct Once<'a> {
    plans: Plans<'a>,
    left: u64,
}

impl Once<'_> {
    fn choice(&mut self, choice: usize) -> bool {
        if self.left == 0 {
            return false;
        }
        self.left -= 1;
        if choice == self.plans.day.choices {
            self.plans.leaf();
            return true;
        }
        (0..self.plans.day.slots).all(|slot| self.place(choice, slot))
            && (self.plans.day.optional[choice] != 1 || self.omission(choice))
    }

    fn place(&mut self, choice: usize, slot: usize) -> bool {
        let before = self.plans.sums[slot];
        let after = before + usize::from(self.plans.day.mins[choice]);
        if after > self.plans.day.choosers {
            return true;
        }
        self.plans.sums[slot] = after;
        self.plans.plan[choice] = slot as u8;
        let holds = self.choice(choice + 1);
        self.plans.sums[slot] = before;
        holds
    }

    fn omission(&mut self, choice: usize) -> bool {
        self.plans.plan[choice] = OMITTED;
        self.choice(choice + 1)
    }
}

/// A day, and what is lent for a page of its plans.
struct Case {
    day: Day,
    buffer: Vec<u8>,
    numbers: [u64; 3],
    leaves: u64,
}

impl Case {
    fn of(record: &[u8]) -> Self {
        let day = Day::of(record);
        let buffer = vec![0; ROOM as usize * day.choices];
        Self { day, buffer, numbers: [0; 3], leaves: 0 }
    }

    fn plans(&mut self) -> Plans<'_> {
        Plans {
            day: &self.day,
            plan: [0; MOST_CHOICES],
            sums: [0; MOST_SLOTS],
            leaves: 0,
            total: 0,
            buffer: &mut self.buffer,
        }
    }

    fn listed(&mut self, leaves: u64, total: u64, nodes: u64) {
        self.leaves = leaves;
        self.numbers = [total.saturating_sub(FIRST).min(ROOM), total, nodes];
    }
}

#[inline(never)]
#[unsafe(no_mangle)]
fn rust_list_plans(case: &mut Case) -> bool {
    let mut nodes = Nodes { day: &case.day, sums: [0; MOST_SLOTS], left: BUDGET };
    if !nodes.choice(0) {
        return false;
    }
    let visited = BUDGET - nodes.left;
    let mut plans = case.plans();
    plans.choice(0);
    let (leaves, total) = (plans.leaves, plans.total);
    case.listed(leaves, total, visited);
    true
}

#[inline(never)]
#[unsafe(no_mangle)]
fn rust_list_once(case: &mut Case) -> bool {
    let mut once = Once { plans: case.plans(), left: BUDGET };
    if !once.choice(0) {
        return false;
    }
    let (leaves, total, left) = (once.plans.leaves, once.plans.total, once.left);
    case.listed(leaves, total, BUDGET - left);
    true
}

#[inline(never)]
#[unsafe(no_mangle)]
fn rattle_list_plans(case: &mut Case) -> bool {
    let day = &case.day;
    let figures = calls::list_plans(
        day.choices,
        day.slots,
        day.choosers,
        &day.mins,
        &day.maxs,
        &day.optional,
        &day.rows,
        FIRST,
        ROOM,
        BUDGET,
        &mut case.buffer,
    );
    let [outcome, written, total, nodes, ..] = figures.expect("the day is not refused");
    case.numbers = [written, total, nodes];
    outcome == LISTED
}

/// The numbers and the page that a call left.
fn answer(case: &mut Case, list: fn(&mut Case) -> bool) -> Vec<u64> {
    case.buffer.fill(0);
    case.numbers = [0; 3];
    assert!(list(case), "the day is within its budget");
    let mut told = case.numbers.to_vec();
    told.extend(case.buffer.iter().map(|&place| u64::from(place)));
    told
}

const SIDES: [Side<Case>; 3] = [
    Side {
        name: "rust_list_plans",
        run: |case| _ = black_box(rust_list_plans(case)),
        answer: |case| answer(case, rust_list_plans),
    },
    Side {
        name: "rattle_list_plans",
        run: |case| _ = black_box(rattle_list_plans(case)),
        answer: |case| answer(case, rattle_list_plans),
    },
    Side {
        name: "rust_list_once",
        run: |case| _ = black_box(rust_list_once(case)),
        answer: |case| answer(case, rust_list_once),
    },
];

pub(crate) fn run(records: &[Vec<u8>], rounds: usize) {
    let mut cases = records.iter().map(|record| Case::of(record)).collect::<Vec<_>>();
    measure(&SIDES, &mut cases, rounds);
    for case in &cases {
        println!("nodes {}", case.numbers[2]);
        println!("leaves {}", case.leaves);
        println!("plans {}", case.numbers[1]);
    }
}
