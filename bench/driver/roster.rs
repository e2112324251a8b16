//! The roster check: `Scoring::is_feasible` with `evaluate_major` against the public call, which refuses bad input besides.

use std::hint::black_box;

use crate::measure::{Side, measure};
use crate::thalluscrest::calls;
use crate::wire::Input;
use crate::{Assignment, InputData, Scoring, Solution, day, rows};

/// A day, a plan and a roster as each side holds them.
struct Case {
    input_data: InputData,
    solution: Solution,

    choices: usize,
    slots: usize,
    choosers: usize,
    rows: Vec<u64>,
    assignment_rows: Vec<u64>,
    mins: Vec<u16>,
    maxs: Vec<u16>,
    levels: Vec<u16>,
    preferences: Vec<u16>,
    plan: Vec<u8>,
    roster: Vec<u8>,
}

impl Case {
    fn of(record: &[u8]) -> Self {
        let (input_data, solution) = published(record);
        let mut case = Input::new(record);
        let choices = case.count8();
        let slots = case.count8();
        let choosers = case.count8();
        let levels = case.count8();
        let mut list = || {
            let count = case.count16();
            (0..count).map(|_| case.u64()).collect::<Vec<_>>()
        };
        let rows = list();
        let assignment_rows = list();
        Self {
            input_data,
            solution,
            choices,
            slots,
            choosers,
            rows,
            assignment_rows,
            mins: (0..choices).map(|_| case.u16()).collect(),
            maxs: (0..choices).map(|_| case.u16()).collect(),
            levels: (0..levels).map(|_| case.u16()).collect(),
            preferences: (0..choosers * choices).map(|_| case.u16()).collect(),
            plan: (0..choices).map(|_| case.u8()).collect(),
            roster: (0..choosers * slots).map(|_| case.u8()).collect(),
        }
    }
}

fn published(record: &[u8]) -> (InputData, Solution) {
    let mut case = Input::new(record);
    let choices = case.count8();
    let slots = case.count8();
    let choosers = case.count8();
    let levels = case.count8();
    let mut input_data = day::empty(slots, choosers);
    input_data.scheduling_constraints = rows::read(&mut case);
    input_data.assignment_constraints = rows::read(&mut case);
    input_data.choices = day::read_min_max(&mut case, choices);
    day::read_preferences(&mut case, &mut input_data, levels);
    let plan = day::read_plan(&mut case, &input_data);
    let cells = (0..choosers)
        .map(|_| (0..slots).map(|_| case.count8()).collect())
        .collect();
    let roster = Assignment::new(&input_data, cells);
    (input_data, Solution::new(Some(plan), Some(roster)))
}

#[inline(never)]
#[unsafe(no_mangle)]
fn rust_check_roster(case: &Case) -> [u64; 2] {
    let passed = Scoring::is_feasible(&case.input_data, &case.solution);
    let highest = Scoring::evaluate_major(&case.input_data, &case.solution);
    [u64::from(passed), u64::from(highest)]
}

#[inline(never)]
#[unsafe(no_mangle)]
fn rattle_check_roster(case: &Case) -> [u64; 2] {
    let figures = calls::check_roster(
        case.choices,
        case.slots,
        case.choosers,
        &case.mins,
        &case.maxs,
        &case.levels,
        &case.preferences,
        &case.rows,
        &case.assignment_rows,
        &case.plan,
        &case.roster,
    );
    let [passed, highest, ..] = figures.expect("the roster is not refused");
    [passed, highest]
}

const SIDES: [Side<Case>; 2] = [
    Side {
        name: "rust_check_roster",
        run: |case| _ = black_box(rust_check_roster(case)),
        answer: |case| rust_check_roster(case).to_vec(),
    },
    Side {
        name: "rattle_check_roster",
        run: |case| _ = black_box(rattle_check_roster(case)),
        answer: |case| rattle_check_roster(case).to_vec(),
    },
];

pub(crate) fn run(records: &[Vec<u8>], rounds: usize) {
    let mut cases = records.iter().map(|record| Case::of(record)).collect::<Vec<_>>();
    measure(&SIDES, &mut cases, rounds);
}
