//! The plan check: `Scheduling::is_feasible` against the worker and the public call.

use std::hint::black_box;

use crate::measure::{Side, measure};
use crate::thalluscrest::calls;
use crate::wire::Input;
use crate::{InputData, Scheduling, day, rows};

unsafe extern "C" {
    fn worker_is_feasible(
        choices: usize,
        slots: usize,
        choosers: usize,
        mins: *const u16,
        mins_length: usize,
        maxs: *const u16,
        maxs_length: usize,
        optional: *const u8,
        optional_length: usize,
        rows: *const u64,
        rows_length: usize,
        plan: *const u8,
        plan_length: usize,
    ) -> bool;
}

/// A day and a plan as each side holds them.
struct Case {
    input_data: InputData,
    scheduling: Scheduling,

    choices: usize,
    slots: usize,
    choosers: usize,
    rows: Vec<u64>,
    mins: Vec<u16>,
    maxs: Vec<u16>,
    optional: Vec<u8>,
    plan: Vec<u8>,
}

impl Case {
    fn of(record: &[u8]) -> Self {
        let (input_data, scheduling) = published_day(record);
        let mut case = Input::new(record);
        let choices = case.count8();
        let slots = case.count8();
        let choosers = case.count8();
        let count = case.count16();
        Self {
            input_data,
            scheduling,
            choices,
            slots,
            choosers,
            rows: (0..count).map(|_| case.u64()).collect(),
            mins: (0..choices).map(|_| case.u16()).collect(),
            maxs: (0..choices).map(|_| case.u16()).collect(),
            optional: (0..choices).map(|_| case.u8()).collect(),
            plan: (0..choices).map(|_| case.u8()).collect(),
        }
    }
}

fn published_day(record: &[u8]) -> (InputData, Scheduling) {
    let mut case = Input::new(record);
    let choices = case.count8();
    let slots = case.count8();
    let choosers = case.count8();
    let mut input_data = day::empty(slots, choosers);
    input_data.scheduling_constraints = rows::read(&mut case);
    input_data.choices = day::read_choices(&mut case, choices);
    let plan = day::read_plan(&mut case, &input_data);
    (input_data, plan)
}

#[inline(never)]
#[unsafe(no_mangle)]
fn rust_is_feasible(case: &Case) -> bool {
    case.scheduling.is_feasible(&case.input_data)
}

#[inline(never)]
#[unsafe(no_mangle)]
fn rattle_is_feasible(case: &Case) -> bool {
    // Sound: each slice goes in as its pointer and its length, and the call has no `requires`.
    unsafe {
        worker_is_feasible(
            case.choices,
            case.slots,
            case.choosers,
            case.mins.as_ptr(),
            case.mins.len(),
            case.maxs.as_ptr(),
            case.maxs.len(),
            case.optional.as_ptr(),
            case.optional.len(),
            case.rows.as_ptr(),
            case.rows.len(),
            case.plan.as_ptr(),
            case.plan.len(),
        )
    }
}

#[inline(never)]
#[unsafe(no_mangle)]
fn rattle_check_plan(case: &Case) -> u64 {
    let figures = calls::check_plan(
        case.choices,
        case.slots,
        case.choosers,
        &case.mins,
        &case.maxs,
        &case.optional,
        &case.rows,
        &case.plan,
    );
    figures.expect("the day is not refused")[0]
}

const SIDES: [Side<Case>; 3] = [
    Side {
        name: "rust_is_feasible",
        run: |case| _ = black_box(rust_is_feasible(case)),
        answer: |case| vec![u64::from(rust_is_feasible(case))],
    },
    Side {
        name: "rattle_is_feasible",
        run: |case| _ = black_box(rattle_is_feasible(case)),
        answer: |case| vec![u64::from(rattle_is_feasible(case))],
    },
    Side {
        name: "rattle_check_plan",
        run: |case| _ = black_box(rattle_check_plan(case)),
        answer: |case| vec![rattle_check_plan(case)],
    },
];

pub(crate) fn run(records: &[Vec<u8>], rounds: usize) {
    let mut cases = records.iter().map(|record| Case::of(record)).collect::<Vec<_>>();
    measure(&SIDES, &mut cases, rounds);
}
