//! The reduction: `reduce_and_optimize` against `reduce`.

use std::hint::black_box;

use crate::measure::{Side, measure};
use crate::thalluscrest::{Figures, calls};
use crate::wire::Input;
use crate::{Constraint, constraints, rows};

const MOST_ROWS: usize = 1_024;

/// Given rows as each side holds them, and the pool that is lent.
struct Case {
    published: Vec<Constraint>,

    choices: usize,
    slots: usize,
    choosers: usize,
    rows: Vec<u64>,
    pool: Vec<u64>,
}

impl Case {
    fn of(record: &[u8]) -> Self {
        let mut case = Input::new(record);
        let choices = case.count8();
        let slots = case.count8();
        let choosers = case.count8();
        let published = rows::read(&mut case);
        Self {
            rows: published.iter().map(rows::number_of).collect(),
            published,
            choices,
            slots,
            choosers,
            pool: vec![0; MOST_ROWS],
        }
    }
}

/// What is left is the caller's to free, as the pool is the caller's to lend.
#[inline(never)]
#[unsafe(no_mangle)]
fn rust_reduce(case: &Case) -> (Vec<Constraint>, bool) {
    constraints::reduce_and_optimize(&case.published, case.choices)
}

#[inline(never)]
#[unsafe(no_mangle)]
fn rattle_reduce(case: &mut Case) -> Figures {
    let figures = calls::reduce(case.choices, case.slots, case.choosers, &case.rows, &mut case.pool);
    figures.expect("the rows are not refused")
}

fn rust_answer(case: &mut Case) -> Vec<u64> {
    let (reduced, clash) = rust_reduce(case);
    let mut answer = vec![u64::from(clash)];
    answer.extend(reduced.iter().map(rows::number_of));
    answer
}

fn rattle_answer(case: &mut Case) -> Vec<u64> {
    let [count, clash, ..] = rattle_reduce(case);
    let count = count as usize;
    let mut answer = vec![clash];
    answer.extend(&case.pool[..count]);
    answer
}

const SIDES: [Side<Case>; 2] = [
    Side {
        name: "rust_reduce",
        run: |case| drop(black_box(rust_reduce(case))),
        answer: rust_answer,
    },
    Side {
        name: "rattle_reduce",
        run: |case| _ = black_box(rattle_reduce(case)),
        answer: rattle_answer,
    },
];

pub(crate) fn run(records: &[Vec<u8>], rounds: usize) {
    let mut cases = records.iter().map(|record| Case::of(record)).collect::<Vec<_>>();
    measure(&SIDES, &mut cases, rounds);
}
