//! Reading a day file, which the Rust doesn't have: instructions a byte.

use std::hint::black_box;

use crate::measure::{Side, measure};
use crate::thalluscrest::{Figures, calls};

/// A file, and the pools at their full limits.
struct Case {
    file: Vec<u8>,
    mins: [u16; 64],
    maxs: [u16; 64],
    optional: [u8; 64],
    levels: [u16; 64],
    preferences: Vec<u16>,
    rows: [u64; 128],
}

impl Case {
    fn of(record: &[u8]) -> Self {
        Self {
            file: record.to_vec(),
            mins: [0; 64],
            maxs: [0; 64],
            optional: [0; 64],
            levels: [0; 64],
            preferences: vec![0; 12_800],
            rows: [0; 128],
        }
    }
}

#[inline(never)]
#[unsafe(no_mangle)]
fn rattle_read_day(case: &mut Case) -> Figures {
    let figures = calls::read_day(
        &case.file,
        &mut case.mins,
        &mut case.maxs,
        &mut case.optional,
        &mut case.levels,
        &mut case.preferences,
        &mut case.rows,
    );
    figures.expect("the file is a day")
}

fn read_answer(case: &mut Case) -> Vec<u64> {
    rattle_read_day(case).to_vec()
}

const SIDES: [Side<Case>; 1] = [Side {
    name: "rattle_read_day",
    run: |case| _ = black_box(rattle_read_day(case)),
    answer: read_answer,
}];

pub(crate) fn run(records: &[Vec<u8>], rounds: usize) {
    let mut cases = records.iter().map(|record| Case::of(record)).collect::<Vec<_>>();
    measure(&SIDES, &mut cases, rounds);
}
