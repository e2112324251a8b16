//! Rows, clash flag and the number of rows before equals are dropped.

use crate::wire::{Input, Output};
use crate::{constraints, counted, rows};

/// The Rust has no limit of rows; the scope's refusal 6 has this one.
const MOST_ROWS: usize = 1_024;

pub(crate) fn answer(case: &mut Input, out: &mut Output) {
    let choices = case.count8();
    let _slots = case.count8();
    let _choosers = case.count8();
    let given = rows::read(case);

    let (reduced, clash) = constraints::reduce_and_optimize(&given, choices);
    let before = counted::last_rows_before_dedup();
    let over = before > MOST_ROWS;

    out.u8(usize::from(over));
    out.u32(before);
    out.u8(usize::from(clash));
    rows::write(out, if over { &[] } else { &reduced });
}
