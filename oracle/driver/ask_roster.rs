//! Does a roster keep the rules, and the highest preference met.

use crate::wire::{Input, Output};
use crate::{Assignment, InputData, Scheduling, Scoring, Solution, day, rows};

/// The scope's refusal of a cell that doesn't name a scheduled choice. The Rust would
/// panic there, or say no before it by a row or a slot met twice, so it is not asked.
const BAD_CELL: usize = 10;

pub(crate) fn answer(case: &mut Input, out: &mut Output) {
    let choices = case.count8();
    let slots = case.count8();
    let choosers = case.count8();
    let levels = case.count8();
    let mut input_data = day::empty(slots, choosers);
    input_data.scheduling_constraints = rows::read(case);
    input_data.assignment_constraints = rows::read(case);
    input_data.choices = day::read_min_max(case, choices);
    day::read_preferences(case, &mut input_data, levels);
    let plan = day::read_plan(case, &input_data);
    let cells = read_cells(case, &input_data);

    if !cells
        .iter()
        .flatten()
        .all(|&cell| is_scheduled(&plan, choices, cell))
    {
        out.u8(BAD_CELL);
        out.u16(0);
        return;
    }
    let roster = Assignment::new(&input_data, cells);
    let solution = Solution::new(Some(plan), Some(roster));
    out.u8(usize::from(Scoring::is_feasible(&input_data, &solution)));
    out.u16(Scoring::evaluate_major(&input_data, &solution) as usize);
}

/// One byte a cell, chooser by chooser.
fn read_cells(case: &mut Input, input_data: &InputData) -> Vec<Vec<usize>> {
    let slots = input_data.slots.len();
    (0..input_data.choosers.len())
        .map(|_| (0..slots).map(|_| case.count8()).collect())
        .collect()
}

fn is_scheduled(plan: &Scheduling, choices: usize, cell: usize) -> bool {
    cell < choices && plan.slot_of(cell).is_some()
}
