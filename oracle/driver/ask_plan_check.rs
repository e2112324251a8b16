//! Is a plan feasible.

use crate::wire::{Input, Output};
use crate::{day, rows};

pub(crate) fn answer(case: &mut Input, out: &mut Output) {
    let choices = case.count8();
    let slots = case.count8();
    let choosers = case.count8();
    let mut input_data = day::empty(slots, choosers);
    input_data.scheduling_constraints = rows::read(case);
    input_data.choices = day::read_choices(case, choices);
    let plan = day::read_plan(case, &input_data);
    out.u8(usize::from(plan.is_feasible(&input_data)));
}
