//! Parts of a day as the cases give them, and the Rust's input data made of them.

use std::collections::BTreeMap;

use crate::wire::Input;
use crate::{ChoiceData, ChooserData, InputData, Scheduling, SlotData};

const OMITTED: u8 = 255;

/// A day of so many slots and choosers, still without choices and rows, with the one level 0.
pub(crate) fn empty(slots: usize, choosers: usize) -> InputData {
    InputData {
        choices: Vec::new(),
        choosers: vec![chooser(Vec::new()); choosers],
        slots: vec![SlotData; slots],
        scheduling_constraints: Vec::new(),
        assignment_constraints: Vec::new(),
        dependent_choice_groups: Vec::new(),
        preference_levels: vec![0],
        max_preference: 0,
        choice_constraint_map: BTreeMap::new(),
        chooser_constraint_map: BTreeMap::new(),
    }
}

fn chooser(preferences: Vec<u32>) -> ChooserData {
    ChooserData {
        name: String::new(),
        preferences,
    }
}

fn choice(min: u32, max: u32, is_optional: bool) -> ChoiceData {
    ChoiceData {
        name: String::new(),
        min,
        max,
        continuation: None,
        is_optional,
    }
}

fn numbers16(case: &mut Input, count: usize) -> Vec<u32> {
    (0..count).map(|_| u32::from(case.u16())).collect()
}

/// Columns of the choices: mins, maxs, then optional flags.
pub(crate) fn read_choices(case: &mut Input, count: usize) -> Vec<ChoiceData> {
    let mins = numbers16(case, count);
    let maxs = numbers16(case, count);
    (0..count)
        .map(|index| choice(mins[index], maxs[index], read_flag(case)))
        .collect()
}

/// Columns of the choices without flags: mins and maxs.
pub(crate) fn read_min_max(case: &mut Input, count: usize) -> Vec<ChoiceData> {
    let mins = numbers16(case, count);
    let maxs = numbers16(case, count);
    (0..count)
        .map(|index| choice(mins[index], maxs[index], false))
        .collect()
}

/// The mins alone, for the critical sets.
pub(crate) fn read_mins(case: &mut Input, count: usize) -> Vec<ChoiceData> {
    let mins = numbers16(case, count);
    mins.into_iter().map(|min| choice(min, 0, false)).collect()
}

pub(crate) fn read_flag(case: &mut Input) -> bool {
    let byte = case.u8();
    assert!(byte < 2, "a flag is 0 or 1");
    byte == 1
}

/// Levels, then preferences chooser by chooser. The choices must already be there.
pub(crate) fn read_preferences(case: &mut Input, input_data: &mut InputData, levels: usize) {
    input_data.preference_levels = numbers16(case, levels);
    input_data.max_preference = *input_data
        .preference_levels
        .last()
        .expect("a day has at least one level");
    let choices = input_data.choices.len();
    for chooser in &mut input_data.choosers {
        chooser.preferences = numbers16(case, choices);
    }
}

/// A plan: one byte a choice, 255 for omitted.
pub(crate) fn read_plan(case: &mut Input, input_data: &InputData) -> Scheduling {
    let cells = (0..input_data.choices.len())
        .map(|_| match case.u8() {
            OMITTED => None,
            slot => Some(usize::from(slot)),
        })
        .collect();
    Scheduling::with_data(input_data, cells)
}
