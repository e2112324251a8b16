//! Sets kept, bound and each level's list.

use crate::wire::{Input, Output};
use crate::{CriticalSet, CriticalSetAnalysis, InputData, counted, day};

/// The Rust has no limit of sets; the scope's refusal 7 has this one.
const MOST_SETS: usize = 1_024;

/// The analysis as asked (0 off, 1 on, 2 simplified) for every number of slots;
/// none if over 1,024 sets are kept before simplifying.
pub(crate) fn analysed(input_data: &InputData, asked: u8) -> Option<CriticalSetAnalysis> {
    assert!(asked < 3, "the analysis is off, on or simplified");
    counted::sets_before_simplifying(0);
    let analysis = CriticalSetAnalysis::new(input_data, asked > 0, asked == 2);
    (counted::last_sets_before_simplifying() <= MOST_SETS).then_some(analysis)
}

pub(crate) fn answer(case: &mut Input, out: &mut Output) {
    let choices = case.count8();
    let slots = case.count8();
    let choosers = case.count8();
    let levels = case.count8();
    let mut input_data = day::empty(slots, choosers);
    input_data.choices = day::read_mins(case, choices);
    day::read_preferences(case, &mut input_data, levels);
    let asked = case.u8();
    let limit = u32::from(case.u16());

    let analysis = analysed(&input_data, asked);
    out.u8(usize::from(analysis.is_none()));
    out.u32(counted::last_sets_before_simplifying());
    let Some(analysis) = analysis else {
        return;
    };
    out.u16(analysis.preference_bound() as usize);
    write_sets(out, &analysis.sets);
    for &level in &input_data.preference_levels {
        write_sets(out, analysis.for_preference(level));
    }
    write_sets(out, analysis.for_preference(limit));
}

fn write_sets(out: &mut Output, sets: &[CriticalSet]) {
    out.u16(sets.len());
    for set in sets {
        out.u16(set.preference as usize);
        out.u64(set.data.iter().map(|&choice| 1_u64 << choice).sum());
    }
}
