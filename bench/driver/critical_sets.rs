//! Critical sets: `CriticalSetAnalysis::new`, which makes every level's list, against the
//! analysis and the list of one level.

use std::hint::black_box;

use crate::measure::{Side, measure};
use crate::thalluscrest::calls;
use crate::wire::Input;
use crate::{CriticalSet, CriticalSetAnalysis, InputData, day};

const MOST_SETS: usize = 1_024;

/// A day as each side holds it, and the pools that are lent.
struct Case {
    input_data: InputData,
    asked: u8,
    limit: u16,

    slots: usize,
    choosers: usize,
    mins: Vec<u16>,
    levels: Vec<u16>,
    preferences: Vec<u16>,
    masks: Vec<u64>,
    set_levels: Vec<u16>,
    list: Vec<u64>,
}

impl Case {
    fn of(record: &[u8]) -> Self {
        let mut case = Input::new(record);
        let choices = case.count8();
        let slots = case.count8();
        let choosers = case.count8();
        let levels = case.count8();
        let mut input_data = day::empty(slots, choosers);
        input_data.choices = day::read_mins(&mut case, choices);
        day::read_preferences(&mut case, &mut input_data, levels);
        let asked = case.u8();
        let limit = case.u16();
        let small = |number: &u32| u16::try_from(*number).expect("a number of two bytes");
        let mins = input_data.choices.iter().map(|choice| small(&choice.min)).collect();
        let levels = input_data.preference_levels.iter().map(small).collect();
        let preferences = input_data.choosers.iter().flat_map(|one| one.preferences.iter().map(small)).collect();
        Case {
            input_data,
            asked,
            limit,
            slots,
            choosers,
            mins,
            levels,
            preferences,
            masks: vec![0; MOST_SETS],
            set_levels: vec![0; MOST_SETS],
            list: vec![0; MOST_SETS],
        }
    }
}

#[inline(never)]
#[unsafe(no_mangle)]
fn rust_critical_sets(case: &mut Case) -> CriticalSetAnalysis {
    CriticalSetAnalysis::new(&case.input_data, case.asked > 0, case.asked == 2)
}

#[inline(never)]
#[unsafe(no_mangle)]
fn rattle_critical_sets(case: &mut Case) -> [u64; 3] {
    let figures = calls::analyze(
        case.mins.len(),
        case.slots,
        case.choosers,
        case.asked,
        &case.mins,
        &case.levels,
        &case.preferences,
        &mut case.masks,
        &mut case.set_levels,
    );
    let [count, bound, ..] = figures.expect("the day is not refused");
    let listed = calls::level_list(
        &case.levels,
        case.limit,
        &case.masks,
        &case.set_levels,
        count as usize,
        &mut case.list,
    );
    [count, bound, listed.expect("the sets are not refused")[0]]
}

fn members(set: &CriticalSet) -> u64 {
    set.data.iter().map(|&choice| 1_u64 << choice).sum()
}

fn rust_answer(case: &mut Case) -> Vec<u64> {
    let analysis = rust_critical_sets(case);
    let mut answer = vec![u64::from(analysis.preference_bound()), analysis.sets.len() as u64];
    answer.extend(analysis.sets.iter().map(members));
    answer.extend(analysis.sets.iter().map(|set| u64::from(set.preference)));
    answer.extend(analysis.for_preference(u32::from(case.limit)).iter().map(members));
    answer
}

fn rattle_answer(case: &mut Case) -> Vec<u64> {
    let [count, bound, listed] = rattle_critical_sets(case);
    let mut answer = vec![bound, count];
    let (count, listed) = (count as usize, listed as usize);
    answer.extend(&case.masks[..count]);
    answer.extend(case.set_levels[..count].iter().map(|&level| u64::from(level)));
    answer.extend(&case.list[..listed]);
    answer
}

const SIDES: [Side<Case>; 2] = [
    Side {
        name: "rust_critical_sets",
        run: |case| drop(black_box(rust_critical_sets(case))),
        answer: rust_answer,
    },
    Side {
        name: "rattle_critical_sets",
        run: |case| _ = black_box(rattle_critical_sets(case)),
        answer: rattle_answer,
    },
];

pub(crate) fn run(records: &[Vec<u8>], rounds: usize) {
    let mut cases = records.iter().map(|record| Case::of(record)).collect::<Vec<_>>();
    measure(&SIDES, &mut cases, rounds);
}
