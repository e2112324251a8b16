//! A call of the search with everything lent.

use std::collections::BTreeMap;

use crate::ask_critical_sets::analysed;
use crate::scheduling_solver::SchedulingSolver;
use crate::shotgun_solver::ProgressReporter;
use crate::wire::{Input, Output};
use crate::{
    Constraint, ConstraintType, InputData, MipFlowStaticData, Options, PreparedProblem, Rng,
    Scoring, day, rows,
};

type Map = BTreeMap<usize, Vec<Constraint>>;

const NONE: usize = 0;
const FOUND: usize = 1;
const OUT_OF_TURNS: usize = 2;
/// The scope's refusals 6 (own map over its numbers) and 7 (over 1,024 sets).
const MAP_TOO_LONG: usize = 6;
const TOO_MANY_SETS: usize = 7;
const MOST_MAP_NUMBERS: usize = 10_240;
const OMITTED: usize = 255;

pub(crate) fn answer(case: &mut Input, out: &mut Output) {
    let (input_data, asked, lent) = read(case);
    let map = &input_data.choice_constraint_map;
    if map.values().map(Vec::len).sum::<usize>() > MOST_MAP_NUMBERS {
        return write_refused(out, MAP_TOO_LONG);
    }
    let options = Options::default();
    match prepared(input_data, &options, asked) {
        None => write_refused(out, TOO_MANY_SETS),
        Some(problem) => run(&problem, &options, lent, out),
    }
}

/// The day with its map, the analysis asked, and what is lent.
pub(crate) fn read(case: &mut Input) -> (InputData, u8, Rng) {
    let choices = case.count8();
    let slots = case.count8();
    let choosers = case.count8();
    let levels = case.count8();
    let mut input_data = day::empty(slots, choosers);
    input_data.scheduling_constraints = rows::read(case);
    input_data.choices = day::read_choices(case, choices);
    day::read_preferences(case, &mut input_data, levels);
    let asked = case.u8();
    let full = day::read_flag(case);
    let map = read_map(case, choices, &input_data.scheduling_constraints);
    let mut lent = read_lent(case, choices);
    lent.full = full;
    input_data.choice_constraint_map = map;
    (input_data, asked, lent)
}

/// The day with its critical sets, unless there are too many.
pub(crate) fn prepared(
    input_data: InputData,
    options: &Options,
    asked: u8,
) -> Option<PreparedProblem> {
    let critical_set_analysis = analysed(&input_data, asked)?;
    Some(PreparedProblem {
        static_flow_data: MipFlowStaticData::new(&input_data),
        scoring: Scoring::new(&input_data, options),
        critical_set_analysis,
        input_data,
    })
}

fn run(problem: &PreparedProblem, options: &Options, lent: Rng, out: &mut Output) {
    let reporter = ProgressReporter::dummy();
    let mut solver = SchedulingSolver::new_with_rng(problem, options, reporter, lent);
    let found = solver.next_scheduling(None);
    out.u8(if found {
        FOUND
    } else if solver.rng.out_of_turns {
        OUT_OF_TURNS
    } else {
        NONE
    });
    write_counts(out, solver.rng.turns, solver.rng.passes, solver.rng.limit);
    if found {
        let plan = solver.scheduling().expect("a found plan is there");
        for place in plan.to_data() {
            out.u8(place.unwrap_or(OMITTED));
        }
    }
}

fn write_counts(out: &mut Output, turns: u64, passes: usize, limit: u32) {
    out.u64(turns);
    out.u16(passes);
    out.u16(limit as usize);
}

fn write_refused(out: &mut Output, number: usize) {
    out.u8(number);
    write_counts(out, 0, 0, 0);
}

/// 0 no choice has an entry, 1 own map, 2 a lent map.
fn read_map(case: &mut Input, choices: usize, list: &[Constraint]) -> Map {
    match case.u8() {
        0 => Map::new(),
        1 => own_map(choices, list),
        2 => read_lent_map(case, choices, list),
        other => panic!("a case's map is 0, 1 or 2, not {other}"),
    }
}

/// The scope's own map: the rows of kinds 1 to 5 that have the choice left, or right in
/// 3 to 5, and all rows of kind 6, in list order.
fn own_map(choices: usize, list: &[Constraint]) -> Map {
    (0..choices)
        .map(|choice| {
            let entry = list.iter().copied().filter(|row| concerns(row, choice));
            (choice, entry.collect())
        })
        .collect()
}

fn concerns(row: &Constraint, choice: usize) -> bool {
    match row.kind {
        ConstraintType::SlotHasLimitedSize => true,
        ConstraintType::ChoiceIsInSlot | ConstraintType::ChoiceIsNotInSlot => row.left == choice,
        _ => row.left == choice || row.other_choice() == choice,
    }
}

/// For each choice whether it has an entry, where it begins and its length; then the numbers.
fn read_lent_map(case: &mut Input, choices: usize, list: &[Constraint]) -> Map {
    let entries = (0..choices)
        .map(|_| (day::read_flag(case), case.count16(), case.count16()))
        .collect::<Vec<_>>();
    let count = case.count16();
    let numbers = (0..count).map(|_| case.count16()).collect::<Vec<_>>();
    let mut map = Map::new();
    for (choice, (present, first, length)) in entries.into_iter().enumerate() {
        if present {
            let part = &numbers[first..first + length];
            map.insert(choice, part.iter().map(|&number| list[number]).collect());
        }
    }
    map
}

/// Orders, draws, the start and the two budgets.
fn read_lent(case: &mut Input, choices: usize) -> Rng {
    let orders = case.count16();
    let orders = (0..orders)
        .map(|_| (0..choices).map(|_| case.count8()).collect())
        .collect();
    let draws = case.count16();
    let draws = (0..draws).map(|_| case.u32()).collect();
    Rng {
        orders,
        draws,
        start_at_last: day::read_flag(case),
        pass_budget: case.u64(),
        total_budget: case.u64(),
        ..Rng::default()
    }
}
