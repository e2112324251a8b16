//! The benchmark: the same inputs through the published Rust and through the Rattle library.
//!
//! `driver PART INPUTS ROUNDS` reads the inputs (records as the oracle's README.md gives
//! them), has every side answer each of them, compares the answers, and runs each side so
//! many rounds more. It prints a line for each side: the function that callgrind is asked
//! for, the calls it got, and the nanoseconds a call in the best round. The listing and the
//! search print what they counted besides, a name and a number to a line.

// The published files carry more than the benchmark asks for.
#![allow(dead_code, unused_imports, unused_variables)]

mod assignment;
mod choice_data;
mod chooser_data;
mod constraint;
mod constraints;
mod critical_set;
mod critical_set_analysis;
mod input_data;
mod prepared_problem;
mod scheduling;
mod scheduling_solver;
mod score;
mod scoring;
mod solution;
mod union_find;
mod util;

mod counted;
mod missing;
mod options;
mod rng;
mod shotgun_solver;
mod status;

mod day;
mod rows;
mod wire;

#[cfg(thalluscrest_analyze)]
mod critical_sets;
#[cfg(thalluscrest_read_day)]
mod day_file;
#[cfg(thalluscrest_list_plans)]
mod listing;
mod measure;
#[cfg(thalluscrest_check_plan)]
mod plan_check;
#[cfg(thalluscrest_reduce)]
mod reduction;
#[cfg(thalluscrest_check_roster)]
mod roster;
#[cfg(thalluscrest_search)]
mod ask_critical_sets;
#[cfg(thalluscrest_search)]
mod ask_search;
#[cfg(thalluscrest_search)]
mod search;
mod thalluscrest;

pub(crate) use assignment::Assignment;
pub(crate) use choice_data::ChoiceData;
pub(crate) use chooser_data::ChooserData;
pub(crate) use constraint::{
    Constraint, ConstraintExtra, ConstraintTarget, ConstraintType, SlotSizeLimitOp,
};
pub(crate) use critical_set::CriticalSet;
pub(crate) use critical_set_analysis::CriticalSetAnalysis;
pub(crate) use input_data::InputData;
pub(crate) use missing::{MipFlowStaticData, SlotData};
pub(crate) use options::Options;
pub(crate) use prepared_problem::PreparedProblem;
pub(crate) use rng::Rng;
pub(crate) use scheduling::Scheduling;
pub(crate) use score::Score;
pub(crate) use scoring::Scoring;
pub(crate) use solution::Solution;
pub(crate) use union_find::UnionFind;

/// Every record of a file.
fn records(path: &str) -> Vec<Vec<u8>> {
    let mut bytes = std::io::BufReader::new(std::fs::File::open(path).expect("the inputs open"));
    let mut all = Vec::new();
    while let Some(record) = wire::next_record(&mut bytes).expect("the inputs are records") {
        all.push(record);
    }
    all
}

fn main() {
    let arguments = std::env::args().skip(1).collect::<Vec<_>>();
    let [part, inputs, rounds] = arguments.as_slice() else {
        panic!("expected three arguments: the part, its inputs, the rounds");
    };
    let records = records(inputs);
    let rounds = rounds.parse().expect("the rounds are a number");
    match part.as_str() {
        #[cfg(thalluscrest_check_plan)]
        "plan_check" => plan_check::run(&records, rounds),
        #[cfg(thalluscrest_reduce)]
        "reduction" => reduction::run(&records, rounds),
        #[cfg(thalluscrest_read_day)]
        "day_file" => day_file::run(&records, rounds),
        #[cfg(thalluscrest_analyze)]
        "critical_sets" => critical_sets::run(&records, rounds),
        #[cfg(thalluscrest_list_plans)]
        "listing" => listing::run(&records, rounds),
        #[cfg(thalluscrest_check_roster)]
        "roster" => roster::run(&records, rounds),
        #[cfg(thalluscrest_search)]
        "search" => search::run(&records, rounds),
        _ => panic!("no part {part} in this driver"),
    }
}
