//! The oracle: the published Rust answers cases.
//!
//! `driver PART` reads records on standard input and writes each with its answer
//! on standard output. A record is a 4-byte length of the rest and the rest; all
//! numbers are big-endian. README.md gives the bodies. `driver op_order` prints
//! the ops in the order of the published type.

// The published files carry more than the oracle asks for.
#![allow(dead_code, unused_imports, unused_variables)]

mod assignment;
mod choice_data;
mod chooser_data;
mod constraint;
mod constraints;
mod critical_set;
mod critical_set_analysis;
mod input_data;
mod prepared_problem;
mod scheduling;
mod scheduling_solver;
mod score;
mod scoring;
mod solution;
mod union_find;
mod util;

mod counted;
mod missing;
mod options;
mod rng;
mod shotgun_solver;
mod status;

mod ask_critical_sets;
mod ask_plan_check;
mod ask_reduction;
mod ask_roster;
mod ask_search;
mod ask_union_find;
mod day;
mod rows;
mod wire;

pub(crate) use assignment::Assignment;
pub(crate) use choice_data::ChoiceData;
pub(crate) use chooser_data::ChooserData;
pub(crate) use constraint::{
    Constraint, ConstraintExtra, ConstraintTarget, ConstraintType, SlotSizeLimitOp,
};
pub(crate) use critical_set::CriticalSet;
pub(crate) use critical_set_analysis::CriticalSetAnalysis;
pub(crate) use input_data::InputData;
pub(crate) use missing::{MipFlowStaticData, SlotData};
pub(crate) use options::Options;
pub(crate) use prepared_problem::PreparedProblem;
pub(crate) use rng::Rng;
pub(crate) use scheduling::Scheduling;
pub(crate) use score::Score;
pub(crate) use scoring::Scoring;
pub(crate) use solution::Solution;
pub(crate) use union_find::UnionFind;

use std::io::{BufReader, BufWriter, Write};

use wire::{Input, Output};

type Part = fn(&mut Input, &mut Output);

fn part_named(name: &str) -> Option<Part> {
    match name {
        "union_find" => Some(ask_union_find::answer),
        "reduction" => Some(ask_reduction::answer),
        "plan_check" => Some(ask_plan_check::answer),
        "critical_sets" => Some(ask_critical_sets::answer),
        "search" => Some(ask_search::answer),
        "roster" => Some(ask_roster::answer),
        _ => None,
    }
}

fn main() -> std::io::Result<()> {
    let arguments = std::env::args().skip(1).collect::<Vec<_>>();
    let [name] = arguments.as_slice() else {
        panic!("expected one argument, the part");
    };
    if name == "op_order" {
        rows::print_op_order();
        return Ok(());
    }
    let part = part_named(name).expect("the part must have a name of README.md");

    let mut cases = BufReader::new(std::io::stdin().lock());
    let mut answers = BufWriter::new(std::io::stdout().lock());
    while let Some(body) = wire::next_record(&mut cases)? {
        let mut input = Input::new(&body);
        let mut output = Output::default();
        part(&mut input, &mut output);
        input.must_be_used_up();
        wire::write_record(&mut answers, &body, &output)?;
    }
    answers.flush()
}
