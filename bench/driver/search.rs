//! The search: a call of the solver with everything lent against the public call, which refuses bad input and makes its critical
//! sets besides. What the Rust reads, its critical sets among it, is made before.

use std::hint::black_box;

use crate::ask_search;
use crate::measure::{Side, measure};
use crate::scheduling_solver::SchedulingSolver;
use crate::shotgun_solver::ProgressReporter;
use crate::thalluscrest::calls;
use crate::wire::Input;
use crate::{Options, PreparedProblem, Rng};

const OMITTED: u8 = 255;
const MOST_CHOICES: usize = 64;
const MOST_MAP_NUMBERS: usize = 10_240;

/// A day with its own map and what is lent, as each side holds them.
struct Case {
    problem: PreparedProblem,
    options: Options,
    lent: Rng,

    choices: usize,
    slots: usize,
    choosers: usize,
    analysis: u8,
    mins: Vec<u16>,
    maxs: Vec<u16>,
    optional: Vec<u8>,
    levels: Vec<u16>,
    preferences: Vec<u16>,
    rows: Vec<u64>,
    starts: Vec<u16>,
    lengths: Vec<u16>,
    count: usize,
    numbers: Vec<u16>,
    whole: Vec<u16>,
    orders: Vec<u8>,
    draws: Vec<u32>,

    plan: Vec<u8>,
    /// Outcome, turns, passes and limit.
    figures: Vec<u64>,
}

impl Case {
    fn of(record: &[u8]) -> Self {
        let (input_data, analysis, lent) = ask_search::read(&mut Input::new(record));
        let options = Options::default();
        let problem = ask_search::prepared(input_data, &options, analysis).expect("few sets");

        let mut case = Input::new(record);
        let choices = case.count8();
        let slots = case.count8();
        let choosers = case.count8();
        let levels = case.count8();
        let count = case.count16();
        let rows = (0..count).map(|_| case.u64()).collect::<Vec<_>>();
        let (starts, lengths, numbers) = own_map(choices, &rows);
        Self {
            orders: lent.orders.iter().flatten().map(|&choice| choice as u8).collect(),
            draws: lent.draws.clone(),
            problem,
            options,
            lent,
            choices,
            slots,
            choosers,
            analysis,
            mins: (0..choices).map(|_| case.u16()).collect(),
            maxs: (0..choices).map(|_| case.u16()).collect(),
            optional: (0..choices).map(|_| case.u8()).collect(),
            levels: (0..levels).map(|_| case.u16()).collect(),
            preferences: (0..choosers * choices).map(|_| case.u16()).collect(),
            whole: (0..count as u16).collect(),
            rows,
            starts: padded(starts, MOST_CHOICES),
            lengths: padded(lengths, MOST_CHOICES),
            count: numbers.len(),
            numbers: padded(numbers, MOST_MAP_NUMBERS),
            plan: vec![0; choices],
            figures: vec![0; 4],
        }
    }

    fn answer(&self) -> Vec<u64> {
        let found = self.figures[0] == 1;
        let plan = self.plan.iter().map(|&place| u64::from(place));
        self.figures.iter().copied().chain(plan.filter(|_| found)).collect()
    }
}

fn padded(mut list: Vec<u16>, length: usize) -> Vec<u16> {
    list.resize(length, 0);
    list
}

/// Each choice's rows of kinds 1 to 5 that have it left, or right in 3 to 5, and all of kind 6.
fn own_map(choices: usize, rows: &[u64]) -> (Vec<u16>, Vec<u16>, Vec<u16>) {
    let (mut starts, mut lengths, mut numbers) = (Vec::new(), Vec::new(), Vec::new());
    for choice in 0..choices as u64 {
        let start = numbers.len();
        for (number, row) in rows.iter().enumerate() {
            let (kind, left, right) = (row >> 48, row >> 32 & 65_535, row >> 16 & 65_535);
            if kind == 6 || left == choice || (kind >= 3 && right == choice) {
                numbers.push(number as u16);
            }
        }
        starts.push(start as u16);
        lengths.push((numbers.len() - start) as u16);
    }
    (starts, lengths, numbers)
}

#[inline(never)]
#[unsafe(no_mangle)]
fn rust_search(case: &mut Case) {
    let reporter = ProgressReporter::dummy();
    let lent = case.lent.clone();
    let mut solver = SchedulingSolver::new_with_rng(&case.problem, &case.options, reporter, lent);
    let found = solver.next_scheduling(None);
    let outcome = if found { 1 } else { 2 * u64::from(solver.rng.out_of_turns) };
    case.figures[0] = outcome;
    case.figures[1] = solver.rng.turns;
    case.figures[2] = solver.rng.passes as u64;
    case.figures[3] = u64::from(solver.rng.limit);
    if found {
        let places = solver.scheduling().expect("a found plan is there").to_data();
        for (cell, place) in case.plan.iter_mut().zip(places) {
            *cell = place.map_or(OMITTED, |slot| slot as u8);
        }
    }
}

#[inline(never)]
#[unsafe(no_mangle)]
fn rattle_search(case: &mut Case) {
    call(case);
}

#[inline(always)]
fn call(case: &mut Case) {
    let figures = calls::search(
        case.choices,
        case.slots,
        case.choosers,
        u8::from(case.lent.full),
        case.analysis,
        u8::from(case.lent.start_at_last),
        case.lent.pass_budget,
        case.lent.total_budget,
        &case.mins,
        &case.maxs,
        &case.optional,
        &case.levels,
        &case.preferences,
        &case.rows,
        &case.starts,
        &case.lengths,
        case.count,
        &case.numbers,
        &case.whole,
        &case.orders,
        &case.draws,
        &mut case.plan,
    );
    case.figures.copy_from_slice(&figures.expect("the day is not refused")[..4]);
}

const SIDES: [Side<Case>; 2] = [
    Side {
        name: "rust_search",
        run: |case| rust_search(black_box(case)),
        answer: |case| {
            rust_search(case);
            case.answer()
        },
    },
    Side {
        name: "rattle_search",
        run: |case| rattle_search(black_box(case)),
        answer: |case| {
            rattle_search(case);
            case.answer()
        },
    },
];

/// What the stack is painted with below a call, and how many words of it.
const PAINT: u64 = 0x5EA2_C0DE_5EA2_C0DE;
const PAINTED_WORDS: usize = 32_768;

/// The bytes of stack that a call takes, on a thread whose stack is mapped whole.
fn stack_taken(case: &mut Case) -> usize {
    std::thread::scope(|scope| {
        let thread = std::thread::Builder::new().stack_size(16 * PAINTED_WORDS);
        let started = thread.spawn_scoped(scope, || stack_of(case)).expect("a thread starts");
        started.join().expect("the call ends")
    })
}

/// What lies below is painted, and the lowest word that the call wrote is looked for. By addresses and not in an array, whose
/// frame the compiler would probe page by page.
#[inline(never)]
fn stack_of(case: &mut Case) -> usize {
    let here = black_box(0_u64);
    let top = std::ptr::from_ref(&here).addr();
    let low = top - 8 * PAINTED_WORDS;
    paint(low);
    // Not by rattle_search, whose calls are counted.
    call(black_box(case));
    top - (low + 8 * painted_from(low))
}

/// Paints from an address up to this function's own frame.
#[inline(never)]
fn paint(low: usize) {
    let here = black_box(0_u64);
    let end = std::ptr::from_ref(&here).addr() - 256;
    for address in (low..end).step_by(8) {
        // Within this thread's stack, and below every frame in use.
        unsafe { std::ptr::write_volatile(address as *mut u64, PAINT) };
    }
}

/// How many words from an address on still hold the paint.
#[inline(never)]
fn painted_from(low: usize) -> usize {
    (0..PAINTED_WORDS)
        .take_while(|&place| unsafe { std::ptr::read_volatile((low + 8 * place) as *const u64) } == PAINT)
        .count()
}

pub(crate) fn run(records: &[Vec<u8>], rounds: usize) {
    let mut cases = records.iter().map(|record| Case::of(record)).collect::<Vec<_>>();
    let stack = cases.iter_mut().map(stack_taken).max().unwrap_or(0);
    measure(&SIDES, &mut cases, rounds);
    let turns = cases.iter().map(|case| case.figures[1]).sum::<u64>();
    let sets = cases.iter().map(|case| case.problem.critical_set_analysis.sets.len()).sum::<usize>();
    println!("turns {turns}");
    println!("sets {sets}");
    println!("stack {stack}");
}
