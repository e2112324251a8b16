//! The same calls from four threads at once: every answer on every file is what it is with one thread.

mod thalluscrest;

use std::thread;

use thalluscrest::{Analysis, Day, PROGRAM, Refusal};

const THREADS: usize = 4;
const ROUNDS: usize = 20;
const PAGE: u64 = 3;
const BUDGET: u64 = 20_000;

/// What every call answers on a file, as one text.
fn answers(file: &[u8]) -> String {
    told(file).unwrap_or_else(|why| format!("{why:?}"))
}

fn told(file: &[u8]) -> Result<String, Refusal> {
    let day = Day::read(file)?;
    let again = day.write()? == file;
    let reduction = day.reduce()?;
    let map = day.own_map(&reduction.search)?;
    let searched = day.search(&reduction.search, &map, true, PROGRAM);
    let planned = day.plan(&reduction.search, PROGRAM);
    let sets = day.critical_sets(Analysis::On)?;
    let listed = day.levels.iter().map(|&level| day.level_list(&sets, level)).collect::<Vec<_>>();
    let plan = vec![0; day.choices()];
    let checked = day.check_plan(&reduction.search, &plan);
    let roster = vec![0; day.choosers * day.slots];
    let seated = day.check_roster(&reduction, &plan, &roster);
    let plans = day.plans(&reduction.search, PAGE, BUDGET).map(|plans| plans.take(10).collect::<Vec<_>>());
    let page = day.page(&reduction.search, 1, PAGE, BUDGET);
    Ok(format!("{again} {reduction:?} {map:?} {searched:?} {planned:?} {sets:?} {listed:?} {checked:?} {seated:?} {plans:?} {page:?}"))
}

fn main() {
    let files = std::env::args().skip(1).map(|path| std::fs::read(path).expect("a file can be read")).collect::<Vec<_>>();
    let alone = files.iter().map(|file| answers(file)).collect::<Vec<_>>();
    let different = thread::scope(|scope| {
        let run = |first: usize| {
            let rounds = (0..ROUNDS).flat_map(|_| 0..files.len());
            // Each thread starts at another file, so that different calls run at once.
            rounds.map(|i| (i + first) % files.len()).filter(|&i| answers(&files[i]) != alone[i]).count()
        };
        let threads = (0..THREADS).map(|first| scope.spawn(move || run(first))).collect::<Vec<_>>();
        threads.into_iter().map(|thread| thread.join().expect("a thread ends")).sum::<usize>()
    });
    println!("{} answers from {THREADS} threads at once, {different} different", THREADS * ROUNDS * files.len());
    assert_eq!(different, 0);
}
