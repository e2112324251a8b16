//! A day file on standard input: its plan, as the program `plan` prints it, then its first three plans, as `plans 0 3 5000000` does.

mod thalluscrest;

use std::io::Read;

use thalluscrest::{After, Day, LONGEST_FILE, OMITTED, Outcome, PROGRAM, Refusal};

/// A file's bytes over this many make no difference.
const MOST_READ: u64 = LONGEST_FILE as u64 + 1;
const FIRST_PLANS: u64 = 3;
const BUDGET: u64 = 5_000_000;

fn read() -> Vec<u8> {
    let mut file = Vec::new();
    std::io::stdin().take(MOST_READ).read_to_end(&mut file).expect("standard input can be read");
    file
}

/// The day, unless its file is too long for the programs.
fn day_of(file: &[u8]) -> Result<Day, Refusal> {
    if file.len() > LONGEST_FILE {
        return Err(Refusal { number: 11, row: None });
    }
    Day::read(file)
}

fn print_plan(file: &[u8]) -> Result<(), Refusal> {
    let day = day_of(file)?;
    let reduction = day.reduce()?;
    if reduction.clash {
        println!("result clash");
        return Ok(());
    }
    let searched = day.plan(&reduction.search, PROGRAM)?;
    let result = match searched.outcome {
        Outcome::None => "none",
        Outcome::Found(_) => "found",
        Outcome::OutOfTurns => "turns",
    };
    println!("result {result}\nturns {}\npasses {}\nlimit {}", searched.turns, searched.passes, searched.limit);
    if let Outcome::Found(plan) = searched.outcome {
        for (choice, &place) in plan.iter().enumerate() {
            if place == OMITTED { println!("choice {choice} out") } else { println!("choice {choice} slot {place}") }
        }
    }
    Ok(())
}

fn print_plans(file: &[u8]) -> Result<(), Refusal> {
    let day = day_of(file)?;
    let reduction = day.reduce()?;
    if reduction.clash {
        println!("result clash");
        return Ok(());
    }
    let page = day.page(&reduction.search, 0, FIRST_PLANS, BUDGET)?;
    println!("result {}", if page.after == After::OutOfTurns { "turns" } else { "listed" });
    println!("total {}{}", if page.after == After::Ended { "" } else { "at least " }, page.met);
    for (number, plan) in page.plans.iter().enumerate() {
        let cells = plan.iter().map(|&place| if place == OMITTED { " out".to_string() } else { format!(" {place}") });
        println!("plan {number}{}", cells.collect::<String>());
    }
    Ok(())
}

fn main() {
    let file = read();
    for print in [print_plan, print_plans] {
        if let Err(why) = print(&file) {
            println!("result refused {}", why.number);
        }
    }
}
