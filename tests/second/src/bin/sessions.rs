//! Compares the proved library's bus with the second one on random sessions,
//! and both with the plain bus, and holds demand 3 with the library's registers.

use std::env;
use std::process::ExitCode;
use std::time::Instant;

use second::bus_comparison::Comparison;
use second::bus_plants::{changes_nothing, plants};
use second::memory::{Calls, Library, Second};
use second::register_plants::{session_plants, stays_empty};

const USAGE: &str = "usage: sessions [--seed S] [--calls N] [--plants]";

struct Options {
    seed: u64,
    calls: u64,
    plants: bool,
}

impl Options {
    fn parse(mut args: impl Iterator<Item = String>) -> Option<Options> {
        let mut options = Options { seed: 11_898, calls: 2_000_000, plants: false };
        while let Some(option) = args.next() {
            match option.as_str() {
                "--seed" => options.seed = args.next()?.parse().ok()?,
                "--calls" => options.calls = args.next()?.parse().ok()?,
                "--plants" => options.plants = true,
                _ => return None,
            }
        }
        Some(options)
    }
}

/// Calls in which a wrong bus has to be found.
const SELF_CHECK_CALLS: u64 = 1_000_000;

/// Compares the second bus with each wrong one, and plays it with each wrong
/// register; says whether every wrong one was found. The library is left out,
/// so that only what was planted differs.
fn self_check(seed: u64) -> bool {
    let mut all = true;
    for (name, plant) in plants() {
        let sides: Vec<(_, Box<dyn Calls>)> =
            vec![("second bus", Box::new(Second)), ("wrong bus", Box::new(plant))];
        all &= is_found(&name, Comparison::new(sides, Box::new(Second)), seed);
    }
    for (name, plant) in session_plants() {
        let sides: Vec<(_, Box<dyn Calls>)> = vec![("second bus", Box::new(Second))];
        all &= is_found(&name, Comparison::new(sides, Box::new(plant)), seed);
    }
    // Alone, so that only the plain bus can find it.
    let sides: Vec<(_, Box<dyn Calls>)> = vec![("wrong bus", Box::new(changes_nothing()))];
    let comparison = Comparison::new(sides, Box::new(stays_empty()));
    all & is_found("a bus that changes nothing while books stay empty", comparison, seed)
}

fn is_found(name: &str, mut comparison: Comparison, seed: u64) -> bool {
    let found = comparison.run(seed, SELF_CHECK_CALLS).is_err();
    let verdict = if found { "found after" } else { "not found in" };
    println!("self-check: {name}: {verdict} {} calls", comparison.tally.calls());
    found
}

fn main() -> ExitCode {
    let Some(options) = Options::parse(env::args().skip(1)) else {
        eprintln!("{USAGE}");
        return ExitCode::from(2);
    };
    let start = Instant::now();
    if !self_check(options.seed) {
        println!("sessions: the comparison does not find what it should");
        return ExitCode::FAILURE;
    }
    if options.plants {
        let (buses, registers) = (plants().count() + 1, session_plants().count());
        println!("sessions: {buses} wrong buses and {registers} wrong registers, all found");
        return ExitCode::SUCCESS;
    }
    let sides: Vec<(_, Box<dyn Calls>)> =
        vec![("second bus", Box::new(Second)), ("library", Box::new(Library))];
    let mut comparison = Comparison::new(sides, Box::new(Library));
    if let Err(difference) = comparison.run(options.seed, options.calls) {
        println!("{difference}");
        println!("sessions: seed {}, call {}", options.seed, comparison.tally.calls());
        return ExitCode::FAILURE;
    }
    let tally = &comparison.tally;
    print!("{tally}");
    println!("compared: second bus, library, plain bus");
    println!("demand 3: {}", comparison.registers.counts);
    println!("seed {}, {:.1} s", options.seed, start.elapsed().as_secs_f64());
    let unheld = comparison.registers.counts.missing().map(ToString::to_string);
    let missing: Vec<String> = tally.missing().chain(unheld).collect();
    if !missing.is_empty() {
        println!("sessions: never came up: {}", missing.join("; "));
        return ExitCode::FAILURE;
    }
    println!("sessions: {} calls, 0 differences", tally.calls());
    ExitCode::SUCCESS
}
