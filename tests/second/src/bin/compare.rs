//! Compares the proved library with the second codec on generated cases.

use std::env;
use std::process::ExitCode;
use std::time::Instant;

use second::comparison::{Comparison, Library, Second};
use second::plants::plants;

const USAGE: &str = "usage: compare [--seed N] [--cases N]";

struct Options {
    seed: u64,
    cases: u64,
}

impl Options {
    fn parse(mut args: impl Iterator<Item = String>) -> Option<Options> {
        let mut options = Options { seed: 11_898, cases: 20_000_000 };
        while let Some(option) = args.next() {
            let value = args.next()?.parse().ok()?;
            match option.as_str() {
                "--seed" => options.seed = value,
                "--cases" => options.cases = value,
                _ => return None,
            }
        }
        Some(options)
    }
}

/// Compares the second codec with each wrong one; says whether every wrong one
/// was found. The library is left out, so that only what was planted differs.
fn self_check(options: &Options) -> bool {
    let mut all = true;
    for (name, plant) in plants() {
        let mut comparison = Comparison::new(Second, plant);
        let found = comparison.run(options.seed, options.cases).is_err();
        let cases = comparison.tally.cases();
        if found {
            println!("self-check: {name}: found after {cases} cases");
        } else {
            println!("self-check: {name}: not found in {cases} cases");
        }
        all &= found;
    }
    all
}

fn main() -> ExitCode {
    let Some(options) = Options::parse(env::args().skip(1)) else {
        eprintln!("{USAGE}");
        return ExitCode::from(2);
    };
    let start = Instant::now();
    if !self_check(&options) {
        println!("compare: the comparison does not find what it should");
        return ExitCode::FAILURE;
    }
    let mut comparison = Comparison::new(Library, Second);
    if let Err(difference) = comparison.run(options.seed, options.cases) {
        println!("{difference}");
        println!("compare: left is the library, right the second codec");
        return ExitCode::FAILURE;
    }
    let tally = &comparison.tally;
    println!("seed {}, {:.1} s", options.seed, start.elapsed().as_secs_f64());
    print!("{tally}");
    let missing: Vec<String> = tally.missing().map(ToString::to_string).collect();
    if !missing.is_empty() {
        println!("compare: never came up: {}", missing.join("; "));
        return ExitCode::FAILURE;
    }
    println!("compare: {} cases, 0 differences", tally.cases());
    ExitCode::SUCCESS
}
