//! Compares the proved library's register with the second one on drawn calls.

use std::env;
use std::process::ExitCode;
use std::time::Instant;

use second::memory::Library;
use second::register_comparison::RegisterComparison;
use second::register_plants::plants;

const USAGE: &str = "usage: registers [--seed S] [--calls N]";

struct Options {
    seed: u64,
    calls: u64,
}

impl Options {
    fn parse(mut args: impl Iterator<Item = String>) -> Option<Options> {
        let mut options = Options { seed: 11_898, calls: 400_000 };
        while let Some(option) = args.next() {
            let value = args.next()?.parse().ok()?;
            match option.as_str() {
                "--seed" => options.seed = value,
                "--calls" => options.calls = value,
                _ => return None,
            }
        }
        Some(options)
    }
}

/// Calls in which a wrong register has to be found.
const SELF_CHECK_CALLS: u64 = 100_000;

/// Compares the second register with each wrong one; says whether every wrong
/// one was found.
fn self_check(seed: u64) -> bool {
    let mut all = true;
    for (name, plant) in plants() {
        let mut comparison = RegisterComparison::new(Box::new(plant));
        let found = comparison.run(seed, SELF_CHECK_CALLS).is_err();
        let verdict = if found { "found after" } else { "not found in" };
        println!("self-check: {name}: {verdict} {} calls", comparison.calls());
        all &= found;
    }
    all
}

fn main() -> ExitCode {
    let Some(options) = Options::parse(env::args().skip(1)) else {
        eprintln!("{USAGE}");
        return ExitCode::from(2);
    };
    let start = Instant::now();
    if !self_check(options.seed) {
        println!("registers: the comparison does not find what it should");
        return ExitCode::FAILURE;
    }
    let mut comparison = RegisterComparison::new(Box::new(Library));
    if let Err(difference) = comparison.run(options.seed, options.calls) {
        println!("{difference}");
        println!("registers: seed {}, call {}", options.seed, comparison.calls());
        return ExitCode::FAILURE;
    }
    print!("{comparison}");
    println!("compared: second register, library");
    println!("seed {}, {:.1} s", options.seed, start.elapsed().as_secs_f64());
    let missing: Vec<String> = comparison.missing().collect();
    if !missing.is_empty() {
        println!("registers: never came up: {}", missing.join("; "));
        return ExitCode::FAILURE;
    }
    println!("registers: {} calls, 0 differences", comparison.calls());
    ExitCode::SUCCESS
}
