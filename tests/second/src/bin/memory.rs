//! The comparisons with what is lent to the library in blocks of its own, for a
//! tool that notices an access beside a block, or between pages without access.
//! `tests/memory.sh` runs it.

use std::env;
use std::process::ExitCode;

use second::apart::Apart;
use second::block::Placement;
use second::memory::{Calls, Library, Second};
use second::misuse::{self, Misuse, MISUSES};
use second::register_comparison::RegisterComparison;
use second::{bus_comparison, comparison};

const USAGE: &str = "\
usage: memory [--lent heap|end|front] [--seed S] [--calls N]
       memory [--lent heap|end|front] [--second] --misuse NAME
NAME: read-past, read-before, write-past, write-const";

struct Options {
    placement: Placement,
    seed: u64,
    calls: u64,
    misuse: Option<Misuse>,
    /// The second bus is misused in the library's place.
    second: bool,
}

impl Options {
    fn parse(mut args: impl Iterator<Item = String>) -> Option<Options> {
        let placement = Placement::Heap;
        let mut options =
            Options { placement, seed: 11_898, calls: 200_000, misuse: None, second: false };
        while let Some(option) = args.next() {
            match option.as_str() {
                "--lent" => options.placement = named(&Placement::ALL, &args.next()?)?,
                "--seed" => options.seed = args.next()?.parse().ok()?,
                "--calls" => options.calls = args.next()?.parse().ok()?,
                "--misuse" => options.misuse = Some(named(&MISUSES, &args.next()?)?),
                "--second" => options.second = true,
                _ => return None,
            }
        }
        Some(options)
    }
}

fn named<T: Copy>(table: &[(&str, T)], name: &str) -> Option<T> {
    table.iter().find(|(other, _)| *other == name).map(|&(_, value)| value)
}

/// Compares codecs, registers and buses, with as many calls each.
fn compare(options: &Options) -> Result<(), String> {
    let &Options { placement, seed, calls, .. } = options;
    let codec = Apart { side: comparison::Library, placement };
    let mut codecs = comparison::Comparison::new(codec, comparison::Second);
    codecs.run(seed, calls).map_err(|difference| difference.to_string())?;
    println!("memory: {} cases of the codec, 0 differences", codecs.tally.cases());

    let mut registers = RegisterComparison::new(Box::new(Apart { side: Library, placement }));
    registers.run(seed, calls).map_err(|difference| difference.to_string())?;
    println!("memory: {} calls of the register, 0 differences", registers.calls());

    let sides: Vec<(_, Box<dyn Calls>)> = vec![
        ("second bus", Box::new(Second)),
        ("library", Box::new(Apart { side: Library, placement })),
    ];
    let register = Box::new(Apart { side: Library, placement });
    let mut buses = bus_comparison::Comparison::new(sides, register);
    buses.run(seed, calls).map_err(|difference| difference.to_string())?;
    println!("memory: {} calls of the bus, 0 differences", buses.tally.calls());
    Ok(())
}

fn main() -> ExitCode {
    let Some(options) = Options::parse(env::args().skip(1)) else {
        eprintln!("{USAGE}");
        return ExitCode::from(2);
    };
    if let Some(misuse) = options.misuse {
        if options.second {
            misuse::play(Second, misuse, options.placement);
        } else {
            misuse::play(Library, misuse, options.placement);
        }
        println!("memory: the misuse was not noticed");
        return ExitCode::SUCCESS;
    }
    if let Err(difference) = compare(&options) {
        println!("{difference}");
        println!("memory: seed {}", options.seed);
        return ExitCode::FAILURE;
    }
    ExitCode::SUCCESS
}
