//! Ways to do the same, measured in turn.

use std::hint::black_box;
use std::time::Instant;

pub const SAMPLES: usize = 21;
const SAMPLE_SECONDS: f64 = 0.025;

/// One way to go through a stream once; gives a number to check it by.
pub type Pass<'a> = Box<dyn FnMut() -> u64 + 'a>;

/// Ways in the order of their names. The others are held against the first.
pub type Ways<'a, const N: usize> = [Pass<'a>; N];

/// Seconds for each pass, over `passes` of them.
fn time(pass: &mut Pass, passes: usize) -> f64 {
    let start = Instant::now();
    for _ in 0..passes {
        black_box(pass());
    }
    start.elapsed().as_secs_f64() / passes as f64
}

/// How many passes make a sample.
fn passes_in_sample(pass: &mut Pass) -> usize {
    let mut passes = 1;
    loop {
        let seconds = time(pass, passes) * passes as f64;
        if seconds >= SAMPLE_SECONDS {
            return passes;
        }
        let missing = (SAMPLE_SECONDS / seconds.max(1e-6)).clamp(1.2, 10.0);
        passes = (passes as f64 * missing).ceil() as usize;
    }
}

/// Median, smallest and largest.
fn spread(mut values: Vec<f64>) -> (f64, f64, f64) {
    values.sort_by(f64::total_cmp);
    (values[values.len() / 2], values[0], values[values.len() - 1])
}

/// What is measured: a title, and how many steps of what a pass does.
pub struct Row<'a> {
    pub title: &'a str,
    pub units: &'a str,
    pub steps: usize,
}

/// Measures the ways in turn, sample by sample, and prints their rows.
pub fn measure<const N: usize>(row: &Row, names: &[&str; N], mut ways: Ways<N>) {
    let Row { title, units, steps } = *row;
    let results = ways.each_mut().map(|pass| pass());
    assert!(results.iter().all(|&result| result == results[0]), "{title}: the ways differ");

    let passes = ways.each_mut().map(passes_in_sample);
    let mut seconds = [const { Vec::new() }; N];
    for _ in 0..SAMPLES {
        for way in 0..ways.len() {
            seconds[way].push(time(&mut ways[way], passes[way]) / steps as f64);
        }
    }
    println!("{title}, {units} a second:");
    for (name, samples) in names.iter().zip(&seconds) {
        let (median, ..) = spread(samples.clone());
        let ratios = samples.iter().zip(&seconds[0]).map(|(other, first)| other / first);
        let (ratio, smallest, largest) = spread(ratios.collect());
        let millions = 1e-6 / median;
        println!("  {name:<12} {millions:8.3} M   ratio {ratio:.2} ({smallest:.2}..{largest:.2})");
    }
}
