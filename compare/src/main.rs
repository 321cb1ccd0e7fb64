//! Compares the port, linked as a static library, with the unchanged Rust.

mod config;
mod control;
mod control_shapes;
mod ffi;
mod ram;
mod rand_state;
mod rng;
mod run;
mod set_shapes;
mod sets;
mod shapes;
mod vectors;

use run::{Difference, Outcome, Run};
use std::{env, path::Path, process::ExitCode};
use vectors::Vectors;

#[cfg(debug_assertions)]
compile_error!("the judge is a release build, whose sums wrap: build with --release");

const USAGE: &str = "compare [all|AREA] [--seed N] [--scale K]
compare vectors AREA DIR";

/// What is compared: an area, a part of it, and what runs the part. Each gives a line of the report.
const PARTS: &[(&str, &str, fn(&Run) -> Outcome)] = &[
    ("ram", "small", ram::small),
    ("ram", "random", ram::random),
    ("ram", "limit", ram::limit),
    ("config", "default", config::stock),
    ("config", "validate small", config::validate_small),
    ("config", "validate random", config::validate_random),
    ("config", "helpers", config::helpers),
    ("config", "cycles", config::cycles),
    ("config", "limits", config::limits),
    ("sets", "fresh", sets::fresh),
    ("sets", "from fresh", sets::from_fresh),
    ("sets", "from hand-made", sets::from_made),
    ("sets", "single", sets::single),
    ("sets", "refused", sets::refused),
];

/// The areas with fixed lists of the Rust's answers.
const VECTORS: &[(&str, fn() -> Vectors)] =
    &[("ram", vectors::ram), ("config", vectors::config), ("sets", vectors::sets), ("control", vectors::control)];

fn main() -> ExitCode {
    let args: Vec<String> = env::args().skip(1).collect();
    let args: Vec<&str> = args.iter().map(String::as_str).collect();
    let done = match args[..] {
        ["vectors", area, dir] => write_vectors(area, Path::new(dir)),
        _ => parsed(&args).map(|(area, run)| compare(area, &run)),
    };
    done.unwrap_or_else(|| {
        eprintln!("{USAGE}");
        ExitCode::from(2)
    })
}

/// The area and the numbers, or none if the words are not understood.
fn parsed<'a>(args: &[&'a str]) -> Option<(&'a str, Run)> {
    let (mut area, mut run) = ("all", Run { seed: 1, scale: 1 });
    let mut words = args.iter();
    while let Some(&word) = words.next() {
        match word {
            "--seed" => run.seed = words.next()?.parse().ok()?,
            "--scale" => run.scale = words.next()?.parse().ok().filter(|&k| k > 0)?,
            _ => area = word,
        }
    }
    let known = area == "all" || PARTS.iter().any(|part| part.0 == area);
    known.then_some((area, run))
}

fn compare(area: &str, run: &Run) -> ExitCode {
    println!("seed {}, scale {}", run.seed, run.scale);
    let mut total = 0;
    for (of, part, compared) in PARTS.iter().filter(|part| area == "all" || part.0 == area) {
        match compared(run) {
            Ok(cases) => {
                println!("{of} {part}: {cases} cases");
                total += cases;
            }
            Err(Difference(told)) => {
                println!("{of} {part}: {told}\ncompare: difference");
                return ExitCode::FAILURE;
            }
        }
    }
    println!("compare: {total} cases, 0 differences");
    ExitCode::SUCCESS
}

fn write_vectors(area: &str, dir: &Path) -> Option<ExitCode> {
    let (_, vectors) = VECTORS.iter().find(|row| row.0 == area)?;
    Some(match vectors().write(dir) {
        Ok(()) => ExitCode::SUCCESS,
        Err(e) => {
            eprintln!("{}: {e}", dir.display());
            ExitCode::FAILURE
        }
    })
}
