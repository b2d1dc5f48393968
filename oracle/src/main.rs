//! The oracle: the unchanged Rust store and a model of document 01's plain
//! lists, driven by the same operations and compared.

mod calls;
mod chains;
#[cfg(feature = "serde")]
mod checked;
mod compare;
mod examples;
mod generate;
mod image;
mod joining;
mod maps;
mod model;
mod pairs;
mod panics;
#[cfg(ported)]
mod ported;
mod record;
mod rng;
mod rust_store;
mod sequences;
mod shape;
mod tally;
mod texts;

// The wrapper, here because the oracle reads the memory of a lot book.
#[path = "stand_in/block.rs"]
mod block;
#[path = "stand_in/cfg.rs"]
mod cfg;
#[cfg(ported)]
#[path = "../../wrapper/src/lib.rs"]
#[allow(dead_code)]
mod lots;
// The unchanged Rust files, laid out by build.rs: `mod graph`.
include!(concat!(env!("OUT_DIR"), "/graph.rs"));

use std::path::PathBuf;
use std::process::ExitCode;
use std::{env, fs};

use compare::Trio;
use tally::{Difference, Tally};

const USAGE: &str = "usage: oracle/run [--operations N] [--seed S] [--depth D] [--record DIR | --benchmark | --scale]";

struct Options {
    /// How many operations the random sequences make, at the least.
    operations: u64,
    seed: u64,
    /// Up to which length all sequences are made.
    depth: usize,
    /// Where to write recorded sequences, in place of comparing.
    record: Option<PathBuf>,
    /// Times the port's check and the Rust's, in place of comparing.
    benchmark: bool,
    /// Compares lot books alone, on ten million operations unless told otherwise.
    scale: bool,
}

fn options() -> Result<Options, String> {
    let mut options = Options {
        operations: 400_000,
        seed: 1,
        depth: 4,
        record: None,
        benchmark: false,
        scale: false,
    };
    let mut arguments = env::args().skip(1);
    while let Some(name) = arguments.next() {
        if name == "--benchmark" {
            options.benchmark = true;
            continue;
        }
        if name == "--scale" {
            options.scale = true;
            options.operations = 10_000_000;
            continue;
        }
        let value = arguments.next().ok_or(USAGE)?;
        let number = || value.parse::<u64>().map_err(|_| USAGE);
        match name.as_str() {
            "--operations" => options.operations = number()?,
            "--seed" => options.seed = number()?,
            "--depth" => options.depth = number()? as usize,
            "--record" => options.record = Some(PathBuf::from(value)),
            _ => return Err(USAGE.to_string()),
        }
    }
    Ok(options)
}

fn main() -> ExitCode {
    panics::hide_awaited();
    let outcome = options().and_then(|options| match &options.record {
        Some(directory) => write_recorded(directory, options.seed),
        None if options.benchmark => benchmark(options.seed),
        None => Ok(compare(&options)),
    });
    match outcome {
        Ok(true) => ExitCode::SUCCESS,
        Ok(false) => ExitCode::FAILURE,
        Err(text) => {
            eprintln!("{text}");
            ExitCode::from(2)
        }
    }
}

fn write_recorded(directory: &PathBuf, seed: u64) -> Result<bool, String> {
    let files = record::files(seed, &mut Tally::new()).map_err(|found| found.to_string())?;
    fs::create_dir_all(directory).map_err(|error| error.to_string())?;
    for (name, text) in files {
        let path = directory.join(name);
        fs::write(&path, &text).map_err(|error| error.to_string())?;
        println!("{}: {} bytes", path.display(), text.len());
    }
    Ok(true)
}

/// Makes every comparison; whether nothing differed.
fn compare(options: &Options) -> bool {
    let &Options {
        operations,
        seed,
        depth,
        ..
    } = options;
    println!("seed {seed}");
    let mut tally = Tally::new();
    if options.scale {
        if let Err(difference) = compare_books(operations, seed, &mut tally) {
            tally.report(&difference);
        }
        return told(&tally);
    }
    sequences::compare_random::<Trio>(operations, seed, &mut tally);
    sequences::compare_exhaustive::<Trio>(depth, &mut tally);

    type Part = fn(&Options, &mut Tally) -> Result<(), Difference>;
    let parts: [Part; 8] = [
        compare_ported,
        |_, tally| examples::compare(tally),
        |options, tally| texts::compare(200, options.seed, tally),
        |options, tally| maps::compare(20_000, options.seed, tally),
        |options, tally| pairs::compare(2_000, options.seed, tally),
        |options, tally| panics::compare(1_000, options.seed, tally),
        |options, tally| compare_checked(1_000, options.seed, tally),
        |_, tally| record::compare(tally),
    ];
    for part in parts {
        if let Err(difference) = part(options, &mut tally) {
            tally.report(&difference);
        }
    }
    told(&tally)
}

/// Prints what was compared; whether nothing differed.
fn told(tally: &Tally) -> bool {
    println!("{tally}");
    println!(
        "{} compared, {} different",
        tally.compared(),
        tally.differences
    );
    tally.differences == 0
}

#[cfg(all(ported, feature = "serde"))]
use ported::compare_books;

#[cfg(not(all(ported, feature = "serde")))]
fn compare_books(_: u64, _: u64, _: &mut Tally) -> Result<(), Difference> {
    panic!("lot books need the proved code and validate.rs")
}

#[cfg(feature = "serde")]
use checked::compare as compare_checked;

#[cfg(not(feature = "serde"))]
fn compare_checked(_: usize, _: u64, _: &mut Tally) -> Result<(), Difference> {
    println!("validate.rs is not compiled: built without Debian's packages of serde");
    Ok(())
}

/// The proved code makes as many random operations, and all sequences of one step
/// less.
#[cfg(ported)]
fn compare_ported(options: &Options, tally: &mut Tally) -> Result<(), Difference> {
    let depth = options.depth.saturating_sub(1);
    ported::compare(options.operations, depth, options.seed, tally)
}

#[cfg(not(ported))]
fn compare_ported(_: &Options, _: &mut Tally) -> Result<(), Difference> {
    println!("the port is not compared: built without the static libraries of the proved code");
    Ok(())
}

#[cfg(all(ported, feature = "serde"))]
fn benchmark(seed: u64) -> Result<bool, String> {
    if cfg!(debug_assertions) {
        return Err("the benchmark needs a build without debug assertions".to_string());
    }
    ported::benchmark::run(seed);
    Ok(true)
}

#[cfg(not(all(ported, feature = "serde")))]
fn benchmark(_: u64) -> Result<bool, String> {
    Err("the benchmark needs the proved code and validate.rs".to_string())
}
