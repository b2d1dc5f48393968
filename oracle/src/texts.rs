//! What `lotstrip` prints, from the model, from the Rust and from the port's own
//! program, for random strips and for inputs of every length around the limits.

use std::env;
use std::io::Write;
use std::path::PathBuf;
use std::process::{Command, Stdio};

use crate::calls::{LOTSTRIP, lotstrip};
use crate::examples::strip_bytes;
use crate::generate::{Generator, MEDIUM, MIXES, Step};
use crate::model::Model;
use crate::rng::Rng;
use crate::rust_store::RustStore;
use crate::tally::{Difference, Tally, Thing};

pub fn compare(inputs: usize, seed: u64, tally: &mut Tally) -> Result<(), Difference> {
    let mut rng = Rng::new(seed);
    for _ in 0..inputs {
        let mut model =
            Model::fresh(LOTSTRIP.nodes.into(), LOTSTRIP.edges.into()).expect("within the limit");
        let count = rng.below(300);
        let mut generator = Generator {
            mix: rng.pick(&MIXES),
            rng: &mut rng,
            size: MEDIUM,
        };
        let mut operations = Vec::new();
        while operations.len() < count {
            if let Step::Operation(words) = generator.step(&model) {
                model.operation(words);
                operations.push(words);
            }
        }
        let mut input = strip_bytes(&operations);
        if rng.one_in(8) {
            input.truncate(rng.below(input.len() + 1));
        }
        compare_input(&input, tally)?;
    }
    // 3,276 operations are the most; up to 65,536 bytes more are no strip, then too
    // long.
    for length in [65_500, 65_519, 65_520, 65_521, 65_536, 65_537, 65_540] {
        let node = strip_bytes(&[[1, 0, 0, 7, 0]]);
        let input: Vec<u8> = node.into_iter().cycle().take(length).collect();
        compare_input(&input, tally)?;
    }
    Ok(())
}

fn compare_input(input: &[u8], tally: &mut Tally) -> Result<(), Difference> {
    let place = || format!("an input of {} bytes", input.len());
    let (expected, given) = (lotstrip::<Model>(input), lotstrip::<RustStore>(input));
    tally.same(Thing::Text, place, &expected, &given)?;
    match printed(input) {
        Some(text) => tally.same(Thing::PortText, place, given, text),
        None => Ok(()),
    }
}

/// What the port's program prints, where there is one.
fn printed(input: &[u8]) -> Option<String> {
    let program = PathBuf::from(env::var_os("ORACLE_PORT")?).join("lotstrip");
    let mut child = Command::new(program)
        .stdin(Stdio::piped())
        .stdout(Stdio::piped())
        .spawn()
        .expect("the script put the program there");
    // It reads no more than it needs, and prints after it has read.
    let _ = child.stdin.take().expect("piped").write_all(input);
    let output = child.wait_with_output().expect("a child that was started");
    Some(String::from_utf8_lossy(&output.stdout).into_owned())
}
