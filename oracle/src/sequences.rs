//! Runs of random and of exhaustive sequences, and the search for the smallest
//! sequence that still shows a difference.

use std::fmt::{self, Write};

use crate::calls::hexadecimal;
use crate::generate::{Generator, LONG, MEDIUM, MIXES, SHORT, Size, Step};
use crate::model::{Capacities, Model};
use crate::panics::caught;
use crate::rng::Rng;
use crate::tally::{Difference, Tally, Thing};

pub type Same = Result<(), Difference>;

/// What is compared side by side: every step is made on all sides.
pub trait Sides: Clone {
    /// How the output calls the sequences.
    const NAME: &str;

    fn fresh(capacities: Capacities) -> Self;

    /// What steps are chosen by.
    fn model(&self) -> &Model;

    /// Makes a step and compares everything, or what the step touched.
    fn compare_step(&mut self, step: &Step, everything: bool, tally: &mut Tally) -> Same;
}

/// A sequence that shows a difference, none of whose steps can be dropped.
pub struct Finding {
    capacities: Capacities,
    steps: Vec<Step>,
    difference: Difference,
}

impl fmt::Display for Finding {
    fn fmt(&self, formatter: &mut fmt::Formatter<'_>) -> fmt::Result {
        let Capacities { nodes, edges } = self.capacities;
        let mut text = String::new();
        for step in &self.steps {
            match step {
                Step::Operation(words) => write!(text, " {words:?}"),
                Step::Compact => write!(text, " compact"),
                Step::Read(bytes) => write!(text, " read {}", hexadecimal(bytes)),
            }?;
        }
        write!(
            formatter,
            "{}\n  smallest input, capacities {nodes} and {edges}:{text}",
            self.difference
        )
    }
}

/// Makes the steps; compares everything after every so many and what a step
/// touched in between.
fn replay<S: Sides>(
    capacities: Capacities,
    steps: &[Step],
    every: usize,
    tally: &mut Tally,
) -> Same {
    guarded(|| {
        let mut sides = S::fresh(capacities);
        for (made, step) in (1..).zip(steps) {
            sides.compare_step(step, made % every == 0, tally)?;
        }
        Ok(())
    })
}

/// A panic of the Rust where none is awaited is a difference too.
pub fn guarded(action: impl FnOnce() -> Same) -> Same {
    caught(action).unwrap_or_else(|text| {
        let place = || "in the middle of a step".to_string();
        Tally::new().same(Thing::Panic, place, "no panic", text)
    })
}

/// Drops steps, from front to back, while a difference stays: half of them at a
/// time, then a quarter and so on, then single ones until none can be dropped.
fn shrink<S: Sides>(capacities: Capacities, mut steps: Vec<Step>, first: Difference) -> Finding {
    let mut difference = first;
    let mut together = steps.len().div_ceil(2);
    loop {
        let before = steps.len();
        let mut at = 0;
        while at < steps.len() {
            let end = steps.len().min(at + together);
            let fewer = [&steps[..at], &steps[end..]].concat();
            // Comparing everything after each step of a long sequence takes
            // too long, and finds a difference only a little sooner.
            let every = if fewer.len() > 500 { LONG.every } else { 1 };
            match replay::<S>(capacities, &fewer, every, &mut Tally::new()) {
                Err(still) => (steps, difference) = (fewer, still),
                Ok(()) => at = end,
            }
        }
        if together == 1 && steps.len() == before {
            break;
        }
        together = together.div_ceil(2);
    }
    Finding {
        capacities,
        steps,
        difference,
    }
}

/// Random sequences of one size until they have made so many operations.
fn random<S: Sides>(size: Size, operations: u64, rng: &mut Rng, tally: &mut Tally) {
    let before = tally.operations();
    let mut sequences = 0;
    while tally.operations() - before < operations {
        sequences += 1;
        let capacities = size.capacities(rng);
        let count = size.steps(rng);
        let mut generator = Generator {
            mix: rng.pick(&MIXES),
            rng,
            size,
        };
        let mut steps = Vec::new();
        let outcome = guarded(|| {
            let mut sides = S::fresh(capacities);
            for made in 1..=count {
                let step = generator.step(sides.model());
                steps.push(step.clone());
                sides.compare_step(&step, made % size.every == 0, tally)?;
            }
            Ok(())
        });
        if let Err(difference) = outcome {
            tally.report(&shrink::<S>(capacities, steps, difference));
            return;
        }
    }
    println!(
        "{} {}: {sequences} with {} operations; compared after every step: {}",
        size.name,
        S::NAME,
        tally.operations() - before,
        match size.every {
            1 => "everything".to_string(),
            every => format!("what it touched, and everything after every {every}"),
        }
    );
}

/// Random sequences: four tenths of the operations in short ones, three tenths
/// each in medium and long ones.
pub fn compare_random<S: Sides>(operations: u64, seed: u64, tally: &mut Tally) {
    let mut rng = Rng::new(seed);
    for (size, tenths) in [(SHORT, 4), (MEDIUM, 3), (LONG, 3)] {
        random::<S>(size, operations * tenths / 10, &mut rng, tally);
    }
}

/// All steps over two nodes and so many edges, a few refused ones among them.
fn all_steps(edges: u32) -> Vec<Step> {
    let mut words = vec![[1, 0, 0, 7, 0], [9, 0, 0, 8, 8], [9, 0, 0, 8, 7]];
    for a in 0..2 {
        words.push([4, a, 0, 0, 0]);
        for b in 0..2 {
            words.push([2, a, b, 5, 5]);
            words.extend([[7, a, b, 0, 0], [8, a, b, 0, 0]]);
        }
    }
    for edge in 0..edges {
        words.push([3, edge, 0, 0, 0]);
        for node in 0..2 {
            words.extend([[5, edge, node, 0, 0], [6, edge, node, 0, 0]]);
        }
    }
    let operations = words.into_iter().map(Step::Operation);
    operations.chain([Step::Compact]).collect()
}

/// Every sequence of up to `depth` steps from four stores: the empty one, and
/// two nodes with three parallel edges as added, as compacted, and as compacted
/// with the first edge redirected there and back.
pub fn compare_exhaustive<S: Sides>(depth: usize, tally: &mut Tally) {
    let capacities = Capacities { nodes: 2, edges: 4 };
    let operation = |words| Step::Operation(words);
    let added: Vec<Step> = [[1, 0, 0, 1, 0], [1, 0, 0, 2, 0]]
        .into_iter()
        .chain([[2, 0, 1, 3, 3]; 3])
        .map(operation)
        .collect();
    let back = [operation([5, 0, 1, 0, 0]), operation([5, 0, 0, 0, 0])];
    let compacted = [&added[..], &[Step::Compact]].concat();
    let starts = [
        (Vec::new(), 2),
        (added.clone(), 3),
        (compacted.clone(), 3),
        ([&compacted[..], &back].concat(), 3),
    ];
    let before = tally.operations();
    for (start, edges) in starts {
        let mut made = start.clone();
        let outcome = guarded(|| {
            let mut sides = S::fresh(capacities);
            for step in &start {
                sides.compare_step(step, true, tally)?;
            }
            let steps = all_steps(edges);
            descend(&sides, &steps, depth, &mut made, tally)
        });
        if let Err(difference) = outcome {
            tally.report(&shrink::<S>(capacities, made, difference));
            return;
        }
    }
    println!(
        "exhaustive {}: all of up to {depth} steps from four stores, {} operations; \
         compared after every step: everything",
        S::NAME,
        tally.operations() - before
    );
}

fn descend<S: Sides>(
    from: &S,
    steps: &[Step],
    depth: usize,
    made: &mut Vec<Step>,
    tally: &mut Tally,
) -> Same {
    if depth == 0 {
        return Ok(());
    }
    for step in steps {
        let mut sides = from.clone();
        made.push(step.clone());
        sides.compare_step(step, true, tally)?;
        descend(&sides, steps, depth - 1, made, tally)?;
        made.pop();
    }
    Ok(())
}
