//! Where the Rust panics, document 01 has a number: this part makes the Rust's
//! own calls without asking first, and holds each panic against the number that
//! `rust_store.rs` decides beforehand.

use std::panic::{self, AssertUnwindSafe};
use std::sync::atomic::{AtomicBool, Ordering};

use crate::compare::Trio;
use crate::generate::{Generator, MIXES, SHORT, Step};
use crate::graph::store::Graph;
use crate::model::{DIRECTIONS, NONE, Operation};
use crate::rng::Rng;
use crate::rust_store::{self, RustStore, edge, node, perform};
use crate::tally::{Difference, Tally, Thing};

/// Set while a panic is awaited, so that it is not printed.
static AWAITED: AtomicBool = AtomicBool::new(false);

/// Keeps awaited panics off the output; every other one is printed as usual.
pub fn hide_awaited() {
    let usual = panic::take_hook();
    panic::set_hook(Box::new(move |info| {
        if !AWAITED.load(Ordering::Relaxed) {
            usual(info);
        }
    }));
}

/// What `action` gives, or the text of its panic.
pub fn caught<T>(action: impl FnOnce() -> T) -> Result<T, String> {
    AWAITED.store(true, Ordering::Relaxed);
    let outcome = panic::catch_unwind(AssertUnwindSafe(action));
    AWAITED.store(false, Ordering::Relaxed);
    outcome.map_err(|panic| match panic.downcast::<String>() {
        Ok(text) => *text,
        Err(panic) => match panic.downcast::<&str>() {
            Ok(text) => (*text).to_string(),
            Err(_) => "a panic without text".to_string(),
        },
    })
}

/// How the Rust's panic begins at an operation that is refused; nothing where
/// the Rust does not refuse, which is so for numbers 10 and 16 too.
fn awaited_text(rust: &RustStore, operation: Operation) -> Option<&'static str> {
    let live = |slot| rust.graph.contains_node(node(slot));
    let number = rust.refusal(operation)?;
    match (operation, number) {
        (Operation::AddEdge { source, .. }, 5) if !live(source) => {
            Some("source node is out of range")
        }
        (Operation::AddEdge { source, .. }, 6) if !live(source) => {
            Some("source node has been removed")
        }
        (Operation::AddEdge { .. }, 5) => Some("target node is out of range"),
        (Operation::AddEdge { .. }, 6) => Some("target node has been removed"),
        (Operation::Redirect { .. }, 7 | 8) => Some("edge has been removed"),
        (Operation::Move { .. }, 9) => Some("adjacency cannot move onto its own node"),
        (Operation::Move { old, .. }, 5) if old as usize >= rust.graph.node_bound() => {
            Some("node identity is out of range")
        }
        (Operation::SetPayload { .. }, 7) => Some("index out of bounds"),
        (_, 5) => Some("replacement node is out of range"),
        (_, 6) => Some("replacement node has been removed"),
        _ => None,
    }
}

/// Makes the Rust's call and compares whether it panics, and how; a panic leaves
/// the store as it was.
fn compare_operation(
    rust: &RustStore,
    operation: Operation,
    tally: &mut Tally,
) -> Result<(), Difference> {
    let mut graph = rust.graph.clone();
    let outcome = caught(|| perform(&mut graph, operation)).err();
    let place = || format!("{operation:?}");
    let unchanged = outcome.is_none() || graph == rust.graph;
    let awaited = awaited_text(rust, operation);
    let text = cut(outcome.as_deref(), awaited);
    tally.same(Thing::Panic, place, (awaited, true), (text, unchanged))
}

/// The part of a panic's text that is awaited: some go on with numbers.
fn cut<'a>(text: Option<&'a str>, awaited: Option<&str>) -> Option<&'a str> {
    let length = awaited.map_or(usize::MAX, str::len);
    text.map(|text| text.get(..length).unwrap_or(text))
}

/// The reads at and above the bounds, and the live reading of removed edges.
fn compare_reads(graph: &Graph<u32, u32>, tally: &mut Tally) -> Result<(), Difference> {
    let bounds = [graph.node_bound(), graph.edge_bound()].map(|bound| bound as u32);
    let mut await_panic = |place: String, text: &str, action: &dyn Fn()| {
        let outcome = caught(action).err();
        let given = cut(outcome.as_deref(), Some(text));
        tally.same(Thing::Panic, || place, Some(text), given)
    };
    let outside = "index out of bounds";
    for slot in [bounds[0], NONE] {
        await_panic(format!("node {slot}"), outside, &|| {
            let _ = graph.node(node(slot));
        })?;
        for direction in DIRECTIONS {
            let place = || format!("{direction:?} of node {slot}");
            let text = "node identity is out of range";
            await_panic(place(), text, &|| {
                rust_store::walk(graph, direction, slot);
            })?;
            await_panic(place(), text, &|| {
                rust_store::neighbors(graph, direction, slot);
            })?;
            await_panic(place(), text, &|| {
                rust_store::degree(graph, direction, slot);
            })?;
        }
    }
    for slot in [bounds[1], NONE] {
        await_panic(format!("edge {slot}"), outside, &|| {
            rust_store::record(graph, slot);
        })?;
    }
    let removed = (0..bounds[1]).filter(|&slot| !graph.contains_edge(edge(slot)));
    for slot in removed.chain([bounds[1], NONE]) {
        await_panic(
            format!("live edge {slot}"),
            "edge has been removed",
            &|| {
                rust_store::live_record(graph, slot);
            },
        )?;
    }
    Ok(())
}

/// Short random sequences, with every operation made without asking first.
pub fn compare(sequences: usize, seed: u64, tally: &mut Tally) -> Result<(), Difference> {
    let mut rng = Rng::new(seed);
    for _ in 0..sequences {
        let mut trio = Trio::fresh(SHORT.capacities(&mut rng));
        let steps = SHORT.steps(&mut rng);
        let mix = rng.pick(&MIXES);
        let mut generator = Generator {
            rng: &mut rng,
            mix,
            size: SHORT,
        };
        for _ in 0..steps {
            let step = generator.step(&trio.model);
            // A low above its high, number 16, is nothing that the Rust can be given.
            if let Step::Operation(words) = step
                && let Some(operation) = Operation::decode(words)
                && trio.rust.refusal(operation) != Some(16)
            {
                compare_operation(&trio.rust, operation, tally)?;
            }
            trio.step(&step, tally)?;
        }
        compare_reads(&trio.rust.graph, tally)?;
    }
    Ok(())
}
