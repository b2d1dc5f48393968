//! Stores that go through `validate.rs`: written as the Rust writes them, some
//! of them changed on the way, and read again.
//!
//! Only here do stores come up that neither a fresh one nor an image led to.

use serde_json::{Value, from_value, json, to_value};

use crate::calls::Lots;
use crate::compare::Trio;
use crate::generate::{Generator, MIXES, SHORT};
use crate::graph::store::Graph;
use crate::graph::traverse::TraversalDirection::Outgoing;
use crate::model::{Capacities, DIRECTIONS};
#[cfg(ported)]
use crate::ported::book::compact_foreign;
#[cfg(ported)]
use crate::ported::{Ported, compacted_walk};
use crate::rng::Rng;
use crate::rust_store::{RustStore, edge, walk};
#[cfg(ported)]
use crate::sequences::Sides;
use crate::tally::{Difference, Tally, Thing};

type Store = Graph<u32, u32>;
type Same = Result<(), Difference>;

/// What `validate.rs` says where it refuses.
const BITS: &str = "the liveness bitsets disagree with the slots or the live counts";
const ENDS: &str = "an edge names a node the store does not hold";
const NO_INDEX: &str = "a store with a compressed base has no adjacency index";
const INDEX: &str = "the adjacency index does not describe the compressed base";
const ENTRY: &str = "the adjacency index names an edge outside the compressed base";
const CHAINS: &str = "the adjacency chains do not match the nodes and delta edges";
const OUTSIDE: &str = "an adjacency chain ends outside the delta edges";
const RING: &str = "an adjacency chain is not a ring of the node's own edges";
const OWNER: &str = "an overlay run belongs to a node the store does not hold";
const NAMED: &str = "an overlay run names an edge the store does not hold";
const LEAVES: &str = "a node lists an edge that does not leave it, or lists it twice";
const ENTERS: &str = "a node lists an edge that does not enter it, or lists it twice";
const MISSING: &str = "a live edge is missing from its endpoints' adjacency";

/// The rule of document 01 that a refusal speaks of.
pub fn rule_of(text: &str) -> Option<u32> {
    match text {
        BITS => Some(2),
        ENDS => Some(3),
        NO_INDEX | INDEX | ENTRY => Some(4),
        CHAINS | OUTSIDE | RING => Some(5),
        OWNER | NAMED => Some(6),
        LEAVES | ENTERS | MISSING => Some(7),
        _ => None,
    }
}

pub fn written(graph: &Store) -> Value {
    to_value(graph).expect("a store can be written")
}

/// The store, or the text of the rule that it breaks.
pub fn read(value: Value) -> Result<Store, String> {
    from_value(value).map_err(|error| error.to_string())
}

/// Puts `new` at a pointer such as `/chains/last/0`, where there may be nothing.
fn put(value: &mut Value, pointer: &str, new: Value) {
    let (holder, key) = pointer.rsplit_once('/').expect("a pointer has a slash");
    match value
        .pointer_mut(holder)
        .expect("the pointer names a place")
    {
        Value::Array(entries) => entries[key.parse::<usize>().expect("an index")] = new,
        Value::Object(fields) => drop(fields.insert(key.to_string(), new)),
        other => panic!("{other} has no parts"),
    }
}

/// Links a node's ring in this order; `chain` is 0 for outgoing and 1 for incoming.
pub fn put_ring(value: &mut Value, chain: usize, node: usize, ring: &[u32], base_edges: u32) {
    for (at, edge) in ring.iter().enumerate() {
        let following = ring[(at + 1) % ring.len()];
        let link = &mut value["chains"]["next"][(edge - base_edges) as usize][chain];
        *link = json!(following - base_edges);
    }
    if let Some(last) = ring.last() {
        value["chains"]["last"][node][chain] = json!(last - base_edges);
    }
}

fn perform(rust: &mut RustStore, operations: &[[u32; 5]]) {
    for &words in operations {
        rust.operation(words);
    }
}

/// Two base nodes with two parallel edges, then a third node with an edge to it
/// and one back.
fn sample() -> Store {
    let mut rust = RustStore::fresh(Capacities { nodes: 3, edges: 4 });
    let node = [1, 0, 0, 7, 0];
    perform(&mut rust, &[node, node, [2, 0, 1, 5, 5], [2, 0, 1, 5, 5]]);
    rust.graph.compact();
    perform(&mut rust, &[node, [2, 0, 2, 5, 5], [2, 2, 0, 5, 5]]);
    rust.graph
}

/// The rule of document 01 that a changed sample breaks; what the Rust says of it,
/// nothing where it accepts the store, because rule 6 is added; the changes.
type Broken = (u32, Option<&'static str>, Vec<(&'static str, Value)>);

fn broken_samples() -> Vec<Broken> {
    let outgoing = |runs: Value| ("/relocations", json!({"outgoing": runs, "incoming": {}}));
    let incoming = |runs: Value| ("/relocations", json!({"outgoing": {}, "incoming": runs}));
    let edge_0_removed = [
        ("/live_edges/words/0", json!(14)),
        ("/live_edge_count", json!(3)),
    ];
    let node_1_removed = [
        ("/live_nodes/words/0", json!(5)),
        ("/live_node_count", json!(2)),
    ];

    vec![
        (2, Some(BITS), vec![("/live_node_count", json!(2))]),
        (2, Some(BITS), vec![("/live_edges/words/0", json!(31))]),
        (2, Some(BITS), vec![("/live_nodes/len", json!(2))]),
        (3, Some(ENDS), vec![("/delta_edges/0/target", json!(3))]),
        (4, Some(NO_INDEX), vec![("/out_offsets", json!([]))]),
        (4, Some(INDEX), vec![("/out_offsets/1", json!(3))]),
        (4, Some(INDEX), vec![("/in_offsets/0", json!(1))]),
        (4, Some(ENTRY), vec![("/in_edges/0", json!(2))]),
        (5, Some(CHAINS), vec![("/chains/next", json!([[0, 0]]))]),
        (5, Some(OUTSIDE), vec![("/chains/last/0/0", json!(5))]),
        (5, Some(RING), vec![("/chains/next/0/0", json!(1))]),
        (6, Some(OWNER), vec![outgoing(json!({"3": []}))]),
        (6, Some(NAMED), vec![incoming(json!({"0": [4]}))]),
        (
            6,
            None,
            [&[outgoing(json!({"0": [0, 1, 0]}))], &edge_0_removed[..]].concat(),
        ),
        (
            6,
            None,
            [
                &[
                    ("/base_edges/0/target", json!(0)),
                    ("/base_edges/1/target", json!(0)),
                ][..],
                &[incoming(json!({"0": [0, 1], "1": [0]}))],
                &node_1_removed,
            ]
            .concat(),
        ),
        (
            7,
            Some(LEAVES),
            vec![outgoing(json!({"0": [0, 1], "1": [0]}))],
        ),
        (7, Some(LEAVES), vec![outgoing(json!({"0": [0, 1, 0]}))]),
        (
            7,
            Some(ENTERS),
            vec![incoming(json!({"0": [0], "1": [0, 1]}))],
        ),
        (7, Some(MISSING), vec![outgoing(json!({"0": []}))]),
        (7, Some(MISSING), node_1_removed.to_vec()),
    ]
}

fn compare_broken(tally: &mut Tally) -> Same {
    for (rule, text, changes) in broken_samples() {
        let mut value = written(&sample());
        let place = || format!("rule {rule}, changes {changes:?}");
        for (pointer, new) in &changes {
            put(&mut value, pointer, new.clone());
        }
        let outcome = read(value).err();
        tally.same(Thing::Check, place, text, outcome.as_deref())?;
        if let Some(text) = text {
            tally.same(Thing::Check, place, Some(rule), rule_of(text))?;
        }
    }
    Ok(())
}

/// A store of the same plain lists but for the order in rings: rings in any
/// order, dead edges put into runs, and dead base entries exchanged. It passes
/// the check, rule 6 included.
fn rearranged(graph: &Store, rng: &mut Rng) -> Value {
    let mut value = written(graph);
    let base_edges = graph.base_counts()[1] as u32;
    let bound = graph.edge_bound() as u32;
    let dead = |limit: u32| -> Vec<u32> {
        (0..limit)
            .filter(|&slot| !graph.contains_edge(edge(slot)))
            .collect()
    };
    let names = [("outgoing", "out_edges"), ("incoming", "in_edges")];
    for (chain, (direction, (runs, index))) in DIRECTIONS.into_iter().zip(names).enumerate() {
        let mut unused = dead(bound);
        rng.shuffle(&mut unused);
        let parts = graph.parts(direction);
        unused.retain(|edge| {
            !parts
                .iter()
                .flat_map(|part| &part.run)
                .flatten()
                .any(|e| e == edge)
        });
        for (node, part) in parts.into_iter().enumerate() {
            let mut ring = part.ring;
            rng.shuffle(&mut ring);
            put_ring(&mut value, chain, node, &ring, base_edges);
            if let Some(mut run) = part.run {
                for edge in unused.split_off(unused.len() / 2) {
                    run.insert(rng.below(run.len() + 1), edge);
                }
                value["relocations"][runs][node.to_string()] = json!(run);
            }
        }
        let dead_base = dead(base_edges);
        for entry in value[index].as_array_mut().expect("an index is an array") {
            let slot = entry.as_u64().expect("an entry is a number") as u32;
            if dead_base.contains(&slot) {
                *entry = json!(rng.pick(&dead_base));
            }
        }
    }
    value
}

/// Goes on with a store from elsewhere, comparing everything. Whether the Rust is
/// the yardstick of its last compaction, and whether the Rust changes a walk then.
fn compare_foreign(
    rust: &RustStore,
    rng: &mut Rng,
    tally: &mut Tally,
) -> Result<[bool; 2], Difference> {
    let value = rearranged(&rust.graph, rng);
    let place = || format!("a rearranged store, {value}");
    let graph = match read(value.clone()) {
        Ok(graph) => graph,
        Err(text) => {
            tally.same(Thing::Check, place, "accepted", text)?;
            return Ok([true, false]);
        }
    };
    let mut trio = Trio::foreign(RustStore {
        graph,
        capacities: rust.capacities,
    });
    #[cfg(ported)]
    let mut ported = Ported::foreign(trio.model.clone(), trio.rust.clone());
    #[cfg(ported)]
    ported.compare_everything(tally)?;
    let mut generator = Generator {
        mix: rng.pick(&MIXES),
        rng,
        size: SHORT,
    };
    for _ in 0..6 {
        trio.compare_everything(tally)?;
        let step = generator.step(&trio.model);
        trio.step(&step, tally)?;
        #[cfg(ported)]
        ported.compare_step(&step, true, tally)?;
    }
    trio.compare_everything(tally)?;
    let in_order = trio.in_order();
    let reordered = trio.in_rust_order() != trio.model.plain;
    #[cfg(ported)]
    compact_foreign(trio.rust.clone(), rng, tally)?;
    trio.compact(tally)?;
    trio.compare_everything(tally)?;
    Ok([in_order, reordered])
}

/// The smallest stores whose walk the Rust's compaction puts in slot order and the
/// port's keeps: no base part and the ring 1, 0; and the base part [0, 0], both
/// dead, with the ring 3, 2.
fn compare_smallest_reordered(tally: &mut Tally) -> Same {
    let looped = [2, 0, 0, 5, 5];
    let mut rust = RustStore::fresh(Capacities { nodes: 1, edges: 4 });
    perform(&mut rust, &[[1, 0, 0, 7, 0], looped, looped]);
    let ring_turned = ("/chains/last/0", json!([0, 0]));
    compare_reordered(&rust, std::slice::from_ref(&ring_turned), &[1, 0], tally)?;

    rust.graph.compact();
    perform(
        &mut rust,
        &[[3, 0, 0, 0, 0], [3, 1, 0, 0, 0], looped, looped],
    );
    let twice = [
        ("/out_edges", json!([0, 0])),
        ("/in_edges", json!([0, 0])),
        ring_turned,
    ];
    compare_reordered(&rust, &twice, &[3, 2], tally)
}

/// The changed store passes the check, has this walk, and after compaction the
/// walk 0, 1 in the Rust; in the port 1, 0, as before.
fn compare_reordered(
    rust: &RustStore,
    changes: &[(&str, Value)],
    walked: &[u32],
    tally: &mut Tally,
) -> Same {
    let mut value = written(&rust.graph);
    for (pointer, new) in changes {
        put(&mut value, pointer, new.clone());
    }
    let place = || format!("one node, ring {walked:?}");
    let mut graph = match read(value) {
        Ok(graph) => graph,
        Err(text) => return tally.same(Thing::Check, place, "accepted", text),
    };
    #[cfg(ported)]
    {
        let rust = RustStore {
            graph: graph.clone(),
            capacities: rust.capacities,
        };
        let kept = compacted_walk(&rust);
        tally.same(Thing::BookForeignModel, place, vec![1, 0], kept)?;
    }
    let before = walk(&graph, Outgoing, 0);
    graph.compact();
    let after = walk(&graph, Outgoing, 0);
    tally.same(
        Thing::Check,
        place,
        [walked, &[0, 1]],
        [&before[..], &after[..]],
    )
}

/// Short random sequences: after every step the store is written, read again and
/// compared with itself; now and then a rearranged one goes on.
pub fn compare(sequences: usize, seed: u64, tally: &mut Tally) -> Same {
    compare_broken(tally)?;
    compare_smallest_reordered(tally)?;
    let mut rng = Rng::new(seed);
    let (mut foreign, mut by_rust, mut in_slot_order) = (0, 0, 0);
    for _ in 0..sequences {
        let mut trio = Trio::fresh(SHORT.capacities(&mut rng));
        let mix = rng.pick(&MIXES);
        for _ in 0..SHORT.steps(&mut rng) {
            let mut generator = Generator {
                mix,
                rng: &mut rng,
                size: SHORT,
            };
            let step = generator.step(&trio.model);
            trio.step(&step, tally)?;
            let graph = &trio.rust.graph;
            let place = || "a store written and read".to_string();
            tally.same(
                Thing::Check,
                place,
                Ok(graph),
                read(written(graph)).as_ref(),
            )?;
            if rng.one_in(4) {
                foreign += 1;
                let [in_order, reordered] = compare_foreign(&trio.rust, &mut rng, tally)?;
                by_rust += u64::from(in_order);
                in_slot_order += u64::from(reordered);
            }
        }
    }
    println!(
        "stores from elsewhere: {foreign}; the Rust is the yardstick of {by_rust} and the model of {}, \
         of which the Rust's compaction puts a list of {in_slot_order} in slot order",
        foreign - by_rust
    );
    Ok(())
}
