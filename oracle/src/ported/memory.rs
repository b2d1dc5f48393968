//! Memory for the port: of a fresh store, over words that hold anything, and of a
//! store that was made elsewhere.

#[cfg(feature = "serde")]
use super::columns::{Column, Layout};
use super::words::Words;
use crate::lots::{Counts, Device, Slots};
use crate::model::{Answer, Capacities};
#[cfg(feature = "serde")]
use crate::model::{DIRECTIONS, NONE};
use crate::rng::Rng;
#[cfg(feature = "serde")]
use crate::rust_store::{RustStore, edge, node, payloads, record};
#[cfg(feature = "serde")]
use crate::shape::side_of;

/// An empty store over words that hold anything.
pub fn fresh(Capacities { nodes, edges }: Capacities) -> Words {
    let mut rng = Rng::new(u64::from(nodes) << 32 | u64::from(edges));
    let mut memory = Words::zeros(nodes as usize, edges as usize);
    let Words {
        nodes,
        lows,
        highs,
        live_nodes,
        live_edges,
        axes: [outgoing, incoming],
        ..
    } = &mut memory;
    for slice in [nodes, lows, highs, outgoing, incoming] {
        slice.fill_with(|| rng.word());
    }
    for slice in [live_nodes, live_edges] {
        slice.fill_with(|| rng.draw());
    }
    let mut any = || Slots {
        bound: rng.word(),
        base: rng.word(),
        live: rng.word(),
    };
    memory.counts = Counts {
        nodes: any(),
        edges: any(),
    };
    assert_eq!(
        memory.make_fresh(Device::Box),
        Answer::done(0),
        "the memory is long enough"
    );
    memory
}

/// The words of a store that was made elsewhere: slots, base parts, runs and rings
/// are put there from the Rust's. No call makes most of these stores.
#[cfg(feature = "serde")]
pub fn of(rust: &RustStore) -> Words {
    let graph = &rust.graph;
    let mut memory = fresh(rust.capacities);
    let layout = memory.layout();
    let (nodes, edges) = (graph.node_bound() as u32, graph.edge_bound() as u32);
    let [base_nodes, base_edges] = graph.base_counts();
    let live = (0..nodes).map(|slot| graph.contains_node(node(slot)));
    memory.counts.nodes = put_live(&mut memory.live_nodes, base_nodes, live);
    let live = (0..edges).map(|slot| graph.contains_edge(edge(slot)));
    memory.counts.edges = put_live(&mut memory.live_edges, base_edges, live);
    let bases = graph.compressed_base();
    for ((direction, words), base) in DIRECTIONS.into_iter().zip(&mut memory.axes).zip(bases) {
        let mut side = Side { words, layout };
        side.put_base(base);
        for edge in 0..edges {
            side.put(Column::Ends, edge, record(graph, edge)[side_of(direction)]);
        }
        for (node, part) in (0..).zip(graph.parts(direction)) {
            side.put_ring(node, &part.ring);
            side.put_run(node, part.run.as_deref());
        }
    }
    let [of_nodes, of_edges] = payloads(graph);
    let Words {
        nodes, lows, highs, ..
    } = &mut memory;
    for (slots, payloads) in [(nodes, &of_nodes), (lows, &of_edges), (highs, &of_edges)] {
        slots[..payloads.len()].copy_from_slice(payloads);
    }
    memory
}

/// Puts slots in place, so many of them base; the bits above them stay 0.
#[cfg(feature = "serde")]
fn put_live(words: &mut [u64], base: usize, live: impl Iterator<Item = bool>) -> Slots {
    let mut slots = Slots {
        base: base as u32,
        ..Slots::default()
    };
    for (slot, live) in live.enumerate() {
        let (word, bit) = (slot / 64, slot % 64);
        let below = words[word] & ((1 << bit) - 1);
        words[word] = below | u64::from(live) << bit;
        slots.bound += 1;
        slots.live += u32::from(live);
    }
    slots
}

/// One direction, written.
#[cfg(feature = "serde")]
struct Side<'m> {
    words: &'m mut [u32],
    layout: Layout,
}

#[cfg(feature = "serde")]
impl Side<'_> {
    fn put(&mut self, column: Column, slot: u32, word: u32) {
        self.words[self.layout.at(column, slot as usize)] = word;
    }

    /// Offsets and joined lists of the base.
    fn put_base(&mut self, (offsets, joined): (&[u32], &[u32])) {
        for (column, words) in [(Column::Offsets, offsets), (Column::Adjacency, joined)] {
            let at = self.layout.at(column, 0);
            self.words[at..at + words.len()].copy_from_slice(words);
        }
    }

    /// A node's ring, in any order.
    fn put_ring(&mut self, node: u32, entries: &[u32]) {
        self.put(Column::Last, node, entries.last().copied().unwrap_or(NONE));
        let following = entries.iter().cycle().skip(1);
        for (&edge, &next) in entries.iter().zip(following) {
            self.put(Column::Next, edge, next);
        }
    }

    /// A node's run, by any mark but 0, or none. Words that say nothing stay: the
    /// link of the last entry, and first and tail of an empty run.
    fn put_run(&mut self, node: u32, run: Option<&[u32]>) {
        let Some(entries) = run else {
            return self.put(Column::Mark, node, 0);
        };
        self.put(Column::Count, node, entries.len() as u32);
        self.put(Column::Mark, node, 1 + node);
        if let (Some(&first), Some(&tail)) = (entries.first(), entries.last()) {
            self.put(Column::First, node, first);
            self.put(Column::Tail, node, tail);
        }
        for pair in entries.windows(2) {
            self.put(Column::Link, pair[0], pair[1]);
        }
    }
}
