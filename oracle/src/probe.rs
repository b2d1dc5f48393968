//! What the harness sees of the store's private fields, and what it puts there.
//!
//! `store.rs` declares `mod tests` under `cfg(test)`; this file is linked in its
//! place, so it is a child of `store`. The methods are visible in the whole
//! program. None of them changes what the Rust does.

#[cfg(feature = "serde")]
use std::time::{Duration, Instant};

use crate::graph::traverse::TraversalDirection;
use crate::shape::Part;

use super::adjacency::compress;
#[cfg(feature = "serde")]
use super::relocate::Encoded;
#[cfg(feature = "serde")]
use super::validate::Stored;
use super::{EdgeRecord, Graph, NodeId, Renumbering};

impl Graph<u32, u32> {
    /// Base part, run and ring of every node, removed edges and nodes included.
    pub(crate) fn parts(&self, direction: TraversalDirection) -> Vec<Part> {
        let (offsets, index) = match direction {
            TraversalDirection::Outgoing => (&self.out_offsets, &self.out_edges),
            TraversalDirection::Incoming => (&self.in_offsets, &self.in_edges),
        };
        let delta_base = self.base_edges.len() as u32;
        // `drain_into` empties the ring that it reads.
        let mut chains = self.chains.clone();
        let part = |node| {
            let base = match offsets.get(node..node + 2) {
                Some(range) => index[range[0] as usize..range[1] as usize].to_vec(),
                None => Vec::new(),
            };
            let run = self.overlay(node, direction).map(<[u32]>::to_vec);
            let mut ring = Vec::new();
            chains.drain_into(node, direction, delta_base, None, &mut ring);
            Part { base, run, ring }
        };
        (0..self.node_bound()).map(part).collect()
    }

    /// How many node and edge slots the compressed base holds.
    pub(crate) fn base_counts(&self) -> [usize; 2] {
        [self.base_nodes.len(), self.base_edges.len()]
    }

    /// Both index arrays, out then in: what the port leaves in the work slice.
    pub(crate) fn index(&self) -> Vec<u32> {
        [&*self.out_edges, &*self.in_edges].concat()
    }

    /// Offsets and joined lists of the compressed base, out then in.
    pub(crate) fn compressed_base(&self) -> [(&[u32], &[u32]); 2] {
        [
            (&self.out_offsets, &self.out_edges),
            (&self.in_offsets, &self.in_edges),
        ]
    }

    /// What `compress` makes of the base's edges: offsets and joined lists, each
    /// list in slot order.
    pub(crate) fn compress_again(&self, direction: TraversalDirection) -> (Vec<u32>, Vec<u32>) {
        compress(&self.base_edges, self.base_nodes.len(), direction)
    }

    /// What `validate.rs` makes of the columns of a written store, and how long it
    /// takes once they are decoded; then how long of that it takes to make the runs
    /// from the map that was decoded, measured by itself.
    #[cfg(feature = "serde")]
    pub(crate) fn judged(value: serde_json::Value) -> (Result<Self, &'static str>, [Duration; 2]) {
        let encoded: Result<Option<Encoded>, _> =
            serde_json::from_value(value["relocations"].clone());
        let encoded = encoded.expect("a store's runs can be decoded");
        let decoded: Result<Stored<u32, u32, _>, _> = serde_json::from_value(value);
        let stored = decoded.expect("a store's columns can be decoded");
        let began = Instant::now();
        let outcome = Self::try_from(stored);
        let whole = began.elapsed();
        let bounds = outcome
            .as_ref()
            .map_or((0, 0), |graph| (graph.node_bound(), graph.edge_bound()));
        let began = Instant::now();
        let runs = encoded.map(|encoded| encoded.into_relocations(bounds.0, bounds.1));
        let making = began.elapsed();
        drop(runs);
        (outcome, [whole, making])
    }

    /// A store whose compressed base holds these nodes, edges (source, target,
    /// payload) and lists, out then in. The Rust has no image reading; this
    /// stands for what it would leave.
    pub(crate) fn from_base(nodes: &[u32], edges: &[[u32; 3]], lists: [&[Vec<u32>]; 2]) -> Self {
        let record = |&[source, target, payload]: &[u32; 3]| {
            EdgeRecord::new(NodeId::from_raw(source), NodeId::from_raw(target), payload)
        };
        let mut graph = Self::new();
        graph.live_node_count = nodes.len();
        graph.live_edge_count = edges.len();
        graph.live_nodes.reset_all_live(nodes.len());
        graph.live_edges.reset_all_live(edges.len());
        graph.base_nodes = nodes.into();
        graph.base_edges = edges.iter().map(record).collect();
        let [out, into] = lists;
        (graph.out_offsets, graph.out_edges) = joined(out);
        (graph.in_offsets, graph.in_edges) = joined(into);
        graph
    }
}

/// Offsets and joined entries of lists, as a compressed index holds them.
fn joined(lists: &[Vec<u32>]) -> (Box<[u32]>, Box<[u32]>) {
    let lengths = lists.iter().map(|list| list.len() as u32);
    let ends = lengths.scan(0, |end, length| {
        *end += length;
        Some(*end)
    });
    (
        std::iter::once(0).chain(ends).collect(),
        lists.concat().into(),
    )
}

impl Renumbering {
    /// A renumbering of any two maps; the Rust makes them only by compaction.
    pub(crate) fn from_maps(nodes: &[u32], edges: &[u32]) -> Self {
        Self::new(nodes.to_vec(), edges.to_vec())
    }
}
