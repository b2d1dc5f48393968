//! The Rust store under document 01's operations: five words in, number and
//! value out. Its payload of an edge is one word, which stands for low and high:
//! "Oracle runs use low equal to high." (request 8).
//!
//! Where the Rust panics, document 01 has a number. It is decided beforehand by
//! asking the store's own public reads; no panic is caught here (`panics.rs`
//! shows that the Rust panics exactly at these refusals).

use crate::calls::Lots;
use crate::graph::edge_view::EdgeView;
use crate::graph::store::{EdgeId, Graph, NodeId, Renumbering};
use crate::graph::traverse::{self, TraversalDirection};
use crate::image;
use crate::model::{Answer, Capacities, EdgePayload, Incidence, NONE, Operation, Plain, Slot};
#[cfg(ported)]
use crate::shape::Shape;

pub const fn node(slot: u32) -> NodeId {
    NodeId::from_raw(slot)
}

pub const fn edge(slot: u32) -> EdgeId {
    EdgeId::from_raw(slot)
}

#[derive(Clone)]
pub struct RustStore {
    pub graph: Graph<u32, u32>,
    /// The Rust grows without end; the capacities are the port's.
    pub capacities: Capacities,
}

impl RustStore {
    pub fn operation(&mut self, words: [u32; 5]) -> Answer {
        let Some(operation) = Operation::decode(words) else {
            return Answer::refused(4);
        };
        match self.refusal(operation) {
            Some(number) => Answer::refused(number),
            None => Answer::done(u64::from(perform(&mut self.graph, operation))),
        }
    }

    /// The number of the first refusal, in the order in which the Rust asserts;
    /// the Rust has one assertion for 7 and 8, and none for 10 and 16.
    pub fn refusal(&self, operation: Operation) -> Option<u32> {
        let graph = &self.graph;
        match operation {
            Operation::AddEdge { payload, .. } | Operation::SetPayload { payload, .. }
                if payload.inverted() =>
            {
                Some(16)
            }
            Operation::AddNode { .. } => full(graph.node_bound(), self.capacities.nodes),
            Operation::AddEdge { source, target, .. } => self
                .no_live_node(source)
                .or_else(|| self.no_live_node(target))
                .or_else(|| full(graph.edge_bound(), self.capacities.edges)),
            Operation::RemoveEdge { .. } | Operation::RemoveNode { .. } => None,
            Operation::Redirect {
                edge: slot, node, ..
            } => self
                .no_edge(slot)
                .or_else(|| (!graph.contains_edge(edge(slot))).then_some(8))
                .or_else(|| self.no_live_node(node)),
            Operation::Move { old, new, .. } if old == new => Some(9),
            Operation::Move {
                direction,
                old,
                new,
            } => self.no_node(old).or_else(|| {
                let something_to_move = degree(graph, direction, old) > 0;
                something_to_move.then(|| self.no_live_node(new)).flatten()
            }),
            Operation::SetPayload { edge, .. } => self.no_edge(edge),
        }
    }

    fn no_node(&self, slot: u32) -> Option<u32> {
        (slot as usize >= self.graph.node_bound()).then_some(5)
    }

    fn no_live_node(&self, slot: u32) -> Option<u32> {
        self.no_node(slot)
            .or_else(|| (!self.graph.contains_node(node(slot))).then_some(6))
    }

    fn no_edge(&self, slot: u32) -> Option<u32> {
        (slot as usize >= self.graph.edge_bound()).then_some(7)
    }

    /// Everything that the public reads tell, in the model's form.
    pub fn plain(&self) -> Plain {
        let graph = &self.graph;
        let nodes = 0..graph.node_bound() as u32;
        let edges = 0..graph.edge_bound() as u32;
        let incidence = |direction, place: usize| Incidence {
            ends: edges
                .clone()
                .map(|slot| record(graph, slot)[place])
                .collect(),
            lists: nodes
                .clone()
                .map(|slot| walk(graph, direction, slot))
                .collect(),
        };
        let node_slot = |slot| Slot {
            payload: *graph.node(node(slot)),
            live: graph.contains_node(node(slot)),
        };
        let edge_slot = |slot| {
            let [_, _, low, high] = record(graph, slot);
            Slot {
                payload: EdgePayload { low, high },
                live: graph.contains_edge(edge(slot)),
            }
        };
        Plain {
            outgoing: incidence(TraversalDirection::Outgoing, 0),
            incoming: incidence(TraversalDirection::Incoming, 1),
            nodes: nodes.clone().map(node_slot).collect(),
            edges: edges.clone().map(edge_slot).collect(),
        }
    }

    /// Compacts. Where the Rust is no yardstick, the lists that are kept take the
    /// place of its own; whether it is one.
    #[cfg(ported)]
    pub fn compact_as(&mut self, kept: &Plain) -> (Renumbering, bool) {
        let in_order = Shape::of(&self.graph).in_order();
        let renumbering = self.graph.compact();
        if !in_order {
            self.put(kept);
        }
        (renumbering, in_order)
    }

    /// Puts the nodes, edges and lists of an image in place of all.
    pub fn put(&mut self, plain: &Plain) {
        let payloads: Vec<u32> = plain.nodes.iter().map(|node| node.payload).collect();
        let records = (0..).map_while(|edge| plain.record(edge));
        let records: Vec<[u32; 3]> = records
            .map(|[source, target, low, high]| [source, target, one_word(low, high)])
            .collect();
        let lists = [&*plain.outgoing.lists, &*plain.incoming.lists];
        self.graph = Graph::from_base(&payloads, &records, lists);
    }
}

impl Lots for RustStore {
    fn fresh(capacities: Capacities) -> Self {
        Self {
            graph: Graph::new(),
            capacities,
        }
    }

    fn operation(&mut self, words: [u32; 5]) -> Answer {
        Self::operation(self, words)
    }

    fn walk(&self, direction: TraversalDirection, slot: u32) -> Option<Vec<u32>> {
        let known = self.no_node(slot).is_none();
        known.then(|| walk(&self.graph, direction, slot))
    }

    fn payload(&self, slot: u32) -> Option<u32> {
        let known = self.no_node(slot).is_none();
        known.then(|| *self.graph.node(node(slot)))
    }

    fn record(&self, slot: u32) -> Option<([u32; 4], bool)> {
        let known = self.no_edge(slot).is_none();
        known.then(|| {
            (
                record(&self.graph, slot),
                self.graph.contains_edge(edge(slot)),
            )
        })
    }

    fn degree(&self, direction: TraversalDirection, slot: u32) -> u32 {
        degree(&self.graph, direction, slot)
    }

    fn neighbors(&self, direction: TraversalDirection, slot: u32) -> Vec<u32> {
        neighbors(&self.graph, direction, slot)
    }

    fn nearest(&self, first: u32, second: u32) -> Option<Vec<u32>> {
        nearest(&self.graph, first, second)
    }

    fn contains_node(&self, slot: u32) -> bool {
        self.graph.contains_node(node(slot))
    }

    fn contains_edge(&self, slot: u32) -> bool {
        self.graph.contains_edge(edge(slot))
    }

    fn live_nodes(&self) -> Vec<u32> {
        self.graph.node_ids().map(NodeId::raw).collect()
    }

    fn live_edges(&self) -> Vec<u32> {
        self.graph.edge_ids().map(EdgeId::raw).collect()
    }

    fn counts(&self) -> [usize; 2] {
        [self.graph.node_count(), self.graph.edge_count()]
    }

    fn bounds(&self) -> [usize; 2] {
        [self.graph.node_bound(), self.graph.edge_bound()]
    }

    fn is_empty(&self) -> bool {
        self.graph.is_empty()
    }

    fn is_compact(&self) -> bool {
        self.graph.is_compact()
    }

    fn compaction(&mut self) -> [Vec<u32>; 3] {
        let [nodes, edges] = maps(&self.graph.compact());
        [nodes, edges, self.graph.index()]
    }

    fn image(&self) -> Vec<u8> {
        image::of(&self.plain())
    }
}

/// The Rust's own call for an operation, with the value it gives; panics where
/// the Rust does.
pub fn perform(graph: &mut Graph<u32, u32>, operation: Operation) -> u32 {
    match operation {
        Operation::AddNode { payload } => graph.add_node(payload).raw(),
        Operation::AddEdge {
            source,
            target,
            payload,
        } => {
            let payload = one_word(payload.low, payload.high);
            graph.add_edge(node(source), node(target), payload).raw()
        }
        Operation::RemoveEdge { edge: slot } => u32::from(graph.remove_edge(edge(slot))),
        Operation::RemoveNode { node: slot } => u32::from(graph.remove_node(node(slot))),
        Operation::Redirect {
            direction,
            edge: slot,
            node: end,
        } => match direction {
            TraversalDirection::Outgoing => graph.redirect_edge_source(edge(slot), node(end)),
            TraversalDirection::Incoming => graph.redirect_edge_target(edge(slot), node(end)),
        }
        .raw(),
        Operation::Move {
            direction,
            old,
            new,
        } => {
            // `move_adjacency` returns nothing: what moves is the old degree.
            // Out of range it panics by itself.
            let in_range = (old as usize) < graph.node_bound();
            let moved = in_range.then(|| degree(graph, direction, old));
            graph.move_adjacency(node(old), node(new), direction);
            moved.unwrap_or_default()
        }
        Operation::SetPayload {
            edge: slot,
            payload,
        } => {
            *graph.edge_mut(edge(slot)).payload_mut() = one_word(payload.low, payload.high);
            0
        }
    }
}

fn full(bound: usize, capacity: u32) -> Option<u32> {
    (bound == capacity as usize).then_some(10)
}

/// The Rust's payload of an edge with these weights.
fn one_word(low: u32, high: u32) -> u32 {
    assert_eq!(low, high, "the Rust holds one word: ranges are the model's");
    low
}

/// Source, target, low and high by `Graph::edge`, which answers for removed edges
/// too.
pub fn record(graph: &Graph<u32, u32>, slot: u32) -> [u32; 4] {
    let record = graph.edge(edge(slot));
    let [source, target] = [record.source(), record.target()].map(NodeId::raw);
    let weight = *record.payload();
    [source, target, weight, weight]
}

/// The payloads of all nodes and of all edges, removed ones too.
#[cfg(all(ported, feature = "serde"))]
pub fn payloads(graph: &Graph<u32, u32>) -> [Vec<u32>; 2] {
    let nodes = 0..graph.node_bound() as u32;
    let edges = 0..graph.edge_bound() as u32;
    [
        nodes.map(|slot| *graph.node(node(slot))).collect(),
        edges.map(|slot| record(graph, slot)[2]).collect(),
    ]
}

/// The same by `EdgeView::edge`, which panics for removed edges.
pub fn live_record(graph: &Graph<u32, u32>, slot: u32) -> [u32; 4] {
    let record = EdgeView::edge(graph, edge(slot));
    let [source, target] = [record.source(), record.target()].map(NodeId::raw);
    let weight = *record.data();
    [source, target, weight, weight]
}

pub fn edges_of(
    graph: &Graph<u32, u32>,
    direction: TraversalDirection,
    slot: u32,
) -> impl Iterator<Item = u32> {
    match direction {
        TraversalDirection::Outgoing => graph.outgoing(node(slot)),
        TraversalDirection::Incoming => graph.incoming(node(slot)),
    }
    .map(EdgeId::raw)
}

pub fn walk(graph: &Graph<u32, u32>, direction: TraversalDirection, slot: u32) -> Vec<u32> {
    edges_of(graph, direction, slot).collect()
}

pub fn neighbors(graph: &Graph<u32, u32>, direction: TraversalDirection, slot: u32) -> Vec<u32> {
    match direction {
        TraversalDirection::Outgoing => graph.successors(node(slot)).map(NodeId::raw).collect(),
        TraversalDirection::Incoming => graph.predecessors(node(slot)).map(NodeId::raw).collect(),
    }
}

pub fn degree(graph: &Graph<u32, u32>, direction: TraversalDirection, slot: u32) -> u32 {
    let degree = match direction {
        TraversalDirection::Outgoing => graph.out_degree(node(slot)),
        TraversalDirection::Incoming => graph.in_degree(node(slot)),
    };
    degree as u32
}

/// The Rust's `shortest_path`, which gives nodes, by the first edge of the out-list
/// from each to the next. It takes up nodes in the order of the lists, so that it
/// comes to each by the chain that goes before all others of its length.
pub fn nearest(graph: &Graph<u32, u32>, first: u32, second: u32) -> Option<Vec<u32>> {
    let direction = TraversalDirection::Outgoing;
    let path = traverse::shortest_path(graph, node(first), node(second), direction)?;
    let edge = |pair: &[NodeId]| {
        let [from, to] = [pair[0], pair[1]].map(NodeId::raw);
        let mut edges = edges_of(graph, direction, from);
        let found = edges.find(|&slot| record(graph, slot)[1] == to);
        found.expect("a step of the path is an edge")
    };
    Some(path.windows(2).map(edge).collect())
}

/// The public lookups of an old node and of an old edge.
pub const LOOKUPS: [fn(&Renumbering, u32) -> u32; 2] = [
    |renumbering, old| renumbering.node(node(old)).map_or(NONE, NodeId::raw),
    |renumbering, old| renumbering.edge(edge(old)).map_or(NONE, EdgeId::raw),
];

/// Node map and edge map of a compaction, read through the public lookups.
pub fn maps(renumbering: &Renumbering) -> [Vec<u32>; 2] {
    let [node, edge] = LOOKUPS;
    let map = |lookup: fn(&Renumbering, u32) -> u32, bound| {
        let old = 0..bound as u32;
        old.map(|old| lookup(renumbering, old)).collect()
    };
    [
        map(node, renumbering.node_bound()),
        map(edge, renumbering.edge_bound()),
    ]
}
