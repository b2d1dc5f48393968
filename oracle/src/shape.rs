//! What a store holds below its plain lists, as lists of edge numbers: for every
//! node and direction a base part, a run or none, and a ring, dead entries
//! included.
//!
//! This is the level between the store's words and the plain lists. Its rules
//! for redirecting and moving are those that the port is proved against. The port
//! is compared with it as it is, dead entries included. With what the Rust holds
//! it is compared, as the port is, after the dead entries of runs are struck from
//! both sides: the Rust keeps those of a run whose length is no power of two.

use crate::graph::store::Graph;
use crate::graph::traverse::TraversalDirection;
use crate::model::{DIRECTIONS, Operation, Plain};
use crate::rust_store::{edge, node, record};

/// One node in one direction.
#[derive(Debug, Clone, Default, PartialEq, Eq)]
pub struct Part {
    pub base: Vec<u32>,
    pub run: Option<Vec<u32>>,
    pub ring: Vec<u32>,
}

impl Part {
    /// What is read before the ring: a run hides the base, an empty one too.
    pub fn front(&self) -> &[u32] {
        self.run.as_deref().unwrap_or(&self.base)
    }

    /// "run contents are from now on matched after dead entries are struck from
    /// both sides."
    pub fn struck(mut self, live: impl Fn(u32) -> bool) -> Self {
        if let Some(run) = &mut self.run {
            run.retain(|&edge| live(edge));
        }
        self
    }

    /// What keeps the Rust from being the yardstick of a compaction, or nothing:
    /// it is one "wherever rings ascend and run entries precede the ring's in
    /// number". Base entries precede them in every store that passes the check.
    fn out_of_order(&self) -> Option<&'static str> {
        if !self.ring.is_sorted_by(|a, b| a < b) {
            return Some("a ring does not ascend");
        }
        match (self.front().iter().max(), self.ring.first()) {
            (Some(most), Some(least)) if most >= least => {
                Some("a run or base entry is not below the ring's")
            }
            _ => None,
        }
    }
}

#[derive(Debug, Clone, PartialEq, Eq)]
struct Side {
    ends: Vec<u32>,
    parts: Vec<Part>,
}

#[derive(Debug, Clone, PartialEq, Eq)]
pub struct Shape {
    base_counts: [usize; 2],
    live_nodes: Vec<bool>,
    live_edges: Vec<bool>,
    sides: [Side; 2],
}

/// The place of a direction where both are held, out first.
pub const fn side_of(direction: TraversalDirection) -> usize {
    match direction {
        TraversalDirection::Outgoing => 0,
        TraversalDirection::Incoming => 1,
    }
}

/// "`sweep` now drops dead slots at every edit of a run".
fn sweep(run: &mut Vec<u32>, live: &[bool]) {
    run.retain(|&edge| live[edge as usize]);
}

impl Side {
    /// The run that an edit of this node starts from: the one it has, else the
    /// live base, and the live entries of the ring, which is then empty.
    fn taken(&mut self, node: u32, live: &[bool]) -> Vec<u32> {
        let part = &mut self.parts[node as usize];
        let alive = |&edge: &u32| live[edge as usize];
        let mut run = match part.run.take() {
            Some(run) => run,
            None => part.base.iter().copied().filter(alive).collect(),
        };
        run.extend(part.ring.drain(..).filter(alive));
        run
    }

    fn redirect(&mut self, edge: u32, new: u32, live: &[bool]) {
        let old = std::mem::replace(&mut self.ends[edge as usize], new);
        if old == new {
            return;
        }
        let mut left = self.taken(old, live);
        sweep(&mut left, live);
        left.retain(|&entry| entry != edge);
        self.parts[old as usize].run = Some(left);
        self.append(new, &[edge], live);
    }

    fn shift(&mut self, old: u32, new: u32, live: &[bool]) {
        let mut moved = self.taken(old, live);
        sweep(&mut moved, live);
        self.parts[old as usize].run = Some(Vec::new());
        for &edge in &moved {
            self.ends[edge as usize] = new;
        }
        self.append(new, &moved, live);
    }

    fn append(&mut self, node: u32, arrivals: &[u32], live: &[bool]) {
        let mut run = self.taken(node, live);
        sweep(&mut run, live);
        run.extend(arrivals);
        self.parts[node as usize].run = Some(run);
    }
}

impl Shape {
    /// The shape that the Rust store has now.
    pub fn of(graph: &Graph<u32, u32>) -> Self {
        let nodes = 0..graph.node_bound() as u32;
        let edges = 0..graph.edge_bound() as u32;
        let side = |direction| Side {
            ends: edges
                .clone()
                .map(|slot| record(graph, slot)[side_of(direction)])
                .collect(),
            parts: graph.parts(direction),
        };
        Self {
            base_counts: graph.base_counts(),
            sides: DIRECTIONS.map(side),
            live_nodes: nodes.map(|slot| graph.contains_node(node(slot))).collect(),
            live_edges: edges
                .clone()
                .map(|slot| graph.contains_edge(edge(slot)))
                .collect(),
        }
    }

    /// An operation that was done, with a value: "Removing edits no run", "a move
    /// of an empty walk edits nothing".
    pub fn operation(&mut self, operation: Operation, value: u64) {
        match operation {
            Operation::AddNode { .. } => {
                self.live_nodes.push(true);
                for side in &mut self.sides {
                    side.parts.push(Part::default());
                }
            }
            Operation::AddEdge { source, target, .. } => {
                let edge = self.live_edges.len() as u32;
                self.live_edges.push(true);
                for (side, end) in self.sides.iter_mut().zip([source, target]) {
                    side.ends.push(end);
                    side.parts[end as usize].ring.push(edge);
                }
            }
            Operation::RemoveEdge { edge } if value == 1 => self.live_edges[edge as usize] = false,
            Operation::RemoveNode { node } if value == 1 => {
                for direction in DIRECTIONS {
                    for edge in self.walk(direction, node) {
                        self.live_edges[edge as usize] = false;
                    }
                }
                self.live_nodes[node as usize] = false;
            }
            Operation::Redirect {
                direction,
                edge,
                node,
            } => self.sides[side_of(direction)].redirect(edge, node, &self.live_edges),
            Operation::Move {
                direction,
                old,
                new,
            } if value > 0 => self.sides[side_of(direction)].shift(old, new, &self.live_edges),
            Operation::RemoveEdge { .. }
            | Operation::RemoveNode { .. }
            | Operation::Move { .. }
            | Operation::SetPayload { .. } => {}
        }
    }

    /// The live entries of run or base, then the ring's; a removed node's walk
    /// is empty.
    pub fn walk(&self, direction: TraversalDirection, node: u32) -> Vec<u32> {
        if !self.live_nodes[node as usize] {
            return Vec::new();
        }
        let part = &self.sides[side_of(direction)].parts[node as usize];
        let entries = part.front().iter().chain(&part.ring).copied();
        entries
            .filter(|&edge| self.live_edges[edge as usize])
            .collect()
    }

    #[cfg(ported)]
    pub fn part(&self, direction: TraversalDirection, node: usize) -> &Part {
        &self.sides[side_of(direction)].parts[node]
    }

    /// With the dead entries struck from every run.
    pub fn struck(&self) -> Self {
        let mut struck = self.clone();
        for part in struck.sides.iter_mut().flat_map(|side| &mut side.parts) {
            *part = std::mem::take(part).struck(|edge| self.live_edges[edge as usize]);
        }
        struck
    }

    /// Whether the Rust is the yardstick of this store's compaction.
    pub fn in_order(&self) -> bool {
        let mut parts = self.sides.iter().flat_map(|side| &side.parts);
        parts.all(|part| part.out_of_order().is_none())
    }

    /// The walk as the Rust's compaction takes it: in slot order where the run or
    /// base part ascends, dead entries read too. In a store that is in order it is
    /// the walk.
    pub fn rust_order(&self, direction: TraversalDirection, node: u32) -> Vec<u32> {
        let mut walk = self.walk(direction, node);
        let part = &self.sides[side_of(direction)].parts[node as usize];
        if part.front().is_sorted() {
            walk.sort_unstable();
        }
        walk
    }

    /// The shape after a compaction or an image reading that leaves these lists:
    /// all of it base.
    pub fn compacted(plain: &Plain) -> Self {
        let side = |direction| {
            let incidence = plain.incidence(direction);
            let part = |list: &Vec<u32>| Part {
                base: list.clone(),
                ..Part::default()
            };
            Side {
                ends: incidence.ends.clone(),
                parts: incidence.lists.iter().map(part).collect(),
            }
        };
        Self {
            base_counts: [plain.nodes.len(), plain.edges.len()],
            live_nodes: vec![true; plain.nodes.len()],
            live_edges: vec![true; plain.edges.len()],
            sides: DIRECTIONS.map(side),
        }
    }

    /// `is_compact` as the Rust decides it: all slots in the base and live, and
    /// no node with a run.
    pub fn is_compact(&self) -> bool {
        let parts = self.sides.iter().flat_map(|side| &side.parts);
        self.base_counts == [self.live_nodes.len(), self.live_edges.len()]
            && self
                .live_nodes
                .iter()
                .chain(&self.live_edges)
                .all(|&live| live)
            && parts.into_iter().all(|part| part.run.is_none())
    }

    /// The first broken property of a store that only fresh stores, images,
    /// operations and compactions led to, or nothing.
    pub fn not_reached(&self) -> Option<&'static str> {
        self.sides.iter().find_map(|side| {
            let edges = side.ends.len();
            let mut in_run = vec![false; edges];
            let mut in_ring = vec![false; edges];
            for (node, part) in side.parts.iter().enumerate() {
                if let Some(text) = part.out_of_order() {
                    return Some(text);
                }
                let mut entries = part.front().iter().chain(&part.ring);
                if entries.any(|&edge| side.ends[edge as usize] != node as u32) {
                    return Some("an entry's end is not its node");
                }
                let run = part.run.as_deref().unwrap_or_default();
                for (entries, seen) in [(run, &mut in_run), (&part.ring, &mut in_ring)] {
                    for &edge in entries {
                        if std::mem::replace(&mut seen[edge as usize], true) {
                            return Some("an edge is in two runs or two rings");
                        }
                    }
                }
            }
            let both = in_run.iter().zip(&in_ring).any(|(&run, &ring)| run && ring);
            both.then_some("an edge is in a run and a ring")
        })
    }
}
