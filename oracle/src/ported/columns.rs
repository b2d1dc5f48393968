//! One direction of the port's words, read: where its columns stand, the lists
//! that they hold, and the rules of a checked store over them. The columns are
//! those of crate `shape`, `Columns.antt`; the rules are document 01's.

use crate::lots::Counts;
use crate::model::NONE;
use crate::shape::Part;

/// The first four hold a word an edge, the others a word a node, the last one
/// more.
#[derive(Clone, Copy)]
pub enum Column {
    Ends,
    Adjacency,
    Next,
    Link,
    Last,
    First,
    Tail,
    Count,
    Mark,
    Offsets,
}

/// The capacities, which fix where each column stands.
#[derive(Clone, Copy)]
pub struct Layout {
    pub edges: usize,
    pub nodes: usize,
}

impl Layout {
    pub const fn length(self) -> usize {
        4 * self.edges + 6 * self.nodes + 1
    }

    pub const fn at(self, column: Column, slot: usize) -> usize {
        let column = column as usize;
        match column < 4 {
            true => column * self.edges + slot,
            false => 4 * self.edges + (column - 4) * self.nodes + slot,
        }
    }
}

/// The words of one direction, as long as the capacities need.
#[derive(Clone, Copy)]
pub struct Columns<'w> {
    pub words: &'w [u32],
    pub layout: Layout,
}

impl Columns<'_> {
    pub fn word(&self, column: Column, slot: usize) -> u32 {
        self.words[self.layout.at(column, slot)]
    }

    // ---- lists

    /// The base part of a node, where rule 4 holds.
    fn base(&self, base_nodes: usize, node: usize) -> Vec<u32> {
        if node >= base_nodes {
            return Vec::new();
        }
        let [start, end] = [node, node + 1].map(|at| self.word(Column::Offsets, at) as usize);
        let places = start..end;
        places
            .map(|place| self.word(Column::Adjacency, place))
            .collect()
    }

    /// The entries of a node's run, up to the first that is no edge below the
    /// bound, and so many that none is left out that is met only once. Nothing
    /// where the node has no run.
    pub fn run(&self, node: usize, bound: usize) -> Option<Vec<u32>> {
        let [first, count, mark] =
            [Column::First, Column::Count, Column::Mark].map(|column| self.word(column, node));
        if mark == 0 {
            return None;
        }
        let mut entries = Vec::new();
        let mut entry = first;
        for _ in 0..(count as usize).min(2 * bound + 1) {
            entries.push(entry);
            if entry as usize >= bound {
                break;
            }
            entry = self.word(Column::Link, entry as usize);
        }
        Some(entries)
    }

    /// The ring's entries; nothing where they do not come to the last one, or
    /// leave the edges from `base` up to `bound`.
    fn ring(&self, node: usize, base: usize, bound: usize) -> Option<Vec<u32>> {
        let last = self.word(Column::Last, node);
        let mut entries = Vec::new();
        if last == NONE {
            return Some(entries);
        }
        let among = |edge: u32| (base..bound).contains(&(edge as usize));
        let mut entry = match among(last) {
            true => self.word(Column::Next, last as usize),
            false => return None,
        };
        for _ in base..bound {
            if !among(entry) {
                return None;
            }
            entries.push(entry);
            if entry == last {
                return Some(entries);
            }
            entry = self.word(Column::Next, entry as usize);
        }
        None
    }

    pub fn offsets(&self, base_nodes: usize) -> Vec<u32> {
        let nodes = 0..=base_nodes;
        nodes.map(|node| self.word(Column::Offsets, node)).collect()
    }

    /// Base part, run and ring of a node, where rules 4 and 5 hold.
    pub fn part(&self, counts: Counts, node: usize) -> Part {
        let Counts { nodes, edges } = counts;
        let bound = edges.bound as usize;
        let ring = self.ring(node, edges.base as usize, bound);
        Part {
            base: self.base(nodes.base as usize, node),
            run: self.run(node, bound),
            ring: ring.expect("rule 5 was tested"),
        }
    }

    // ---- rules

    /// "(4) index as in `check_index`, no index word being read where both base
    /// counts are 0": the offsets go from 0 to the base count and do not descend,
    /// and every entry is a base edge.
    pub fn index_holds(&self, counts: Counts) -> bool {
        let [nodes, edges] = [counts.nodes, counts.edges].map(|slots| slots.base as usize);
        if nodes == 0 && edges == 0 {
            return true;
        }
        let offsets = self.offsets(nodes);
        let below = |place| (self.word(Column::Adjacency, place) as usize) < edges;
        offsets[0] == 0
            && offsets.is_sorted()
            && offsets[nodes] as usize == edges
            && (0..edges).all(below)
    }

    /// "(5) rings as in `DeltaChains::check`": every node slot below the bound,
    /// removed or not, has a ring of its own edges that came since the base.
    pub fn rings_hold(&self, counts: Counts) -> bool {
        let [base, bound] = [counts.edges.base, counts.edges.bound].map(|count| count as usize);
        (0..counts.nodes.bound as usize).all(|node| {
            let own = |&edge: &u32| self.word(Column::Ends, edge as usize) == node as u32;
            self.ring(node, base, bound)
                .is_some_and(|entries| entries.iter().all(own))
        })
    }

    /// Of "(6) run entries below the edge bound, none twice in one direction,
    /// lengths true, no live edge in a removed node's run", what does not hold.
    pub fn runs_broken(&self, counts: Counts, live: [&dyn Fn(usize) -> bool; 2]) -> RunsBroken {
        let [live_node, live_edge] = live;
        let bound = counts.edges.bound as usize;
        let mut seen = vec![false; bound];
        let mut broken = RunsBroken::default();
        for node in 0..counts.nodes.bound as usize {
            let Some(entries) = self.run(node, bound) else {
                continue;
            };
            let [tail, count] = [Column::Tail, Column::Count].map(|column| self.word(column, node));
            broken.length |=
                entries.len() != count as usize || entries.last().is_some_and(|&last| last != tail);
            for edge in entries.into_iter().map(|edge| edge as usize) {
                if edge >= bound {
                    broken.entry = true;
                    continue;
                }
                broken.twice |= std::mem::replace(&mut seen[edge], true);
                broken.live |= !live_node(node) && live_edge(edge);
            }
        }
        broken
    }
}

/// What of rule 6 is broken in one direction or both.
#[derive(Debug, Clone, Copy, Default, PartialEq, Eq)]
pub struct RunsBroken {
    /// An entry is no edge below the bound.
    pub entry: bool,
    /// An edge is met twice.
    pub twice: bool,
    /// A live edge is in a removed node's run.
    pub live: bool,
    /// The entries are not as many as the count says, or the last one is not the
    /// tail.
    pub length: bool,
}

impl RunsBroken {
    pub const fn any(self) -> bool {
        self.entry || self.twice || self.live || self.length
    }
}
