//! Document 01's plain lists, held in plain vectors: the second, independent
//! statement of what a store is. Written from document 01 and not from the
//! Rust; the quotations are its sentences.
//!
//! Lengths of the store's own lent words are not spoken of here: they are the
//! port's, not the plain lists'.

use crate::chains::Lists;
use crate::graph::traverse::TraversalDirection;

/// "NONE = 4,294,967,295 for 'none'".
pub const NONE: u32 = 4_294_967_295;

/// "The capacities are … at most 32,768 each."
pub const LIMIT: u64 = 32_768;

pub const DIRECTIONS: [TraversalDirection; 2] =
    [TraversalDirection::Outgoing, TraversalDirection::Incoming];

/// "Each operation leaves two words in the answer slice: number and value." A
/// call's own value is wider, so that it can name any length. Laid out as `Answer`
/// of crate `plain`.
#[repr(C)]
#[derive(Debug, Clone, Copy, PartialEq, Eq)]
pub struct Answer {
    pub number: u32,
    pub value: u64,
}

impl Answer {
    pub const fn done(value: u64) -> Self {
        Self { number: 0, value }
    }

    /// Numbers 4 to 10, 14 and 16 have the value NONE.
    pub const fn refused(number: u32) -> Self {
        Self {
            number,
            value: NONE as u64,
        }
    }

    /// "a lent slice too short | 2 | length needed".
    pub const fn too_short(needed: usize) -> Self {
        Self {
            number: 2,
            value: needed as u64,
        }
    }
}

/// Request 8: "A transfer's payload becomes low and high, `u32` each".
#[derive(Debug, Clone, Copy, PartialEq, Eq)]
pub struct EdgePayload {
    pub low: u32,
    pub high: u32,
}

impl EdgePayload {
    /// "a low above its high"
    pub const fn inverted(self) -> bool {
        self.high < self.low
    }
}

/// An operation as its five words say it; "the port has an operation that
/// carries its `TraversalDirection`".
#[derive(Debug, Clone, Copy, PartialEq, Eq)]
pub enum Operation {
    AddNode {
        payload: u32,
    },
    AddEdge {
        source: u32,
        target: u32,
        payload: EdgePayload,
    },
    RemoveEdge {
        edge: u32,
    },
    RemoveNode {
        node: u32,
    },
    Redirect {
        direction: TraversalDirection,
        edge: u32,
        node: u32,
    },
    Move {
        direction: TraversalDirection,
        old: u32,
        new: u32,
    },
    SetPayload {
        edge: u32,
        payload: EdgePayload,
    },
}

impl Operation {
    /// "Strips take five words an operation (code, first, second, low, high; both
    /// last are node payload and 0 for code 1)". "Unused words are 0." Nothing for
    /// an unknown code or an unused word that is not 0.
    pub fn decode([code, first, second, low, high]: [u32; 5]) -> Option<Self> {
        use TraversalDirection::{Incoming, Outgoing};
        let redirect = |direction| Self::Redirect {
            direction,
            edge: first,
            node: second,
        };
        let shift = |direction| Self::Move {
            direction,
            old: first,
            new: second,
        };
        let payload = EdgePayload { low, high };
        let (operation, unused) = match code {
            1 => (Self::AddNode { payload: low }, first | second | high),
            2 => {
                let (source, target) = (first, second);
                let operation = Self::AddEdge {
                    source,
                    target,
                    payload,
                };
                (operation, 0)
            }
            3 => (Self::RemoveEdge { edge: first }, second | low | high),
            4 => (Self::RemoveNode { node: first }, second | low | high),
            5 => (redirect(Outgoing), low | high),
            6 => (redirect(Incoming), low | high),
            7 => (shift(Outgoing), low | high),
            8 => (shift(Incoming), low | high),
            9 => {
                let edge = first;
                (Self::SetPayload { edge, payload }, second)
            }
            _ => return None,
        };
        (unused == 0).then_some(operation)
    }
}

/// "A slot is a number given by the store; it is live until removed."
#[derive(Debug, Clone, Copy, PartialEq, Eq)]
pub struct Slot<Payload> {
    pub payload: Payload,
    pub live: bool,
}

/// One direction: the end of every edge there, and every node's list.
#[derive(Debug, Clone, Default, PartialEq, Eq)]
pub struct Incidence {
    pub ends: Vec<u32>,
    pub lists: Vec<Vec<u32>>,
}

impl Incidence {
    /// "Adding an edge appends it to its source's out-list and target's in-list."
    fn add(&mut self, edge: u32, end: u32) {
        self.ends.push(end);
        self.lists[end as usize].push(edge);
    }

    /// "Removing an edge deletes it from both. … Removed edges keep their last
    /// ends."
    fn remove(&mut self, edge: u32) {
        let end = self.ends[edge as usize];
        self.lists[end as usize].retain(|&entry| entry != edge);
    }

    /// "Redirecting deletes the edge from the old end's list and appends it at
    /// the new end's; the same end changes nothing." The value is the "previous
    /// end".
    fn redirect(&mut self, edge: u32, node: u32) -> u32 {
        let previous = self.ends[edge as usize];
        if previous != node {
            self.remove(edge);
            self.ends[edge as usize] = node;
            self.lists[node as usize].push(edge);
        }
        previous
    }

    /// "Moving appends the old node's list, in order, to the new node's, leaves
    /// the old one empty and makes the new node that end of each edge moved."
    /// The value is "edges moved".
    fn shift(&mut self, old: u32, new: u32) -> u32 {
        let moved = std::mem::take(&mut self.lists[old as usize]);
        for &edge in &moved {
            self.ends[edge as usize] = new;
        }
        self.lists[new as usize].extend(&moved);
        moved.len() as u32
    }
}

/// The plain lists: what document 01 says a store holds, and nothing else.
#[derive(Debug, Clone, Default, PartialEq, Eq)]
pub struct Plain {
    pub nodes: Vec<Slot<u32>>,
    pub edges: Vec<Slot<EdgePayload>>,
    pub outgoing: Incidence,
    pub incoming: Incidence,
}

/// What compaction leaves in the maps and the work slice, and the lists after.
#[derive(Debug, Clone, PartialEq, Eq)]
pub struct Compaction {
    pub node_map: Vec<u32>,
    pub edge_map: Vec<u32>,
    pub work: Vec<u32>,
    pub plain: Plain,
}

/// Payloads of live nodes; ends by rank and payload of live edges; both lists
/// of each live node by rank. Two stores with equal survivors have one image.
#[derive(Debug, Clone, PartialEq, Eq)]
pub struct Survivors {
    nodes: Vec<u32>,
    edges: Vec<(u32, u32, EdgePayload)>,
    lists: Vec<[Vec<u32>; 2]>,
}

impl Plain {
    pub fn incidence(&self, direction: TraversalDirection) -> &Incidence {
        match direction {
            TraversalDirection::Outgoing => &self.outgoing,
            TraversalDirection::Incoming => &self.incoming,
        }
    }

    fn incidence_mut(&mut self, direction: TraversalDirection) -> &mut Incidence {
        match direction {
            TraversalDirection::Outgoing => &mut self.outgoing,
            TraversalDirection::Incoming => &mut self.incoming,
        }
    }

    /// "A walk is the list, a degree its length"; nothing at or above the bound.
    pub fn walk(&self, direction: TraversalDirection, node: u32) -> Option<&[u32]> {
        let list = self.incidence(direction).lists.get(node as usize)?;
        Some(list)
    }

    /// What chains of live edges go along.
    pub fn chains(&self) -> Lists<'_> {
        Lists {
            out: &self.outgoing.lists,
            targets: &self.incoming.ends,
        }
    }

    /// The nodes at the other ends of a walk.
    pub fn neighbors(&self, direction: TraversalDirection, node: u32) -> Option<Vec<u32>> {
        let far = match direction {
            TraversalDirection::Outgoing => &self.incoming,
            TraversalDirection::Incoming => &self.outgoing,
        };
        let walk = self.walk(direction, node)?;
        Some(walk.iter().map(|&edge| far.ends[edge as usize]).collect())
    }

    /// "A record's source, target and payload", low and high, for removed edges
    /// too.
    pub fn record(&self, edge: u32) -> Option<[u32; 4]> {
        let EdgePayload { low, high } = self.edges.get(edge as usize)?.payload;
        let (source, target) = self.ends(edge as usize);
        Some([source, target, low, high])
    }

    /// Whether low equals high in every edge, so that the Rust, whose payload is one
    /// word, can hold these lists.
    #[cfg(all(ported, feature = "serde"))]
    pub fn one_weight_each(&self) -> bool {
        let mut payloads = self.edges.iter().map(|slot| slot.payload);
        payloads.all(|EdgePayload { low, high }| low == high)
    }

    fn ends(&self, edge: usize) -> (u32, u32) {
        (self.outgoing.ends[edge], self.incoming.ends[edge])
    }

    /// "a new slot is the bound, which rises by one".
    fn add_node(&mut self, payload: u32) -> u32 {
        let slot = self.nodes.len() as u32;
        let live = true;
        self.nodes.push(Slot { payload, live });
        self.outgoing.lists.push(Vec::new());
        self.incoming.lists.push(Vec::new());
        slot
    }

    fn add_edge(&mut self, source: u32, target: u32, payload: EdgePayload) -> u32 {
        let slot = self.edges.len() as u32;
        let live = true;
        self.edges.push(Slot { payload, live });
        self.outgoing.add(slot, source);
        self.incoming.add(slot, target);
        slot
    }

    /// "for removals 1 or 0, where 0 means nothing live was there".
    fn remove_edge(&mut self, edge: u32) -> bool {
        match self.edges.get_mut(edge as usize) {
            Some(slot) if slot.live => slot.live = false,
            _ => return false,
        }
        self.outgoing.remove(edge);
        self.incoming.remove(edge);
        true
    }

    /// "Removing a node removes all edges in its lists."
    fn remove_node(&mut self, node: u32) -> bool {
        match self.nodes.get_mut(node as usize) {
            Some(slot) if slot.live => slot.live = false,
            _ => return false,
        }
        for direction in DIRECTIONS {
            for edge in self.incidence(direction).lists[node as usize].clone() {
                self.remove_edge(edge);
            }
        }
        true
    }

    pub fn live_nodes(&self) -> Vec<u32> {
        live_slots(&self.nodes)
    }

    pub fn live_edges(&self) -> Vec<u32> {
        live_slots(&self.edges)
    }

    /// Live nodes and edges, counted.
    pub fn live_counts(&self) -> [usize; 2] {
        [live_count(&self.nodes), live_count(&self.edges)]
    }

    /// "Compaction drops the dead slots, numbers the live ones from 0 in slot
    /// order, makes their counts the bounds and renumbers ends and lists, each
    /// list in its order." "Work then holds the new out adjacency, then the in
    /// adjacency."
    pub fn compaction(&self) -> Compaction {
        let node_map = numbering(&self.nodes);
        let edge_map = numbering(&self.edges);
        let renumbered = |incidence: &Incidence| Incidence {
            ends: kept(&self.edges, &incidence.ends)
                .map(|&end| node_map[end as usize])
                .collect(),
            lists: kept(&self.nodes, &incidence.lists)
                .map(|list| list.iter().map(|&edge| edge_map[edge as usize]).collect())
                .collect(),
        };
        let plain = Self {
            nodes: kept(&self.nodes, &self.nodes).copied().collect(),
            edges: kept(&self.edges, &self.edges).copied().collect(),
            outgoing: renumbered(&self.outgoing),
            incoming: renumbered(&self.incoming),
        };
        let mut work = plain.outgoing.lists.concat();
        work.extend(plain.incoming.lists.concat());
        Compaction {
            node_map,
            edge_map,
            work,
            plain,
        }
    }

    /// Stated by counting live slots below, and not through the maps, so that
    /// it is a second definition of what compaction keeps.
    pub fn survivors(&self) -> Survivors {
        let edge = |edge: u32| {
            let (source, target) = self.ends(edge as usize);
            let payload = self.edges[edge as usize].payload;
            (
                rank(&self.nodes, source),
                rank(&self.nodes, target),
                payload,
            )
        };
        let lists = |node: u32| {
            DIRECTIONS.map(|direction| {
                let list = &self.incidence(direction).lists[node as usize];
                list.iter().map(|&entry| rank(&self.edges, entry)).collect()
            })
        };
        let nodes = self.live_nodes();
        Survivors {
            nodes: nodes
                .iter()
                .map(|&node| self.nodes[node as usize].payload)
                .collect(),
            edges: self.live_edges().into_iter().map(edge).collect(),
            lists: nodes.into_iter().map(lists).collect(),
        }
    }
}

fn live_count<P>(slots: &[Slot<P>]) -> usize {
    slots.iter().filter(|slot| slot.live).count()
}

/// How many live slots stand before a slot.
fn rank<P>(slots: &[Slot<P>], slot: u32) -> u32 {
    live_count(&slots[..slot as usize]) as u32
}

fn live_slots<P>(slots: &[Slot<P>]) -> Vec<u32> {
    (0..slots.len() as u32)
        .filter(|&slot| slots[slot as usize].live)
        .collect()
}

/// The new number of each live slot, NONE for the others.
fn numbering<P>(slots: &[Slot<P>]) -> Vec<u32> {
    let mut next = 0;
    let number = |slot: &Slot<P>| {
        if !slot.live {
            return NONE;
        }
        next += 1;
        next - 1
    };
    slots.iter().map(number).collect()
}

/// What belongs to the live slots, in slot order.
fn kept<'a, P, T>(slots: &'a [Slot<P>], values: &'a [T]) -> impl Iterator<Item = &'a T> {
    let pairs = slots.iter().zip(values);
    pairs.filter(|(slot, _)| slot.live).map(|(_, value)| value)
}

/// "the slot a map lookup gives or NONE"; "Map lookup … refuse nothing."
pub fn lookup(map: &[u32], old: u32) -> u32 {
    map.get(old as usize).copied().unwrap_or(NONE)
}

/// "A short second map gives NONE."
pub fn compose(first: &[u32], second: &[u32]) -> Vec<u32> {
    first.iter().map(|&middle| lookup(second, middle)).collect()
}

/// "an identity map holds i at each i below the bound"; both maps are asked.
pub fn is_identity(node_map: &[u32], edge_map: &[u32]) -> bool {
    let identity = |map: &[u32]| map.iter().zip(0..).all(|(&new, old)| new == old);
    identity(node_map) && identity(edge_map)
}

#[derive(Debug, Clone, Copy, PartialEq, Eq)]
pub struct Capacities {
    pub nodes: u32,
    pub edges: u32,
}

/// A store as document 01's definitions see it: its plain lists, the capacities
/// it was lent, and whether it is compact, which the lists cannot tell.
#[derive(Debug, Clone, PartialEq, Eq)]
pub struct Model {
    pub capacities: Capacities,
    pub plain: Plain,
    pub compact: bool,
}

impl Model {
    /// "A fresh store is empty with bounds 0." "Fresh: 13, nodes before edges."
    pub fn fresh(nodes: u64, edges: u64) -> Result<Self, Answer> {
        Ok(Self {
            capacities: capacities(nodes, edges)?,
            plain: Plain::default(),
            compact: true,
        })
    }

    /// One operation of a strip. "A refused operation changes nothing and the
    /// strip goes on."
    pub fn operation(&mut self, words: [u32; 5]) -> Answer {
        let Some(operation) = Operation::decode(words) else {
            return Answer::refused(4);
        };
        match self.perform(operation) {
            Err(number) => Answer::refused(number),
            Ok(value) => {
                self.compact &= match operation {
                    Operation::AddNode { .. } | Operation::AddEdge { .. } => false,
                    Operation::RemoveEdge { .. }
                    | Operation::RemoveNode { .. }
                    | Operation::Move { .. } => value == 0,
                    Operation::Redirect { node, .. } => value == node,
                    Operation::SetPayload { .. } => true,
                };
                Answer::done(u64::from(value))
            }
        }
    }

    /// The refusals in the order of document 01: "Add node: 4, 10. Removals: 4.
    /// Set payload: 4, 7. Add edge: 4, source 5, 6, target 5, 6, then 10.
    /// Redirect: 4, 7, 8, 5, 6. Move: 4, 9, old 5; an empty walk is done, value
    /// 0; then new 5, 6." Request 8: "It refuses with 16 … for a low above its high
    /// in codes 2 and 9, directly after 4."
    fn perform(&mut self, operation: Operation) -> Result<u32, u32> {
        match operation {
            Operation::AddNode { payload } => {
                room(&self.plain.nodes, self.capacities.nodes)?;
                Ok(self.plain.add_node(payload))
            }
            Operation::AddEdge {
                source,
                target,
                payload,
            } => {
                in_order(payload)?;
                self.require_live_node(source)?;
                self.require_live_node(target)?;
                room(&self.plain.edges, self.capacities.edges)?;
                Ok(self.plain.add_edge(source, target, payload))
            }
            Operation::RemoveEdge { edge } => Ok(u32::from(self.plain.remove_edge(edge))),
            Operation::RemoveNode { node } => Ok(u32::from(self.plain.remove_node(node))),
            Operation::Redirect {
                direction,
                edge,
                node,
            } => {
                require_live(&self.plain.edges, edge, 7, 8)?;
                self.require_live_node(node)?;
                Ok(self.plain.incidence_mut(direction).redirect(edge, node))
            }
            Operation::Move {
                direction,
                old,
                new,
            } => {
                if old == new {
                    return Err(9);
                }
                if self.plain.walk(direction, old).ok_or(5_u32)?.is_empty() {
                    return Ok(0);
                }
                self.require_live_node(new)?;
                Ok(self.plain.incidence_mut(direction).shift(old, new))
            }
            Operation::SetPayload { edge, payload } => {
                in_order(payload)?;
                self.plain
                    .edges
                    .get_mut(edge as usize)
                    .ok_or(7_u32)?
                    .payload = payload;
                Ok(0)
            }
        }
    }

    fn require_live_node(&self, node: u32) -> Result<(), u32> {
        require_live(&self.plain.nodes, node, 5, 6)
    }

    /// Compaction with room enough in every lent slice.
    pub fn compact(&mut self) -> Compaction {
        let compaction = self.plain.compaction();
        self.plain = compaction.plain.clone();
        self.compact = true;
        compaction
    }
}

/// A device: the most nodes and edges that it takes, and the number that refuses more.
#[derive(Debug, Clone, Copy, PartialEq, Eq)]
pub struct Device {
    limits: [u64; 2],
    number: u32,
}

/// "capacity above 32,768 | 13 | that capacity".
pub const BOX: Device = Device {
    limits: [LIMIT; 2],
    number: 13,
};

/// Request 7: "64 lots and 128 transfers", "It refuses with 15 and the value asked
/// for, lots before transfers, in place of 13".
pub const SKID: Device = Device {
    limits: [64, 128],
    number: 15,
};

impl Device {
    /// What is asked for, if the device takes it: "nodes before edges".
    pub fn within(self, asked: [u64; 2]) -> Result<Capacities, Answer> {
        let mut limited = asked.into_iter().zip(self.limits);
        if let Some((value, _)) = limited.find(|(value, limit)| limit < value) {
            let number = self.number;
            return Err(Answer { number, value });
        }
        let [nodes, edges] = asked.map(|slots| slots as u32);
        Ok(Capacities { nodes, edges })
    }
}

/// "capacity above 32,768 | 13 | that capacity", "nodes before edges".
pub fn capacities(nodes: u64, edges: u64) -> Result<Capacities, Answer> {
    BOX.within([nodes, edges])
}

/// "a low above its high": 16.
const fn in_order(payload: EdgePayload) -> Result<(), u32> {
    if payload.inverted() {
        return Err(16);
    }
    Ok(())
}

/// "bound equals capacity | 10".
fn room<P>(slots: &[Slot<P>], capacity: u32) -> Result<(), u32> {
    if slots.len() == capacity as usize {
        return Err(10);
    }
    Ok(())
}

/// At or above the bound the one number, removed the other.
fn require_live<P>(slots: &[Slot<P>], slot: u32, above: u32, removed: u32) -> Result<(), u32> {
    match slots.get(slot as usize) {
        None => Err(above),
        Some(slot) if !slot.live => Err(removed),
        Some(_) => Ok(()),
    }
}
