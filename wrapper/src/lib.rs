//! A lot book: the proved lot store for Rust programs. A lot is a node, a transfer
//! between lots is an edge.
//!
//! [`LotBook`] owns the memory of a store and lends it to the proved functions,
//! which require nothing: whatever the memory holds, a call answers as
//! `docs/ENTRIES.md` says, or refuses with a number of its table and leaves every
//! word. So there is nothing to test before a call; that slices do not overlap and
//! are as long as stated is what a Rust borrow means.
//!
//! ```
//! use lots::{EdgePayload, LotBook, Operation, Refused};
//!
//! # fn main() -> Result<(), Refused> {
//! // Room for 100 lots and 200 transfers.
//! let mut book = LotBook::new(100, 200)?;
//!
//! let malt = book.operation(Operation::AddNode { payload: 7 })?;
//! let beer = book.operation(Operation::AddNode { payload: 9 })?;
//! // The hopper's scales gave 249 at the lowest and 251 at the highest.
//! let payload = EdgePayload { low: 249, high: 251 };
//! let transfer = book.operation(Operation::AddEdge {
//!     source: malt,
//!     target: beer,
//!     payload,
//! })?;
//!
//! assert_eq!(book.outgoing(malt)?, [transfer]);
//! assert_eq!(book.predecessors(beer)?, [malt]);
//! assert_eq!(book.find(malt, beer)?, Some(transfer));
//! assert_eq!(book.nearest(malt, beer)?, Some(vec![transfer]));
//! assert_eq!(book.nearest(beer, malt)?, None);
//! assert_eq!(book.edge_record(transfer)?.payload, payload);
//! assert_eq!(book.in_total(beer)?.high, 251);
//!
//! // A lot that there is not: number 5.
//! assert_eq!(book.out_degree(2).unwrap_err().number, 5);
//!
//! // Many operations in one call. A refused one changes nothing, the rest is done.
//! let answers = book.strip(&[
//!     Operation::RemoveEdge { edge: transfer },
//!     Operation::MoveOutgoing { old: malt, new: malt },
//!     Operation::RemoveNode { node: beer },
//! ])?;
//! assert_eq!(answers[0], Ok(1));
//! assert_eq!(answers[1].unwrap_err().number, 9);
//! assert_eq!(answers[2], Ok(1));
//! assert_eq!(book.node_ids()?, [malt]);
//!
//! // The image of what is left, which any other book can read.
//! let mut copy = LotBook::new(10, 10)?;
//! copy.read_image(&book.image()?)?;
//! assert_eq!(copy.node_payload(0)?, 7);
//!
//! // Two books in one: the first's lots, then the second's.
//! let mut year = LotBook::new(10, 10)?;
//! let [_, second] = year.join(&book, &copy)?;
//! assert_eq!(year.node_count()?, 2);
//! assert_eq!(second.node_map, [1]);
//! # Ok(())
//! # }
//! ```

#![warn(missing_docs)]

mod causes;
mod exports;
pub mod maps;

pub use exports::{Counts, EdgePayload, Slots};

use exports::Changed;

/// "None" where the store answers a slot.
pub const NONE: u32 = u32::MAX;

/// A refused call or operation: number and value of document 01's table; it displays
/// its cause in words. A call that is refused leaves every word as it was.
#[derive(Debug, Clone, Copy, PartialEq, Eq)]
pub struct Refused {
    /// The number of the cause.
    pub number: u32,
    /// What the cause reports: a rule, a length, a capacity; NONE where there is nothing to report.
    pub value: u64,
}

impl EdgePayload {
    /// A weight that is known: low and high are one.
    pub const fn exactly(weight: u32) -> Self {
        Self {
            low: weight,
            high: weight,
        }
    }
}

/// The ends and the payload of an edge.
#[derive(Debug, Clone, Copy, PartialEq, Eq)]
pub struct EdgeRecord {
    /// The node that it leaves.
    pub source: u32,
    /// The node that it enters.
    pub target: u32,
    /// Its lowest and its highest weight.
    pub payload: EdgePayload,
}

/// The total of a list: the sums of its edges' lows and of their highs. Weights
/// within the edges' ranges sum to between them.
#[derive(Debug, Clone, Copy, PartialEq, Eq)]
pub struct Total {
    /// The sum of the lows.
    pub low: u64,
    /// The sum of the highs.
    pub high: u64,
}

/// What a compaction answers: the new slot of every old one, NONE where it was
/// removed, and the lists of all nodes, joined, by the new numbers.
#[derive(Debug, Clone, PartialEq, Eq)]
pub struct Compaction {
    /// The new slot of every old node.
    pub node_map: Vec<u32>,
    /// The new slot of every old edge.
    pub edge_map: Vec<u32>,
    /// The out-lists of all nodes, joined.
    pub outgoing: Vec<u32>,
    /// The in-lists of all nodes, joined.
    pub incoming: Vec<u32>,
}

/// The maps of a book that was joined: the joined store's slot of every slot, NONE
/// where it was removed.
#[derive(Debug, Clone, PartialEq, Eq)]
pub struct BookMaps {
    /// Of its nodes.
    pub node_map: Vec<u32>,
    /// Of its edges.
    pub edge_map: Vec<u32>,
}

/// An operation of a strip. One that gives an edge a low above its high is refused
/// with 16. Nodes and edges are given by their slots.
#[derive(Debug, Clone, Copy, PartialEq, Eq)]
// The names of the fields say what they are.
#[allow(missing_docs)]
pub enum Operation {
    /// A new node. Answers its slot.
    AddNode { payload: u32 },
    /// A new edge, last in both lists. Answers its slot.
    AddEdge {
        source: u32,
        target: u32,
        payload: EdgePayload,
    },
    /// Removes an edge. Answers 1, or 0 where nothing live was there.
    RemoveEdge { edge: u32 },
    /// Removes a node and its edges with it. Answers 1, or 0 where nothing live was there.
    RemoveNode { node: u32 },
    /// Makes the node the source, last in its out-list. Answers the previous source.
    RedirectSource { edge: u32, node: u32 },
    /// Makes the node the target, last in its in-list. Answers the previous target.
    RedirectTarget { edge: u32, node: u32 },
    /// Moves the whole out-list of the old node behind that of the new. Answers the edges moved.
    MoveOutgoing { old: u32, new: u32 },
    /// Moves the whole in-list of the old node behind that of the new. Answers the edges moved.
    MoveIncoming { old: u32, new: u32 },
    /// Gives an edge other weights, a removed one too. Answers 0.
    SetPayload { edge: u32, payload: EdgePayload },
}

impl Operation {
    /// Its five words in a strip.
    pub const fn words(self) -> [u32; 5] {
        match self {
            Self::AddNode { payload } => [1, 0, 0, payload, 0],
            Self::AddEdge {
                source,
                target,
                payload: EdgePayload { low, high },
            } => [2, source, target, low, high],
            Self::RemoveEdge { edge } => [3, edge, 0, 0, 0],
            Self::RemoveNode { node } => [4, node, 0, 0, 0],
            Self::RedirectSource { edge, node } => [5, edge, node, 0, 0],
            Self::RedirectTarget { edge, node } => [6, edge, node, 0, 0],
            Self::MoveOutgoing { old, new } => [7, old, new, 0, 0],
            Self::MoveIncoming { old, new } => [8, old, new, 0, 0],
            Self::SetPayload {
                edge,
                payload: EdgePayload { low, high },
            } => [9, edge, 0, low, high],
        }
    }
}

/// Where a book stands. Making a store and reading an image ask for it; no other call
/// does.
#[derive(Debug, Clone, Copy, PartialEq, Eq)]
pub enum Device {
    /// At most 32,768 lots and as many transfers: more is refused with 13.
    Box,
    /// The skid that washes tanks, at most 64 lots and 128 transfers: more is refused
    /// with 15.
    Skid,
}

impl Device {
    /// The most lots and transfers, and the number that refuses more.
    const fn limits(self) -> ([usize; 2], u32) {
        match self {
            Self::Box => ([32_768; 2], 13),
            Self::Skid => ([64, 128], 15),
        }
    }
}

/// The memory of a store: counts and seven slices (`docs/ENTRIES.md` has the lengths
/// and `crates/shape` the columns). It may hold anything: the check judges it.
#[derive(Debug, Clone, PartialEq, Eq)]
pub struct Memory {
    /// Bounds, base counts and live counts.
    pub counts: Counts,
    /// Payloads; the length is the capacity.
    pub nodes: Vec<u32>,
    /// The lowest weight of each edge; the length is the capacity.
    pub lows: Vec<u32>,
    /// The highest weight of each edge.
    pub highs: Vec<u32>,
    /// A bit a node slot.
    pub live_nodes: Vec<u64>,
    /// A bit an edge slot.
    pub live_edges: Vec<u64>,
    /// Outgoing, incoming.
    pub axes: [Vec<u32>; 2],
}

impl Memory {
    /// Zeros, as long as a store of these capacities needs.
    pub fn zeros(nodes: usize, edges: usize) -> Self {
        let axis = 4 * edges + 6 * nodes + 1;
        Self {
            counts: Counts::default(),
            nodes: vec![0; nodes],
            lows: vec![0; edges],
            highs: vec![0; edges],
            live_nodes: vec![0; nodes.div_ceil(64)],
            live_edges: vec![0; edges.div_ceil(64)],
            axes: [vec![0; axis], vec![0; axis]],
        }
    }
}

/// Number and value as a result.
const fn done(number: u32, value: u64) -> Result<u64, Refused> {
    match number {
        0 => Ok(value),
        _ => Err(Refused { number, value }),
    }
}

/// A slot or a number of slots, which is never wider.
fn narrow(value: u64) -> u32 {
    u32::try_from(value).expect("promised: a slot, a payload or a count of slots")
}

/// A store and its memory, on a device.
#[derive(Debug, Clone, PartialEq, Eq)]
pub struct LotBook {
    device: Device,
    memory: Memory,
}

impl LotBook {
    /// A fresh store with room for so many nodes and edges, at most 32,768 each.
    ///
    /// # Errors
    /// 13 above that, with the capacity.
    pub fn new(nodes: usize, edges: usize) -> Result<Self, Refused> {
        Self::on(Device::Box, nodes, edges)
    }

    /// A fresh store on the skid, with room for so many nodes and edges, at most 64 and
    /// 128.
    ///
    /// # Errors
    /// 15 above that, with the capacity.
    pub fn skid(nodes: usize, edges: usize) -> Result<Self, Refused> {
        Self::on(Device::Skid, nodes, edges)
    }

    fn on(device: Device, nodes: usize, edges: usize) -> Result<Self, Refused> {
        // Refused before any memory is taken for it.
        let (limits, number) = device.limits();
        let mut asked = [nodes, edges].into_iter().zip(limits);
        if let Some((above, _)) = asked.find(|(slots, limit)| limit < slots) {
            return Err(Refused {
                number,
                value: above as u64,
            });
        }
        let mut book = Self::from_memory_on(device, Memory::zeros(nodes, edges));
        book.fresh()?;
        Ok(book)
    }

    /// A store in memory that came from elsewhere. It may hold anything: each call
    /// answers 1 with the first broken rule where it is no store.
    pub const fn from_memory(memory: Memory) -> Self {
        Self::from_memory_on(Device::Box, memory)
    }

    /// The same on another device.
    pub const fn from_memory_on(device: Device, memory: Memory) -> Self {
        Self { device, memory }
    }

    /// The device that the book is on.
    pub const fn device(&self) -> Device {
        self.device
    }

    /// The words that the store stands in.
    pub const fn memory(&self) -> &Memory {
        &self.memory
    }

    /// The words that the store stands in, handed over.
    pub fn into_memory(self) -> Memory {
        self.memory
    }

    /// Makes the store a fresh one in the same memory. Refused, it is one with no
    /// slot all the same.
    ///
    /// # Errors
    /// 13 (a capacity; 15 on the skid), then 2 (the length needed).
    pub fn fresh(&mut self) -> Result<(), Refused> {
        let changed = self.memory.lot_fresh(self.device);
        self.changed(changed)
    }

    fn changed(&mut self, changed: Changed) -> Result<(), Refused> {
        self.memory.counts = changed.counts;
        done(changed.number, changed.value).map(|_| ())
    }

    /// Makes the operations in turn, and gives each one's answer. The store is
    /// checked once.
    ///
    /// # Errors
    /// 1 (the first broken rule).
    pub fn strip(
        &mut self,
        operations: &[Operation],
    ) -> Result<Vec<Result<u32, Refused>>, Refused> {
        let words: Vec<u32> = operations.iter().flat_map(|each| each.words()).collect();
        let mut answers = vec![0; 2 * operations.len()];
        self.strip_words(&words, &mut answers)?;
        let (answers, _) = answers.as_chunks();
        let answer = |&[number, value]: &[u32; 2]| done(number, value.into()).map(narrow);
        Ok(answers.iter().map(answer).collect())
    }

    /// A strip of one: its answer.
    ///
    /// # Errors
    /// 1, then those of the operation.
    pub fn operation(&mut self, operation: Operation) -> Result<u32, Refused> {
        let mut answers = [0; 2];
        self.strip_words(&operation.words(), &mut answers)?;
        let [number, value] = answers;
        done(number, value.into()).map(narrow)
    }

    /// A strip as words, five an operation, with two words of answer each. Words of
    /// `answers` past them keep their content.
    ///
    /// # Errors
    /// 1 (the first broken rule), 3 (the strip's length), 2 (the length needed).
    pub fn strip_words(&mut self, words: &[u32], answers: &mut [u32]) -> Result<(), Refused> {
        let changed = self.memory.lot_strip(words, answers);
        self.changed(changed)
    }

    /// Drops the removed slots and numbers the live ones from 0 in slot order.
    /// Answers the maps from old slots to new ones, and the lists by new numbers,
    /// each in its order.
    ///
    /// # Errors
    /// 1 (the first broken rule).
    pub fn compact(&mut self) -> Result<Compaction, Refused> {
        let BookMaps {
            mut node_map,
            mut edge_map,
        } = self.maps();
        let Memory { counts, lows, .. } = &self.memory;
        let mut work = vec![0; 2 * lows.len().min(counts.edges.live as usize)];
        self.compact_into(&mut node_map, &mut edge_map, &mut work)?;
        let incoming = work.split_off(work.len() / 2);
        Ok(Compaction {
            node_map,
            edge_map,
            outgoing: work,
            incoming,
        })
    }

    /// Room for the maps of this book.
    fn maps(&self) -> BookMaps {
        let bound = |slots: Slots, capacity: usize| capacity.min(slots.bound as usize);
        let Memory {
            counts,
            nodes,
            lows,
            ..
        } = &self.memory;
        BookMaps {
            node_map: vec![0; bound(counts.nodes, nodes.len())],
            edge_map: vec![0; bound(counts.edges, lows.len())],
        }
    }

    /// Compaction into lent slices. Words past what is needed keep their content.
    ///
    /// # Errors
    /// 1 (the first broken rule), then 2 (the length needed) of the three in turn.
    pub fn compact_into(
        &mut self,
        node_map: &mut [u32],
        edge_map: &mut [u32],
        work: &mut [u32],
    ) -> Result<(), Refused> {
        let changed = self.memory.lot_compact(node_map, edge_map, work);
        self.changed(changed)
    }

    /// Puts the store of an image in place of all, as a compaction would leave it.
    /// What was there need not be a store.
    ///
    /// # Errors
    /// 13 (a capacity; 15 on the skid), 12 (the first broken rule of images), on the skid
    /// 15 (a count of the image), 2 (the length needed).
    pub fn read_image(&mut self, bytes: &[u8]) -> Result<(), Refused> {
        let changed = self.memory.lot_read_image(self.device, bytes);
        self.changed(changed)
    }

    /// Joins two books into this one's memory, as a compaction would leave it: what is
    /// live in the first, then in the second, each list in its order. Answers the maps
    /// of both. What was here need not be a store; refused, it stays. The two books may
    /// be one.
    ///
    /// # Errors
    /// 1 (the first broken rule) of the first, then of the second; 13 (a capacity), 2
    /// (the length needed) of this memory; 10 where it has not enough slots.
    pub fn join(&mut self, first: &Self, second: &Self) -> Result<[BookMaps; 2], Refused> {
        let [mut one, mut two] = [first.maps(), second.maps()];
        let maps: [&mut [u32]; 4] = [
            &mut one.node_map,
            &mut one.edge_map,
            &mut two.node_map,
            &mut two.edge_map,
        ];
        self.join_into(first, second, maps)?;
        Ok([one, two])
    }

    /// Joining with the maps in lent slices: nodes and edges of the first book, then of
    /// the second. Words past what is needed keep their content.
    ///
    /// # Errors
    /// As [`Self::join`], then 2 (the length needed) of the maps in turn.
    pub fn join_into(
        &mut self,
        first: &Self,
        second: &Self,
        maps: [&mut [u32]; 4],
    ) -> Result<(), Refused> {
        let changed = self.memory.lot_join(&first.memory, &second.memory, maps);
        // The counts beside a refusal are 0: what was here keeps its own.
        done(changed.number, changed.value)?;
        self.memory.counts = changed.counts;
        Ok(())
    }

    /// Whether the memory holds a store.
    ///
    /// # Errors
    /// 1 (the first broken rule).
    pub fn check(&self) -> Result<(), Refused> {
        self.answer(Memory::lot_check).map(|_| ())
    }

    fn answer(&self, call: impl FnOnce(&Memory) -> exports::Answer) -> Result<u64, Refused> {
        let answer = call(&self.memory);
        done(answer.number, answer.value)
    }

    fn slot_answer(&self, call: impl FnOnce(&Memory) -> exports::Answer) -> Result<u32, Refused> {
        self.answer(call).map(narrow)
    }

    fn yes_or_no(&self, call: impl FnOnce(&Memory) -> exports::Answer) -> Result<bool, Refused> {
        self.answer(call).map(|value| value == 1)
    }

    /// A list into a slice that is lengthened once if it is too short.
    fn list<Word: Clone + Default>(
        &self,
        mut call: impl FnMut(&Memory, &mut [Word]) -> exports::Answer,
    ) -> Result<Vec<Word>, Refused> {
        let mut slots = vec![Word::default(); 16];
        let mut answer = call(&self.memory, &mut slots);
        if answer.number == 2 {
            slots.resize(answer.value as usize, Word::default());
            answer = call(&self.memory, &mut slots);
        }
        slots.truncate(done(answer.number, answer.value)? as usize);
        Ok(slots)
    }

    /// The edges of a node's out-list, in order.
    ///
    /// # Errors
    /// 1, 5; and so the next five.
    pub fn outgoing(&self, node: u32) -> Result<Vec<u32>, Refused> {
        self.list(|memory, slots| memory.lot_outgoing(node, slots))
    }

    /// The edges of a node's in-list, in order.
    pub fn incoming(&self, node: u32) -> Result<Vec<u32>, Refused> {
        self.list(|memory, slots| memory.lot_incoming(node, slots))
    }

    /// The targets of a node's out-list, in order.
    pub fn successors(&self, node: u32) -> Result<Vec<u32>, Refused> {
        self.list(|memory, slots| memory.lot_successors(node, slots))
    }

    /// The sources of a node's in-list, in order.
    pub fn predecessors(&self, node: u32) -> Result<Vec<u32>, Refused> {
        self.list(|memory, slots| memory.lot_predecessors(node, slots))
    }

    /// How many edges a node's out-list has.
    ///
    /// # Errors
    /// 1, 5; and so the next.
    pub fn out_degree(&self, node: u32) -> Result<u32, Refused> {
        self.slot_answer(|memory| memory.lot_out_degree(node))
    }

    /// How many edges a node's in-list has.
    pub fn in_degree(&self, node: u32) -> Result<u32, Refused> {
        self.slot_answer(|memory| memory.lot_in_degree(node))
    }

    /// The total of a node's out-list.
    ///
    /// # Errors
    /// 1, 5; and so the next.
    pub fn out_total(&self, node: u32) -> Result<Total, Refused> {
        self.memory.lot_out_total(node).into()
    }

    /// The total of a node's in-list.
    pub fn in_total(&self, node: u32) -> Result<Total, Refused> {
        self.memory.lot_in_total(node).into()
    }

    /// A node's list into a lent slice: how many entries it has. Words past them
    /// keep their content.
    ///
    /// # Errors
    /// 1, 5, 2 (the length needed); and so the next three.
    pub fn outgoing_into(&self, node: u32, slots: &mut [u32]) -> Result<u32, Refused> {
        self.slot_answer(|memory| memory.lot_outgoing(node, slots))
    }

    /// The in-list into a lent slice.
    pub fn incoming_into(&self, node: u32, slots: &mut [u32]) -> Result<u32, Refused> {
        self.slot_answer(|memory| memory.lot_incoming(node, slots))
    }

    /// The targets of the out-list into a lent slice.
    pub fn successors_into(&self, node: u32, slots: &mut [u32]) -> Result<u32, Refused> {
        self.slot_answer(|memory| memory.lot_successors(node, slots))
    }

    /// The sources of the in-list into a lent slice.
    pub fn predecessors_into(&self, node: u32, slots: &mut [u32]) -> Result<u32, Refused> {
        self.slot_answer(|memory| memory.lot_predecessors(node, slots))
    }

    /// The first edge of the first node's out-list that ends at the second, if there is
    /// any.
    ///
    /// # Errors
    /// 1, first 5, second 5.
    pub fn find(&self, first: u32, second: u32) -> Result<Option<u32>, Refused> {
        let found = self.slot_answer(|memory| memory.lot_find(first, second))?;
        Ok((found != NONE).then_some(found))
    }

    /// The shortest chain of live edges from the first node to the second, the first
    /// among equals by the places of its edges in the out-lists; nothing where there
    /// is none. A node reaches itself by the empty chain.
    ///
    /// # Errors
    /// 1, first 5, 6, second 5, 6.
    pub fn nearest(&self, first: u32, second: u32) -> Result<Option<Vec<u32>>, Refused> {
        let mut work = vec![0; 2 * self.memory.nodes.len()];
        let found = self.list(|memory, chain| memory.lot_nearest(first, second, &mut work, chain));
        match found {
            Err(Refused { number: 14, .. }) => Ok(None),
            found => found.map(Some),
        }
    }

    /// The same into lent slices: the chain's length. The first words of `work`,
    /// twice the node capacity, may hold anything and are 0 afterwards, and words of
    /// `chain` past the chain keep their content.
    ///
    /// # Errors
    /// 1, first 5, 6, second 5, 6 and 2 for `work` (the length needed) write nothing;
    /// 14 where there is no chain and 2 for `chain` leave `work` as above.
    pub fn nearest_into(
        &self,
        first: u32,
        second: u32,
        work: &mut [u32],
        chain: &mut [u32],
    ) -> Result<u32, Refused> {
        self.slot_answer(|memory| memory.lot_nearest(first, second, work, chain))
    }

    /// The payload of a node, of a removed one too.
    ///
    /// # Errors
    /// 1, 5.
    pub fn node_payload(&self, node: u32) -> Result<u32, Refused> {
        self.slot_answer(|memory| memory.lot_node_payload(node))
    }

    /// The record of an edge, of a removed one too: it keeps its last ends.
    ///
    /// # Errors
    /// 1, 7.
    pub fn edge_record(&self, edge: u32) -> Result<EdgeRecord, Refused> {
        self.memory.lot_edge_record(edge).into()
    }

    /// The record of a live edge.
    ///
    /// # Errors
    /// 1, 7, 8.
    pub fn live_edge_record(&self, edge: u32) -> Result<EdgeRecord, Refused> {
        self.memory.lot_live_edge_record(edge).into()
    }

    /// Whether a node is live; one out of range is not.
    ///
    /// # Errors
    /// 1; and so the next seven.
    pub fn contains_node(&self, node: u32) -> Result<bool, Refused> {
        self.yes_or_no(|memory| memory.lot_contains_node(node))
    }

    /// Whether an edge is live; one out of range is not.
    pub fn contains_edge(&self, edge: u32) -> Result<bool, Refused> {
        self.yes_or_no(|memory| memory.lot_contains_edge(edge))
    }

    /// Whether no node is live.
    pub fn is_empty(&self) -> Result<bool, Refused> {
        self.yes_or_no(Memory::lot_is_empty)
    }

    /// Whether every slot is live and in the base: no removed slot, nothing added or redirected
    /// since the last compaction.
    pub fn is_compact(&self) -> Result<bool, Refused> {
        self.yes_or_no(Memory::lot_is_compact)
    }

    /// How many node slots there are, removed ones too.
    pub fn node_bound(&self) -> Result<u32, Refused> {
        self.slot_answer(Memory::lot_node_bound)
    }

    /// How many edge slots there are, removed ones too.
    pub fn edge_bound(&self) -> Result<u32, Refused> {
        self.slot_answer(Memory::lot_edge_bound)
    }

    /// How many nodes are live.
    pub fn node_count(&self) -> Result<u32, Refused> {
        self.slot_answer(Memory::lot_node_count)
    }

    /// How many edges are live.
    pub fn edge_count(&self) -> Result<u32, Refused> {
        self.slot_answer(Memory::lot_edge_count)
    }

    /// The live nodes in slot order.
    ///
    /// # Errors
    /// 1; and so the next.
    pub fn node_ids(&self) -> Result<Vec<u32>, Refused> {
        self.list(Memory::lot_node_ids)
    }

    /// The live edges in slot order.
    pub fn edge_ids(&self) -> Result<Vec<u32>, Refused> {
        self.list(Memory::lot_edge_ids)
    }

    /// The live nodes into a lent slice: how many there are.
    ///
    /// # Errors
    /// 1, 2 (the length needed); and so the next.
    pub fn node_ids_into(&self, slots: &mut [u32]) -> Result<u32, Refused> {
        self.slot_answer(|memory| memory.lot_node_ids(slots))
    }

    /// The live edges into a lent slice: how many there are.
    pub fn edge_ids_into(&self, slots: &mut [u32]) -> Result<u32, Refused> {
        self.slot_answer(|memory| memory.lot_edge_ids(slots))
    }

    /// The image of the store, compact or not: the same bytes for stores in which the
    /// same is live, and those that a compaction followed by writing would give.
    ///
    /// # Errors
    /// 1 (the first broken rule).
    pub fn image(&self) -> Result<Vec<u8>, Refused> {
        let Memory { counts, lows, .. } = &self.memory;
        let needed = 2 * lows.len().min(counts.edges.live as usize);
        self.list(|memory, bytes| memory.lot_write_image(&mut vec![0; needed], bytes))
    }

    /// The image into a lent slice, with a lent work slice: how many bytes it has.
    /// Bytes past them keep their content, and so do words of `work` past those that
    /// are needed; the words needed hold anything afterwards.
    ///
    /// # Errors
    /// 1 (the first broken rule), then 2 (the length needed) of the two in turn.
    pub fn image_into(&self, work: &mut [u32], bytes: &mut [u8]) -> Result<u32, Refused> {
        self.slot_answer(|memory| memory.lot_write_image(work, bytes))
    }
}

impl From<exports::Record> for Result<EdgeRecord, Refused> {
    fn from(record: exports::Record) -> Self {
        done(record.number, record.value)?;
        Ok(EdgeRecord {
            source: record.source,
            target: record.target,
            payload: record.payload,
        })
    }
}

impl From<exports::Total> for Result<Total, Refused> {
    fn from(total: exports::Total) -> Self {
        done(total.number, total.value)?;
        Ok(Total {
            low: total.low,
            high: total.high,
        })
    }
}
