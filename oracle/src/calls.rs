//! Document 01's calls on a store, with the lengths of what is lent: their
//! numbers, values and orders of refusals, stated once for the model and the
//! Rust store; and the text of `lotstrip`.

use std::fmt::Write;

use crate::graph::traverse::TraversalDirection;
use crate::image;
use crate::model::{Answer, BOX, Capacities, Device, Model, NONE};

/// What a call reads of a store or does to it: the model, or the Rust store.
pub trait Lots {
    fn fresh(capacities: Capacities) -> Self;
    fn operation(&mut self, words: [u32; 5]) -> Answer;
    /// A node's list; nothing at or above the bound, as in the next two.
    fn walk(&self, direction: TraversalDirection, node: u32) -> Option<Vec<u32>>;
    fn payload(&self, node: u32) -> Option<u32>;
    /// Source, target, low and high, and whether the edge is live.
    fn record(&self, edge: u32) -> Option<([u32; 4], bool)>;
    /// How many entries the list has; of a node below the bound, as in the next.
    fn degree(&self, direction: TraversalDirection, node: u32) -> u32;
    /// The nodes at the other ends of the list.
    fn neighbors(&self, direction: TraversalDirection, node: u32) -> Vec<u32>;
    /// The shortest chain of edges from one live node to another, the first among
    /// equals; nothing where there is none.
    fn nearest(&self, first: u32, second: u32) -> Option<Vec<u32>>;
    fn contains_node(&self, node: u32) -> bool;
    fn contains_edge(&self, edge: u32) -> bool;
    fn live_nodes(&self) -> Vec<u32>;
    fn live_edges(&self) -> Vec<u32>;
    /// Live nodes and edges, counted.
    fn counts(&self) -> [usize; 2];
    fn bounds(&self) -> [usize; 2];
    fn is_empty(&self) -> bool;
    fn is_compact(&self) -> bool;
    /// Compacts, and gives node map, edge map and work slice.
    fn compaction(&mut self) -> [Vec<u32>; 3];
    /// The image of what is live in the store.
    fn image(&self) -> Vec<u8>;
}

impl Lots for Model {
    fn fresh(capacities: Capacities) -> Self {
        Self {
            capacities,
            plain: Default::default(),
            compact: true,
        }
    }

    fn operation(&mut self, words: [u32; 5]) -> Answer {
        Self::operation(self, words)
    }

    fn walk(&self, direction: TraversalDirection, node: u32) -> Option<Vec<u32>> {
        self.plain.walk(direction, node).map(<[u32]>::to_vec)
    }

    fn payload(&self, node: u32) -> Option<u32> {
        self.plain.nodes.get(node as usize).map(|slot| slot.payload)
    }

    fn record(&self, edge: u32) -> Option<([u32; 4], bool)> {
        let slot = self.plain.edges.get(edge as usize)?;
        Some((self.plain.record(edge)?, slot.live))
    }

    fn degree(&self, direction: TraversalDirection, node: u32) -> u32 {
        let walk = self.plain.walk(direction, node).expect("below the bound");
        walk.len() as u32
    }

    fn neighbors(&self, direction: TraversalDirection, node: u32) -> Vec<u32> {
        let neighbors = self.plain.neighbors(direction, node);
        neighbors.expect("below the bound")
    }

    fn nearest(&self, first: u32, second: u32) -> Option<Vec<u32>> {
        self.plain.chains().searched(first, second)
    }

    fn contains_node(&self, node: u32) -> bool {
        let slot = self.plain.nodes.get(node as usize);
        slot.is_some_and(|slot| slot.live)
    }

    fn contains_edge(&self, edge: u32) -> bool {
        let slot = self.plain.edges.get(edge as usize);
        slot.is_some_and(|slot| slot.live)
    }

    fn live_nodes(&self) -> Vec<u32> {
        self.plain.live_nodes()
    }

    fn live_edges(&self) -> Vec<u32> {
        self.plain.live_edges()
    }

    fn counts(&self) -> [usize; 2] {
        self.plain.live_counts()
    }

    fn bounds(&self) -> [usize; 2] {
        [self.plain.nodes.len(), self.plain.edges.len()]
    }

    fn is_empty(&self) -> bool {
        !self.plain.nodes.iter().any(|slot| slot.live)
    }

    fn is_compact(&self) -> bool {
        self.compact
    }

    fn compaction(&mut self) -> [Vec<u32>; 3] {
        let compaction = self.compact();
        [compaction.node_map, compaction.edge_map, compaction.work]
    }

    fn image(&self) -> Vec<u8> {
        image::of(&self.plain)
    }
}

/// A list of words into a lent slice: "2", or as many as there are.
fn fit<T>(words: Vec<T>, length: usize) -> Result<Vec<T>, Answer> {
    if length < words.len() {
        return Err(Answer::too_short(words.len()));
    }
    Ok(words)
}

/// "Order: strip 1, 3, 2." "Number 3 now concerns multiples of five."
pub fn strip(lots: &mut impl Lots, words: &[u32], length: usize) -> Result<Vec<Answer>, Answer> {
    let (operations, rest) = words.as_chunks::<5>();
    if !rest.is_empty() {
        let value = words.len() as u64;
        return Err(Answer { number: 3, value });
    }
    let needed = 2 * operations.len();
    if length < needed {
        return Err(Answer::too_short(needed));
    }
    let answers = operations.iter().map(|&words| lots.operation(words));
    Ok(answers.collect())
}

/// "Walk: 1, 5, 2."
pub fn walk(
    lots: &impl Lots,
    direction: TraversalDirection,
    node: u32,
    length: usize,
) -> Result<Vec<u32>, Answer> {
    let walk = lots.walk(direction, node).ok_or(Answer::refused(5))?;
    fit(walk, length)
}

/// "List of live nodes or edges in slot order: 1, 2."
pub fn live_list(slots: Vec<u32>, length: usize) -> Result<Vec<u32>, Answer> {
    fit(slots, length)
}

/// "Degree and node payload: 1, 5."
pub fn payload(lots: &impl Lots, node: u32) -> Answer {
    match lots.payload(node) {
        Some(payload) => Answer::done(payload.into()),
        None => Answer::refused(5),
    }
}

/// "Record 1, 7; live record 1, 7, 8." "A record's source, target and payload
/// come beside the value 0; if refused, all three are 0." The payload is low and
/// high.
pub fn record(lots: &impl Lots, edge: u32, live_only: bool) -> (Answer, [u32; 4]) {
    match lots.record(edge) {
        None => (Answer::refused(7), [0; 4]),
        Some((_, false)) if live_only => (Answer::refused(8), [0; 4]),
        Some((record, _)) => (Answer::done(0), record),
    }
}

/// "the total of a lot's in-list and of its out-list as a low and a high sum, each
/// exact in 64 bits"; "A total refuses 1, then 5, with both sums 0; done, its value
/// is 0."
pub fn total(lots: &impl Lots, direction: TraversalDirection, node: u32) -> (Answer, [u64; 2]) {
    let Some(walk) = lots.walk(direction, node) else {
        return (Answer::refused(5), [0; 2]);
    };
    let mut sums = [0; 2];
    for edge in walk {
        let ([_, _, low, high], _) = lots.record(edge).expect("a listed edge is there");
        sums[0] += u64::from(low);
        sums[1] += u64::from(high);
    }
    (Answer::done(0), sums)
}

/// "NONE (still number 0) if there is none and only then; 1, first 5, second 5."
/// Request 1: "Finding now gives the earliest in the source lot's out-list."
pub fn find(lots: &impl Lots, source: u32, target: u32) -> Answer {
    let walk = lots.walk(TraversalDirection::Outgoing, source);
    let (Some(walk), Some(_)) = (walk, lots.payload(target)) else {
        return Answer::refused(5);
    };
    let reaches = |&edge: &u32| {
        lots.record(edge)
            .is_some_and(|(record, _)| record[1] == target)
    };
    Answer::done(walk.into_iter().find(reaches).unwrap_or(NONE).into())
}

/// What a search for the nearest lot comes to: its answer, whether the words that it
/// borrows are then clear, and the chain that it writes.
#[derive(Debug, Clone, PartialEq, Eq)]
pub struct Searched {
    pub answer: Answer,
    pub clears: bool,
    pub chain: Vec<u32>,
}

/// "a work slice of twice the lot capacity"
pub fn nearest_needs(Capacities { nodes, .. }: Capacities) -> usize {
    2 * nodes as usize
}

/// Request 4: "It refuses with 14, value NONE, where no chain exists: after 1, after
/// 5 and 6 for the first lot and then for the second, after 2 for the work slice, and
/// before 2 for the chain." Of the lengths of the work slice and the chain's.
pub fn nearest(
    lots: &impl Lots,
    capacities: Capacities,
    [first, second]: [u32; 2],
    [work, room]: [usize; 2],
) -> Searched {
    let fault = |node| match lots.payload(node) {
        None => Some(Answer::refused(5)),
        Some(_) if !lots.contains_node(node) => Some(Answer::refused(6)),
        Some(_) => None,
    };
    let needed = nearest_needs(capacities);
    let short = (work < needed).then_some(Answer::too_short(needed));
    let refused = fault(first).or_else(|| fault(second)).or(short);
    let (answer, clears, chain) = match refused {
        Some(refused) => (refused, false, Vec::new()),
        None => match lots.nearest(first, second).map(|chain| fit(chain, room)) {
            None => (Answer::refused(14), true, Vec::new()),
            Some(Err(short)) => (short, true, Vec::new()),
            Some(Ok(chain)) => (Answer::done(chain.len() as u64), true, chain),
        },
    };
    Searched {
        answer,
        clears,
        chain,
    }
}

/// "The caller lends a node map and an edge map, as long as the bounds before,
/// and a work slice of twice the live edge count".
pub fn compaction_needs(lots: &impl Lots) -> [usize; 3] {
    let [nodes, edges] = lots.bounds();
    [nodes, edges, 2 * lots.live_edges().len()]
}

/// "(1, then 2 in that order)": node map, edge map, work slice.
pub fn compact(lots: &mut impl Lots, lengths: [usize; 3]) -> Result<[Vec<u32>; 3], Answer> {
    let needs = compaction_needs(lots).into_iter().zip(lengths);
    if let Some((needed, _)) = needs.into_iter().find(|(needed, lent)| lent < needed) {
        return Err(Answer::too_short(needed));
    }
    Ok(lots.compaction())
}

/// Request 2: "It needs a work slice of twice the live transfer count, checked for
/// length before the image's slice". The lengths lent are in that order.
pub fn write_image(lots: &impl Lots, [work, length]: [usize; 2]) -> Result<Vec<u8>, Answer> {
    let needed = 2 * lots.live_edges().len();
    if work < needed {
        return Err(Answer::too_short(needed));
    }
    fit(lots.image(), length)
}

/// "Reading: 13, 12, 2 (13 and 2 nodes before edges, a payload slice shorter
/// than its count being too short, then the other slices)". The Rust has no
/// image reading.
pub fn read_image(nodes: u64, edges: u64, bytes: &[u8]) -> Result<Model, Answer> {
    read_image_on(BOX, nodes, edges, bytes)
}

/// The same on a device. Request 7: 15 "in place of 13 when lent memory exceeds its
/// limits, and right after 12 when an image does".
pub fn read_image_on(
    device: Device,
    nodes: u64,
    edges: u64,
    bytes: &[u8],
) -> Result<Model, Answer> {
    let capacities = device.within([nodes, edges])?;
    let plain = image::read(bytes).map_err(|rule| Answer {
        number: 12,
        value: rule.into(),
    })?;
    let counts = [plain.nodes.len(), plain.edges.len()];
    device.within(counts.map(|count| count as u64))?;
    for (count, capacity) in counts.into_iter().zip([nodes, edges]) {
        if capacity < count as u64 {
            return Err(Answer::too_short(count));
        }
    }
    Ok(Model {
        capacities,
        plain,
        compact: true,
    })
}

/// "the program `lotstrip` (512 nodes, 1,024 edges)".
pub const LOTSTRIP: Capacities = Capacities {
    nodes: 512,
    edges: 1024,
};

/// All that `lotstrip` prints for an input, "`lotstrip` takes 20 bytes" an
/// operation: "a line per operation with position
/// from 0, number and value in decimal", then the image "on one line in
/// lower-case hexadecimal". Every line ends in a newline; empty input is a strip
/// of no operations.
pub fn lotstrip<L: Lots>(input: &[u8]) -> String {
    if input.len() > 65_536 {
        return "strip 2\n".to_string();
    }
    if !input.len().is_multiple_of(20) {
        return "strip 3\n".to_string();
    }
    let (words, _) = input.as_chunks::<4>();
    let words: Vec<u32> = words.iter().map(|&word| u32::from_be_bytes(word)).collect();
    let mut lots = L::fresh(LOTSTRIP);
    let room = 2 * (words.len() / 5);
    let answers = strip(&mut lots, &words, room).expect("the length fits");
    let mut text = String::new();
    for (position, Answer { number, value }) in answers.into_iter().enumerate() {
        writeln!(text, "{position} {number} {value}").expect("a string takes any text");
    }
    lots.compaction();
    text + &hexadecimal(&lots.image()) + "\n"
}

pub fn hexadecimal(bytes: &[u8]) -> String {
    bytes.iter().map(|byte| format!("{byte:02x}")).collect()
}
