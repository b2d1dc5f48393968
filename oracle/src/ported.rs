//! The proved Rattle code beside the Rust store: the static library of the public
//! entries is linked through its Rust wrapper, the same steps are made on both, and
//! what both tell is compared. The public entries require nothing.

#[cfg(feature = "serde")]
pub mod benchmark;
#[cfg(feature = "serde")]
pub mod book;
#[cfg(feature = "serde")]
mod chains;
mod columns;
#[cfg(feature = "serde")]
mod damaged;
mod images;
#[cfg(feature = "serde")]
mod joins;
mod maps;
mod memory;
#[cfg(feature = "serde")]
mod ranges;
mod rules;
mod skid;
mod strips;
mod words;

use crate::calls::{self, Lots};
use crate::compare::Touched;
use crate::generate::Step;
use crate::graph::store::{Graph, Renumbering};
use crate::lots::{Compaction, Counts, LotBook, Refused, Slots};
use crate::model::{Answer, Capacities, DIRECTIONS, Model, NONE, Operation};
use crate::rust_store::{self, RustStore, edge, node, record};
use crate::sequences::{self, Same, Sides};
use crate::shape::Shape;
use crate::tally::{Tally, Thing};
use columns::Column;
use words::{LISTS, answer, listed};

/// What stands past a list in a lent slice, to see that it stays.
const PAST: [u32; 2] = [0xdead_beef, 7];

/// A slice to lend for so many words.
fn lent(length: usize) -> Vec<u32> {
    let mut words = vec![NONE - 1; length];
    words.extend(PAST);
    words
}

/// The words that were written to a lent slice.
fn kept(mut words: Vec<u32>) -> Vec<u32> {
    let past = words.split_off(words.len() - PAST.len());
    assert_eq!(past, PAST, "promised: words past the list as they were");
    words
}

/// Makes a strip on all sides, with an answer slice of so many words. Where the
/// strip or each of its operations is refused, every word of the memory stays.
fn compare_strip(
    model: &mut Model,
    shape: &mut Shape,
    rust: &mut RustStore,
    book: &mut LotBook,
    words: &[u32],
    length: usize,
    tally: &mut Tally,
) -> Same {
    let place = || format!("strip {words:?}, answer slice {length}");
    let answered = calls::strip(rust, words, length);
    calls::strip(model, words, length).ok();
    let mut given = vec![NONE - 1; length];
    let mut expected = given.clone();
    let mut refused = true;
    let answers = answered.as_deref().unwrap_or_default();
    let (operations, _) = words.as_chunks();
    let (pairs, _) = expected.as_chunks_mut();
    for ((&operation, &answer), pair) in operations.iter().zip(answers).zip(pairs) {
        tally.answered(operation, answer);
        refused &= answer.number != 0;
        *pair = [answer.number, answer.value as u32];
        if let Some(operation) = Operation::decode(operation)
            && answer.number == 0
        {
            shape.operation(operation, answer.value);
        }
    }
    let before = refused.then(|| book.memory().clone());
    let expected = (answered.err().unwrap_or(Answer::done(0)), expected);
    let given = (answer(book.strip_words(words, &mut given)), given);
    tally.same(Thing::PortAnswer, place, expected, given)?;
    if let Some(before) = before {
        tally.same(Thing::PortRefusal, place, &before, book.memory())?;
    }
    Ok(())
}

#[derive(Clone)]
pub struct Ported {
    model: Model,
    /// What the port's runs hold, dead entries included.
    shape: Shape,
    rust: RustStore,
    book: LotBook,
    /// The latest compaction's maps.
    renumbering: Option<Renumbering>,
}

impl Sides for Ported {
    const NAME: &str = "sequences with the port";

    fn fresh(capacities: Capacities) -> Self {
        Self {
            model: Lots::fresh(capacities),
            shape: Shape::of(&Graph::new()),
            rust: RustStore::fresh(capacities),
            book: LotBook::from_memory(memory::fresh(capacities)),
            renumbering: None,
        }
    }

    fn model(&self) -> &Model {
        &self.model
    }

    fn compare_step(&mut self, step: &Step, everything: bool, tally: &mut Tally) -> Same {
        let everything = everything || !matches!(step, Step::Operation(_));
        let mut touched = Vec::new();
        match step {
            Step::Operation(words) => {
                if let Some(operation) = Operation::decode(*words) {
                    touched = Touched::by(operation, &self.model.plain).nodes;
                }
                self.strip(words, 2, tally)?;
            }
            Step::Compact => self.compact(tally)?,
            Step::Read(bytes) => self.read(bytes, tally)?,
        }
        if everything {
            return self.compare_everything(tally);
        }
        self.compare_whole(tally)?;
        for node in touched {
            self.compare_node(node, tally)?;
        }
        Ok(())
    }
}

impl Ported {
    /// Beside a store that neither a fresh one nor an image led to.
    #[cfg(feature = "serde")]
    pub fn foreign(model: Model, rust: RustStore) -> Self {
        Self {
            book: LotBook::from_memory(memory::of(&rust)),
            shape: Shape::of(&rust.graph),
            model,
            rust,
            renumbering: None,
        }
    }

    fn strip(&mut self, words: &[u32], length: usize, tally: &mut Tally) -> Same {
        let Self {
            model,
            shape,
            rust,
            book,
            ..
        } = self;
        compare_strip(model, shape, rust, book, words, length, tally)
    }

    fn compact(&mut self, tally: &mut Tally) -> Same {
        let place = || "a compaction".to_string();
        let given = self.book.compact().map_err(Answer::from);
        let kept = self.model.compact().plain;
        let (renumbering, _) = self.rust.compact_as(&kept);
        let [node_map, edge_map] = rust_store::maps(&renumbering);
        let [outgoing, incoming] = self.rust.graph.compressed_base().map(|(_, joined)| joined);
        let expected = Compaction {
            node_map,
            edge_map,
            outgoing: outgoing.to_vec(),
            incoming: incoming.to_vec(),
        };
        tally.same(Thing::PortCompaction, place, Ok(expected), given)?;
        self.shape = Shape::compacted(&kept);
        maps::compare_lookups(&renumbering, tally)?;
        if let Some(earlier) = &self.renumbering {
            maps::compare_composed(earlier, &renumbering, tally)?;
        }
        self.renumbering = Some(renumbering);
        self.compare_offsets(tally)
    }

    fn read(&mut self, bytes: &[u8], tally: &mut Tally) -> Same {
        let place = || "reading an image".to_string();
        let given = answer(self.book.read_image(bytes));
        tally.same(Thing::PortReading, place, Answer::done(0), given)?;
        let Capacities { nodes, edges } = self.model.capacities;
        let read = calls::read_image(nodes.into(), edges.into(), bytes);
        self.model = read.expect("a written image can be read");
        self.rust.put(&self.model.plain);
        self.shape = Shape::compacted(&self.model.plain);
        self.renumbering = None;
        self.compare_offsets(tally)
    }

    /// The offsets of a new base; its joined lists are the base parts.
    fn compare_offsets(&self, tally: &mut Tally) -> Same {
        let (graph, memory) = (&self.rust.graph, self.book.memory());
        let bases = graph.compressed_base();
        for ((side, direction), base) in memory.sides().iter().zip(DIRECTIONS).zip(bases) {
            let place = || format!("base, {direction:?}");
            let (offsets, _) = graph.compress_again(direction);
            let given = side.offsets(memory.counts.nodes.base as usize);
            tally.same(Thing::PortIndex, place, &*offsets, &*given)?;
            // The Rust has no offsets before the first compaction.
            if !base.0.is_empty() {
                tally.same(Thing::PortIndex, place, base.0, &*given)?;
            }
        }
        Ok(())
    }

    pub fn compare_everything(&self, tally: &mut Tally) -> Same {
        self.compare_whole(tally)?;
        let place = || "the store".to_string();
        tally.same(
            Thing::PortRules,
            place,
            0,
            self.book.memory().first_broken(),
        )?;
        self.compare_live(tally)?;
        self.compare_records(tally)?;
        self.compare_parts(tally)?;
        for node in self.some(self.rust.graph.node_bound()) {
            self.compare_node(node, tally)?;
        }
        Ok(())
    }

    /// All slots below a bound; of a large store some, not always the same: each call
    /// that reads one checks the whole store.
    fn some(&self, bound: usize) -> impl Iterator<Item = u32> + use<> {
        let step = 1 + bound / 64;
        let first = self.rust.graph.edge_count() % step;
        (first as u32..bound as u32).step_by(step)
    }

    /// Bounds, base counts and counts of live slots, and the check.
    fn compare_whole(&self, tally: &mut Tally) -> Same {
        let graph = &self.rust.graph;
        let place = || "the store".to_string();
        let [base_nodes, base_edges] = graph.base_counts();
        let slots = |bound: usize, base: usize, live: usize| Slots {
            bound: bound as u32,
            base: base as u32,
            live: live as u32,
        };
        let expected = Counts {
            nodes: slots(graph.node_bound(), base_nodes, graph.node_count()),
            edges: slots(graph.edge_bound(), base_edges, graph.edge_count()),
        };
        tally.same(Thing::PortCount, place, expected, self.book.memory().counts)?;
        let given = answer(self.book.check());
        tally.same(Thing::PortCheck, place, Answer::done(0), given)
    }

    /// The lists of live slots; slots, and some past the last, whether each is live.
    fn compare_live(&self, tally: &mut Tally) -> Same {
        type Contains = fn(&LotBook, u32) -> Result<bool, Refused>;
        let (graph, book) = (&self.rust.graph, &self.book);
        let kinds: [(_, &dyn Fn(u32) -> bool, _, Contains); 2] = [
            (
                graph.node_bound(),
                &|slot| graph.contains_node(node(slot)),
                book.node_ids(),
                LotBook::contains_node,
            ),
            (
                graph.edge_bound(),
                &|slot| graph.contains_edge(edge(slot)),
                book.edge_ids(),
                LotBook::contains_edge,
            ),
        ];
        for (bound, live, given, contains) in kinds {
            let place = || "live slots".to_string();
            let expected = (0..bound as u32).filter(|&slot| live(slot)).collect();
            tally.same(Thing::PortLive, place, Ok::<Vec<u32>, _>(expected), given)?;
            let past = [bound as u32, bound as u32 + 1, bound as u32 + 64, NONE];
            for slot in self.some(bound).chain(past) {
                let place = || format!("slot {slot}");
                let given = contains(book, slot);
                tally.same(Thing::PortLive, place, Ok(live(slot)), given)?;
            }
        }
        Ok(())
    }

    /// Payloads of nodes, ends and payloads of edges, removed ones too, as the memory
    /// holds them.
    fn compare_records(&self, tally: &mut Tally) -> Same {
        let (graph, memory) = (&self.rust.graph, self.book.memory());
        for (slot, &given) in (0..graph.node_bound() as u32).zip(&memory.nodes) {
            let place = || format!("node {slot}");
            tally.same(Thing::PortRecord, place, *graph.node(node(slot)), given)?;
        }
        let [outgoing, incoming] = memory.sides();
        for slot in 0..graph.edge_bound() {
            let place = || format!("edge {slot}");
            let expected = record(graph, slot as u32);
            let [source, target] = [outgoing, incoming].map(|side| side.word(Column::Ends, slot));
            let given = [source, target, memory.lows[slot], memory.highs[slot]];
            tally.same(Thing::PortRecord, place, expected, given)?;
        }
        Ok(())
    }

    fn compare_parts(&self, tally: &mut Tally) -> Same {
        let things = [Thing::PortRun, Thing::PortPart];
        compare_parts(&self.rust, &self.shape, &self.book, things, tally)
    }

    /// Walk, degree and far ends of a node, both ways.
    fn compare_node(&self, slot: u32, tally: &mut Tally) -> Same {
        let (rust, book) = (&self.rust, &self.book);
        for (direction, [edges, ends], degree) in LISTS {
            let place = || format!("node {slot}, {direction:?}");
            let walk = calls::walk(rust, direction, slot, usize::MAX);
            let needed = walk.as_ref().map_or(0, Vec::len);
            let far = walk.clone().map(|_| rust.neighbors(direction, slot));
            let expected = walk.clone().map(|_| rust.degree(direction, slot));
            let given = degree(book, slot).map_err(Answer::from);
            tally.same(Thing::PortDegree, place, expected, given)?;
            for (thing, expected, call) in [
                (Thing::PortWalk, walk, edges),
                (Thing::PortNeighbors, far, ends),
            ] {
                let expected = expected.map(|list| (list.len(), list));
                let given = listed(needed, |slots| call(book, slot, slots));
                tally.same(thing, place, expected, given)?;
            }
        }
        Ok(())
    }
}

/// Base parts, runs and rings of every node, as the memory holds them: by the model
/// with dead entries, and by the Rust without those of runs.
fn compare_parts(
    rust: &RustStore,
    shape: &Shape,
    book: &LotBook,
    [by_model, by_rust]: [Thing; 2],
    tally: &mut Tally,
) -> Same {
    let (graph, memory) = (&rust.graph, book.memory());
    for (side, direction) in memory.sides().iter().zip(DIRECTIONS) {
        for (node, part) in graph.parts(direction).into_iter().enumerate() {
            let place = || format!("node {node}, {direction:?}");
            let given = side.part(memory.counts, node);
            tally.ran(given.run.as_ref().map_or(0, Vec::len));
            let held = shape.part(direction, node);
            tally.same(by_model, place, held, &given)?;
            let live = |slot| graph.contains_edge(edge(slot));
            let [part, given] = [part, given].map(|part| part.struck(live));
            tally.same(by_rust, place, part, given)?;
        }
    }
    Ok(())
}

/// Random sequences of so many operations, all sequences of up to `depth` steps
/// from four stores, fresh stores, strips of many operations, any two maps, and
/// damaged stores.
pub fn compare(operations: u64, depth: usize, seed: u64, tally: &mut Tally) -> Same {
    sequences::compare_random::<Ported>(operations, seed, tally);
    sequences::compare_exhaustive::<Ported>(depth, tally);
    strips::compare_fresh(4_000, seed, tally)?;
    strips::compare(4_000, seed, tally)?;
    images::compare(20_000, seed, tally)?;
    skid::compare(10_000, seed, tally)?;
    maps::compare(20_000, seed, tally)?;
    #[cfg(feature = "serde")]
    {
        damaged::compare(60_000, seed, tally)?;
        chains::compare(seed, tally)?;
        compare_books(operations, seed, tally)?;
    }
    Ok(())
}

/// The out-list of node 0 after a compaction by the proved code.
#[cfg(feature = "serde")]
pub fn compacted_walk(rust: &RustStore) -> Vec<u32> {
    let mut book = LotBook::from_memory(memory::of(rust));
    book.compact().expect("a store");
    book.outgoing(0).expect("a store")
}

/// The wrapper's lot books, on so many operations, and a tenth as many each on
/// damaged stores and with ranges.
#[cfg(feature = "serde")]
pub fn compare_books(operations: u64, seed: u64, tally: &mut Tally) -> Same {
    book::compare(operations, operations / 10, seed, tally)?;
    book::compare_skid(operations / 10, seed, tally)?;
    ranges::compare(operations / 10, seed, tally)?;
    joins::compare(2_000, seed, tally)
}
