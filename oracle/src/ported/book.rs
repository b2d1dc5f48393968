//! The proved store through its Rust wrapper, at scale: random strips of many
//! operations to the Rust store and to a lot book, and after every strip every
//! read of both. After every strip a copy of the book's memory is damaged: where
//! the check refuses it, every call has to answer 1 with its rule and leave every
//! word; where it passes, it goes into both sides, into the Rust through
//! `validate.rs`, and strips and reads follow as before.

use std::fmt;

use super::damaged::{damage, written};
use super::memory;
use super::ranges::{self, Ranged};
use super::strips::operations;
use super::words::{LISTS, Words, judge, listed};
use super::{compare_parts, compare_strip, kept, lent};
use crate::calls::{self, Lots, Searched};
use crate::checked::read;
use crate::generate::{
    Generator, MEDIUM, MIXES, Mix, SHORT, Size, WHOLE_SKID, compact_lists, one_weight,
};
use crate::graph::store::Graph;
use crate::image;
use crate::lots::{Device, EdgePayload, EdgeRecord, LotBook, Refused, maps};
use crate::model::{Answer, Capacities, DIRECTIONS, Model, NONE};
use crate::record::spoiled_image;
use crate::rng::Rng;
use crate::rust_store::{self, RustStore};
use crate::sequences::{Same, guarded};
use crate::shape::Shape;
use crate::tally::{Difference, Tally, Thing};

/// A list into a slice with words to spare, and now and then into one that is too
/// short; refused, the slice stays.
fn compare_list(
    place: impl Fn() -> String,
    expected: Result<Vec<u32>, Answer>,
    call: impl Fn(&mut [u32]) -> Result<u32, Refused>,
    short: bool,
    tally: &mut Tally,
) -> Same {
    let needed = expected.as_ref().map_or(0, Vec::len);
    let expected = expected.map(|list| (list.len(), list));
    tally.same(Thing::BookList, &place, expected, listed(needed, &call))?;
    if short && needed > 0 {
        let mut slots = vec![NONE - 1; needed - 1];
        let given = call(&mut slots).map_err(Answer::from);
        let expected = (Err(Answer::too_short(needed)), vec![NONE - 1; needed - 1]);
        tally.same(Thing::BookList, &place, expected, (given, slots))?;
    }
    Ok(())
}

struct Shelf {
    /// What operations are chosen by.
    model: Model,
    /// What the book's runs hold, dead entries included.
    shape: Shape,
    rust: RustStore,
    book: LotBook,
    /// Whether neither a fresh store nor an image led to this one.
    foreign: bool,
}

impl Shelf {
    /// A fresh store on a device, over words that hold anything.
    fn fresh(device: Device, capacities: Capacities) -> Self {
        let mut book = LotBook::from_memory_on(device, memory::fresh(capacities));
        book.fresh().expect("promised: capacities of the device");
        Self {
            model: Lots::fresh(capacities),
            shape: Shape::of(&Graph::new()),
            rust: RustStore::fresh(capacities),
            book,
            foreign: false,
        }
    }

    fn of(device: Device, rust: RustStore, memory: Words) -> Self {
        let model = Model {
            capacities: rust.capacities,
            plain: rust.plain(),
            compact: rust.graph.is_compact(),
        };
        Self {
            model,
            shape: Shape::of(&rust.graph),
            rust,
            book: LotBook::from_memory_on(device, memory),
            foreign: true,
        }
    }

    /// Makes a strip of up to so many operations on all sides, and compares every
    /// answer and then every read; how many operations it had.
    fn strip(
        &mut self,
        most: usize,
        generator: &mut Generator,
        tally: &mut Tally,
    ) -> Result<u64, Difference> {
        let words = operations(most, &self.model, generator);
        let length = 2 * (words.len() / 5) + generator.rng.below(3);
        let Self {
            model,
            shape,
            rust,
            book,
            ..
        } = self;
        compare_strip(model, shape, rust, book, &words, length, tally)?;
        self.compare_reads(generator.rng, tally)?;
        Ok(words.len() as u64 / 5)
    }

    /// Compacts on both sides: the maps and the lists into slices with words to
    /// spare, then every read. Before it, one of the three slices is too short.
    /// A store from elsewhere is judged by the Rust where it is the yardstick, and
    /// by the model's lists elsewhere.
    fn compact(&mut self, rng: &mut Rng, tally: &mut Tally) -> Same {
        let place = || "a compaction".to_string();
        let [nodes, edges] = self.rust.bounds();
        let needed = [nodes, edges, 2 * self.rust.graph.edge_count()];
        let short = rng.below(needed.len());
        if let Some(shorter) = needed[short].checked_sub(1) {
            let before = self.book.clone();
            let mut slices = needed.map(|length| vec![NONE - 1; length]);
            slices[short].truncate(shorter);
            let untouched = slices.clone();
            let [node_map, edge_map, work] = &mut slices;
            let given = self.book.compact_into(node_map, edge_map, work);
            let given = (given.map_err(Answer::from), self.book == before, slices);
            let expected = (Err(Answer::too_short(needed[short])), true, untouched);
            tally.same(Thing::BookCompaction, place, expected, given)?;
        }
        let mut slices = needed.map(lent);
        let [node_map, edge_map, work] = &mut slices;
        let given = self.book.compact_into(node_map, edge_map, work);
        let given = given.map(|()| slices.map(kept)).map_err(Answer::from);
        let kept = self.model.compact().plain;
        let (renumbering, in_order) = self.rust.compact_as(&kept);
        self.shape = Shape::compacted(&kept);
        let [node_map, edge_map] = rust_store::maps(&renumbering);
        let [(_, outgoing), (_, incoming)] = self.rust.graph.compressed_base();
        let expected = Ok([node_map, edge_map, [outgoing, incoming].concat()]);
        let thing = match (self.foreign, in_order) {
            (false, _) => Thing::BookCompaction,
            (true, true) => Thing::BookForeignRust,
            (true, false) => Thing::BookForeignModel,
        };
        tally.same(thing, place, expected, given)?;
        tally.same(thing, place, kept, self.rust.plain())?;
        self.foreign = false;
        self.compare_reads(rng, tally)?;
        self.compact_again(tally)
    }

    /// Reads an image, its own, another or a spoiled one, on both
    /// sides, then every read. Refused, every word stays.
    fn read(&mut self, rng: &mut Rng, tally: &mut Tally) -> Same {
        let place = || "reading an image".to_string();
        let device = self.book.device();
        let Capacities { nodes, edges } = self.rust.capacities;
        // On the skid also more than it takes.
        let most = match device {
            Device::Box => self.rust.capacities,
            Device::Skid => Capacities {
                nodes: nodes.max(72),
                edges: edges.max(144),
            },
        };
        let bytes = match rng.below(3) {
            0 => self.rust.image(),
            1 => spoiled_image(rng, one_weight),
            _ => image::write(&compact_lists(rng, most, one_weight)),
        };
        let read = calls::read_image_on(judge(device), nodes.into(), edges.into(), &bytes);
        // Spoiled to a range: the Rust cannot hold it, `ranges.rs` has such images.
        if read
            .as_ref()
            .is_ok_and(|model| !model.plain.one_weight_each())
        {
            return Ok(());
        }
        let before = self.book.clone();
        let given = self.book.read_image(&bytes).map_err(Answer::from);
        match read {
            Ok(model) => {
                tally.same(Thing::BookReading, place, Ok(()), given)?;
                self.rust.put(&model.plain);
                self.shape = Shape::compacted(&model.plain);
                self.model = model;
                self.foreign = false;
                self.compare_reads(rng, tally)?;
                let image = self.book.image().map_err(Answer::from);
                tally.same(Thing::BookReading, place, Ok(bytes), image)?;
                self.compact_again(tally)
            }
            Err(refused) => {
                let given = (given, &self.book);
                tally.same(Thing::BookReading, place, (Err(refused), &before), given)
            }
        }
    }

    /// A second compaction changes no word, and its maps leave every slot.
    fn compact_again(&mut self, tally: &mut Tally) -> Same {
        let place = || "a second compaction".to_string();
        let before = self.book.clone();
        let given = self.book.compact().map_err(Answer::from);
        let given = given.map(|each| maps::is_identity(&each.node_map, &each.edge_map));
        tally.same(
            Thing::BookCompaction,
            place,
            (Ok(true), true),
            (given, self.book == before),
        )
    }

    fn compare_reads(&self, rng: &mut Rng, tally: &mut Tally) -> Same {
        self.compare_parts(tally)?;
        let reads = Reads {
            lots: &self.rust,
            book: &self.book,
        };
        reads.compare(rng, tally)
    }

    /// Base parts, runs and rings, through the memory itself.
    fn compare_parts(&self, tally: &mut Tally) -> Same {
        let things = [Thing::BookRun, Thing::BookPart];
        compare_parts(&self.rust, &self.shape, &self.book, things, tally)
    }
}

/// Every public read of a book, held against the Rust's store or the model.
pub struct Reads<'s, L> {
    pub lots: &'s L,
    pub book: &'s LotBook,
}

impl<L: Lots> Reads<'_, L> {
    pub fn compare(&self, rng: &mut Rng, tally: &mut Tally) -> Same {
        self.compare_whole(tally)?;
        self.compare_image(tally)?;
        let [nodes, edges] = self.lots.bounds().map(|bound| bound as u32);
        for node in (0..nodes).chain([nodes, NONE]) {
            self.compare_node(node, rng, tally)?;
            let other = rng.below(nodes as usize + 2) as u32;
            self.compare_find(node, other, tally)?;
            self.compare_find(other, node, tally)?;
            if rng.one_in(3) {
                self.compare_nearest([node, other], rng, tally)?;
            }
        }
        for edge in (0..edges).chain([edges, NONE]) {
            self.compare_edge(edge, tally)?;
            // A pair between which there is an edge, live or not.
            if let Some(([source, target, ..], _)) = self.lots.record(edge) {
                self.compare_find(source, target, tally)?;
            }
        }
        Ok(())
    }

    fn compare_whole(&self, tally: &mut Tally) -> Same {
        let (lots, book) = (self.lots, self.book);
        let place = || "the store".to_string();
        let expected = [lots.bounds(), lots.counts()].map(|pair| pair.map(|slots| slots as u32));
        let given = [
            [book.node_bound(), book.edge_bound()],
            [book.node_count(), book.edge_count()],
        ];
        let expected = expected.map(|pair| pair.map(Ok));
        tally.same(Thing::BookWhole, place, expected, given)?;
        let flags = [
            (lots.is_empty(), book.is_empty()),
            (lots.is_compact(), book.is_compact()),
        ];
        for (expected, given) in flags {
            tally.same(Thing::BookWhole, place, Ok(expected), given)?;
        }
        tally.same(Thing::BookWhole, place, Ok(()), book.check())?;
        let ids: [(_, fn(&LotBook, &mut [u32]) -> _); 2] = [
            (lots.live_nodes(), LotBook::node_ids_into),
            (lots.live_edges(), LotBook::edge_ids_into),
        ];
        for (expected, call) in ids {
            compare_list(place, Ok(expected), |slots| call(book, slots), true, tally)?;
        }
        Ok(())
    }

    /// The image of the store, compact or not: with words of work and bytes to spare,
    /// and with slices that are too short, alone and together, which have to stay.
    fn compare_image(&self, tally: &mut Tally) -> Same {
        let place = || "the image".to_string();
        let image = self.lots.image();
        let needed = [2 * self.lots.live_edges().len(), image.len()];
        let less = needed.map(|length| length.saturating_sub(1));
        let [more, exact] = [2, 0].map(|spare| needed.map(|length| length + spare));
        let lengths = [more, exact, [exact[0], less[1]], [less[0], more[1]], less];
        for [work_lent, bytes_lent] in lengths {
            let expected = calls::write_image(self.lots, [work_lent, bytes_lent]);
            let mut work = vec![77; work_lent];
            let mut bytes = vec![77; bytes_lent];
            let given = self.book.image_into(&mut work, &mut bytes);
            // The words of work that are needed are left free where it is done.
            let free = if expected.is_ok() { needed[0] } else { 0 };
            let mut whole = vec![77; bytes_lent];
            if expected.is_ok() {
                whole[..image.len()].copy_from_slice(&image);
            }
            let expected = expected.map(|image| image.len() as u32);
            let expected = (expected, vec![77; work_lent - free], whole);
            let given = (given.map_err(Answer::from), work.split_off(free), bytes);
            tally.same(Thing::BookImage, place, expected, given)?;
        }
        if !self.lots.is_compact() {
            let mut copy = self.book.clone();
            let compacted = copy.compact().map(|_| ());
            let expected = (compacted, copy.image());
            let given = (Ok(()), self.book.image());
            tally.same(Thing::BookWorking, place, expected, given)?;
        }
        Ok(())
    }

    fn compare_node(&self, node: u32, rng: &mut Rng, tally: &mut Tally) -> Same {
        let (lots, book) = (self.lots, self.book);
        let place = || format!("node {node}");
        for (direction, lists, degree) in LISTS {
            let walk = calls::walk(lots, direction, node, usize::MAX);
            let expected = walk.clone().map(|_| lots.degree(direction, node));
            let given = degree(book, node).map_err(Answer::from);
            tally.same(Thing::BookDegree, place, expected, given)?;
            let expected = calls::total(lots, direction, node);
            let given = book.memory().total(direction, node);
            tally.same(Thing::BookTotal, place, expected, given)?;
            let neighbors = walk.clone().map(|_| lots.neighbors(direction, node));
            for (expected, call) in [walk, neighbors].into_iter().zip(lists) {
                let call = |slots: &mut [u32]| call(book, node, slots);
                compare_list(place, expected, call, rng.one_in(4), tally)?;
            }
        }
        let given = book.node_payload(node).map(u64::from);
        let given = given.map_or_else(Answer::from, Answer::done);
        tally.same(Thing::BookSlot, place, calls::payload(lots, node), given)?;
        let expected = Ok(lots.contains_node(node));
        tally.same(Thing::BookSlot, place, expected, book.contains_node(node))
    }

    fn compare_edge(&self, edge: u32, tally: &mut Tally) -> Same {
        let (lots, book) = (self.lots, self.book);
        let place = || format!("edge {edge}");
        let records = [book.edge_record(edge), book.live_edge_record(edge)];
        for (live_only, given) in [false, true].into_iter().zip(records) {
            let given = match given {
                Ok(EdgeRecord {
                    source,
                    target,
                    payload: EdgePayload { low, high },
                }) => (Answer::done(0), [source, target, low, high]),
                Err(refused) => (refused.into(), [0; 4]),
            };
            let expected = calls::record(lots, edge, live_only);
            tally.same(Thing::BookSlot, place, expected, given)?;
        }
        let expected = Ok(lots.contains_edge(edge));
        tally.same(Thing::BookSlot, place, expected, book.contains_edge(edge))
    }

    /// The found edge is the first of the out-list that ends at the other.
    fn compare_find(&self, source: u32, target: u32, tally: &mut Tally) -> Same {
        let place = || format!("from node {source} to node {target}");
        let given = self.book.find(source, target).map_err(Answer::from);
        let expected = match calls::find(self.lots, source, target) {
            Answer { number: 0, value } if value == u64::from(NONE) => Ok(None),
            Answer { number: 0, value } => Ok(Some(value as u32)),
            refused => Err(refused),
        };
        tally.same(Thing::BookFind, place, expected, given)
    }

    /// The nearest chain, into slices that are long enough, with words to spare or
    /// without, or one of them too short.
    fn compare_nearest(&self, lots: [u32; 2], rng: &mut Rng, tally: &mut Tally) -> Same {
        let memory = self.book.memory();
        let capacities = Capacities {
            nodes: memory.nodes.len() as u32,
            edges: memory.lows.len() as u32,
        };
        let longest = calls::nearest(self.lots, capacities, lots, [usize::MAX; 2]);
        let needed = [calls::nearest_needs(capacities), longest.chain.len()];
        let lengths = needed.map(|needed| match rng.below(6) {
            0 => needed.saturating_sub(1),
            1 => needed + rng.below(3),
            _ => needed,
        });
        let expected = calls::nearest(self.lots, capacities, lots, lengths);
        compare_searched(
            Thing::BookNearest,
            &expected,
            self.book,
            lots,
            lengths,
            tally,
        )
    }
}

/// A search for the nearest lot in a book, with a work slice and a chain's slice of
/// these lengths that hold anything: the answer, and both slices whole.
pub fn compare_searched(
    thing: Thing,
    expected: &Searched,
    book: &LotBook,
    [first, second]: [u32; 2],
    [work, room]: [usize; 2],
    tally: &mut Tally,
) -> Same {
    const DIRTY: u32 = 0xdead_beef;
    let place = || format!("from node {first} to node {second}, {work} and {room} words lent");
    let mut lent = [vec![DIRTY; work], vec![NONE - 1; room]];
    let mut left = lent.clone();
    if expected.clears {
        left[0][..2 * book.memory().nodes.len()].fill(0);
    }
    left[1][..expected.chain.len()].copy_from_slice(&expected.chain);
    let [work, chain] = &mut lent;
    let given = book.nearest_into(first, second, work, chain).map(u64::from);
    let given = given.map_or_else(Answer::from, Answer::done);
    tally.same(thing, place, (expected.answer, left), (given, lent))
}

/// Every call on memory that is no store answers 1 with the rule, and leaves every
/// word.
fn compare_refused(memory: &Words, refused: Refused, rng: &mut Rng, tally: &mut Tally) -> Same {
    let place = || format!("a damaged store, {memory:?}");
    let mut book = LotBook::from_memory(memory.clone());
    let (mut slots, mut work) = ([NONE - 1; 8], [NONE - 1; 8]);
    let (first, second) = (rng.word() % 8, rng.word() % 8);
    let words = [5, first, second, 0, 0];
    let nothing = |_: u32| ();
    let answers = [
        book.check(),
        book.strip_words(&words, &mut slots),
        book.strip_words(&words[..4], &mut slots),
        book.outgoing_into(first, &mut slots).map(nothing),
        book.incoming_into(first, &mut slots).map(nothing),
        book.successors_into(first, &mut slots).map(nothing),
        book.predecessors_into(first, &mut slots).map(nothing),
        book.out_degree(first).map(nothing),
        book.in_degree(first).map(nothing),
        book.find(first, second).map(|_| ()),
        book.nearest_into(first, second, &mut work, &mut slots)
            .map(nothing),
        book.node_payload(first).map(nothing),
        book.edge_record(first).map(|_| ()),
        book.live_edge_record(first).map(|_| ()),
        book.contains_node(first).map(|_| ()),
        book.contains_edge(first).map(|_| ()),
        book.is_empty().map(|_| ()),
        book.is_compact().map(|_| ()),
        book.node_bound().map(nothing),
        book.edge_bound().map(nothing),
        book.node_count().map(nothing),
        book.edge_count().map(nothing),
        book.node_ids_into(&mut slots).map(nothing),
        book.edge_ids_into(&mut slots).map(nothing),
        book.image_into(&mut [0; 8], &mut [0; 8]).map(nothing),
    ];
    for answer in answers {
        tally.same(Thing::BookRefused, place, Err(refused), answer)?;
    }
    for direction in DIRECTIONS {
        let expected = (Answer::from(refused), [0; 2]);
        let given = memory.total(direction, first);
        tally.same(Thing::BookRefused, place, expected, given)?;
    }
    let expected = (memory, [[NONE - 1; 8]; 2]);
    let given = (book.memory(), [slots, work]);
    tally.same(Thing::BookRefused, place, expected, given)
}

/// How many operations there were, and damaged stores.
#[derive(Default)]
struct Found {
    reached: u64,
    foreign: u64,
    strips: u64,
    passed: u64,
    /// Of these, those with ranges, which go no further with the Rust.
    ranged: u64,
    refused: u64,
}

impl fmt::Display for Found {
    fn fmt(&self, formatter: &mut fmt::Formatter<'_>) -> fmt::Result {
        write!(
            formatter,
            "lot books: {} strips with {} operations on reached stores and {} on damaged ones that pass the check, every read after each strip; \
             damaged stores: {} pass, {} of them with ranges, {} are refused by every call",
            self.strips, self.reached, self.foreign, self.passed, self.ranged, self.refused
        )
    }
}

impl Found {
    /// A damaged copy of a book's memory, on both sides if it passes the check.
    fn damaged(
        &mut self,
        shelf: &Shelf,
        size: Size,
        mix: Mix,
        rng: &mut Rng,
        tally: &mut Tally,
    ) -> Same {
        let mut memory = shelf.book.memory().clone();
        damage(&mut memory, rng);
        if let Err(refused) = LotBook::from_memory(memory.clone()).check() {
            self.refused += 1;
            return compare_refused(&memory, refused, rng, tally);
        }
        self.passed += 1;
        let place = || format!("a damaged store, {memory:?}");
        let read = read(written(&memory));
        tally.same(Thing::Damaged, place, None, read.as_ref().err())?;
        let capacities = Capacities {
            nodes: memory.nodes.len() as u32,
            edges: memory.lows.len() as u32,
        };
        let graph = read.expect("nothing differs");
        let rust = RustStore { graph, capacities };
        if ranges::holds_ranges(&memory) {
            self.ranged += 1;
            return Ranged::of(&rust, memory).compare_reads(rng, tally);
        }
        let mut shelf = Shelf::of(shelf.book.device(), rust, memory);
        shelf.compare_reads(rng, tally)?;
        for _ in 0..rng.between(1, 3) {
            let mut generator = Generator { rng, mix, size };
            self.foreign += shelf.strip(60, &mut generator, tally)?;
            self.strips += 1;
        }
        shelf.compact(rng, tally)
    }

    /// Strips from a fresh store, a damaged copy after each, now and then a
    /// compaction or an image read.
    fn sequence(
        &mut self,
        device: Device,
        sizes: &[Size],
        rng: &mut Rng,
        tally: &mut Tally,
    ) -> Same {
        let size = rng.pick(sizes);
        let mix = rng.pick(&MIXES);
        let mut shelf = Shelf::fresh(device, size.capacities(rng));
        for _ in 0..rng.between(4, 24) {
            let most = rng.pick(&[1, 8, 64, 256]);
            let mut generator = Generator { rng, mix, size };
            self.reached += shelf.strip(most, &mut generator, tally)?;
            self.strips += 1;
            self.damaged(&shelf, size, mix, rng, tally)?;
            match rng.below(10) {
                0 | 1 => shelf.compact(rng, tally)?,
                2 => shelf.read(rng, tally)?,
                _ => {}
            }
        }
        Ok(())
    }
}

/// Compaction of a store from elsewhere, and every read after it.
pub fn compact_foreign(rust: RustStore, rng: &mut Rng, tally: &mut Tally) -> Same {
    let memory = memory::of(&rust);
    Shelf::of(Device::Box, rust, memory).compact(rng, tally)
}

/// Sequences until there were so many operations on reached stores, and so many on
/// damaged ones.
pub fn compare(reached: u64, foreign: u64, seed: u64, tally: &mut Tally) -> Same {
    let mut rng = Rng::new(seed);
    let mut found = Found::default();
    let sizes = [SHORT, SHORT, MEDIUM];
    while found.reached < reached || found.foreign < foreign {
        guarded(|| found.sequence(Device::Box, &sizes, &mut rng, tally))?;
    }
    println!("{found}");
    Ok(())
}

/// The same on the skid, most of the time with all that it takes.
pub fn compare_skid(reached: u64, seed: u64, tally: &mut Tally) -> Same {
    let mut rng = Rng::new(seed);
    let mut found = Found::default();
    let sizes = [SHORT, MEDIUM, WHOLE_SKID, WHOLE_SKID];
    while found.reached < reached {
        guarded(|| found.sequence(Device::Skid, &sizes, &mut rng, tally))?;
    }
    println!("on the skid, {found}");
    Ok(())
}
