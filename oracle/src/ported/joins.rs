//! Two books joined in a third memory (request 6). Every outcome is held against the
//! model. Where each weight is one word, the Rust rebuilds both books in one store by
//! its own operations, compacts it, and is the yardstick too.

use super::book::Reads;
use super::damaged::{damage, written};
use super::lent;
use super::memory;
use super::strips::{Lengths, any_memory, operations, others_fit};
use super::words::Words;
use crate::calls::{self, Lots};
use crate::checked::read;
use crate::generate::{Generator, MEDIUM, MIXES, SHORT};
use crate::joining;
use crate::lots::{Counts, LotBook, Refused, maps};
use crate::model::{self, Answer, Capacities, EdgePayload, Model, Plain};
use crate::rng::Rng;
use crate::rust_store::RustStore;
use crate::sequences::{Same, guarded};
use crate::tally::{Tally, Thing};

/// A book, and what it holds or the rule that it breaks.
struct Side {
    held: Result<Plain, Refused>,
    book: LotBook,
}

impl Side {
    /// Strips and now and then a compaction on a fresh store over words that hold
    /// anything; some books are damaged after that, and some are empty.
    fn any(ranged: bool, rng: &mut Rng) -> Self {
        let size = rng.pick(&[SHORT, SHORT, MEDIUM]);
        let mix = rng.pick(&MIXES);
        let mix = if ranged { mix.ranged() } else { mix };
        let capacities = size.capacities(rng);
        let mut model: Model = Lots::fresh(capacities);
        let mut book = LotBook::from_memory(memory::fresh(capacities));
        for _ in 0..rng.below(5) {
            let words = operations(120, &model, &mut Generator { rng, mix, size });
            let mut answers = vec![0; 2 * (words.len() / 5)];
            calls::strip(&mut model, &words, answers.len()).expect("whole operations");
            book.strip_words(&words, &mut answers).expect("a store");
            if rng.one_in(6) {
                model.compact();
                book.compact().expect("a store");
            }
        }
        let whole = Self {
            held: Ok(model.plain),
            book,
        };
        if rng.one_in(3) {
            whole.damaged(rng)
        } else {
            whole
        }
    }

    /// A damaged copy; what it holds if it passes the check, through `validate.rs` and
    /// the Rust's reads.
    fn damaged(&self, rng: &mut Rng) -> Self {
        let mut memory = self.book.memory().clone();
        damage(&mut memory, rng);
        let book = LotBook::from_memory(memory);
        let held = book.check().map(|()| {
            let memory = book.memory();
            let capacities = Capacities {
                nodes: memory.nodes.len() as u32,
                edges: memory.lows.len() as u32,
            };
            let graph = read(written(memory)).expect("a store for the Rust too");
            let mut plain = RustStore { graph, capacities }.plain();
            let weights = memory.lows.iter().zip(&memory.highs);
            for (slot, (&low, &high)) in plain.edges.iter_mut().zip(weights) {
                slot.payload = EdgePayload { low, high };
            }
            plain
        });
        Self { held, book }
    }

    /// Live nodes and edges, 0 in memory that is no store.
    fn counts(&self) -> [usize; 2] {
        self.held.as_ref().map_or([0; 2], Plain::live_counts)
    }

    /// The lengths of its maps: the bounds.
    fn bounds(&self) -> [usize; 2] {
        let bounds = |plain: &Plain| [plain.nodes.len(), plain.edges.len()];
        self.held.as_ref().map_or([0; 2], bounds)
    }
}

/// "It refuses with 1 for the first book, 1 for the second, 13 for the third memory
/// (lots before transfers), 2 for its other slices, 10 if the survivors of both books
/// together exceed its lot or transfer capacity, and 2 for a map, in that order".
fn answer(sides: [&Side; 2], lengths: Lengths, rooms: [usize; 4]) -> Answer {
    for side in sides {
        if let Err(refused) = side.held {
            return refused.into();
        }
    }
    let [nodes, edges, ..] = lengths;
    if let Err(refused) = model::capacities(nodes as u64, edges as u64) {
        return refused;
    }
    let others = others_fit(lengths);
    if others.number != 0 {
        return others;
    }
    let books = sides.map(|side| side.held.as_ref().expect("neither is broken"));
    joining::answer(books, [nodes, edges], rooms)
}

/// Memory with room for both, or of any lengths; any words in it.
fn third(sides: [&Side; 2], rng: &mut Rng) -> (Lengths, Words) {
    if rng.one_in(3) {
        return any_memory(rng);
    }
    let [one, two] = sides.map(Side::counts);
    let [nodes, edges] = [one[0] + two[0], one[1] + two[1]];
    // One too few now and then.
    let capacity =
        |slots: usize, rng: &mut Rng| (slots + rng.below(6)).saturating_sub(rng.below(2));
    let mut words = Words::zeros(capacity(nodes, rng), capacity(edges, rng));
    let spare = rng.below(3);
    let [outgoing, incoming] = &mut words.axes;
    for slice in [&mut words.highs, &mut *outgoing, incoming] {
        slice.resize(slice.len() + spare, 0);
    }
    for slice in [&mut words.live_nodes, &mut words.live_edges] {
        slice.resize(slice.len() + spare, 0);
        slice.fill_with(|| rng.draw());
    }
    let [outgoing, incoming] = &mut words.axes;
    for slice in [
        &mut words.nodes,
        &mut words.lows,
        &mut words.highs,
        &mut *outgoing,
        incoming,
    ] {
        slice.fill_with(|| rng.word());
    }
    let lengths = [
        words.nodes.len(),
        words.lows.len(),
        words.highs.len(),
        words.live_nodes.len(),
        words.live_edges.len(),
        words.axes[0].len(),
        words.axes[1].len(),
    ];
    (lengths, words)
}

/// The words of the slices past the lengths needed.
fn spare(words: &Words) -> Vec<u64> {
    let (nodes, edges) = (words.nodes.len(), words.lows.len());
    let past = |slice: &[u32], needed: usize| -> Vec<u64> {
        slice[needed..].iter().copied().map(u64::from).collect()
    };
    let axis = 4 * edges + 6 * nodes + 1;
    [
        past(&words.highs, edges),
        words.live_nodes[nodes.div_ceil(64)..].to_vec(),
        words.live_edges[edges.div_ceil(64)..].to_vec(),
        past(&words.axes[0], axis),
        past(&words.axes[1], axis),
    ]
    .concat()
}

#[derive(Default)]
struct Found {
    done: u64,
    by_the_rust: u64,
    refused: [u64; 14],
}

impl Found {
    /// One join of two books into a third memory.
    fn join(&mut self, sides: [&Side; 2], rng: &mut Rng, tally: &mut Tally) -> Same {
        let [one, two] = sides;
        let (lengths, words) = third(sides, rng);
        let rooms = sides.map(Side::bounds).concat();
        let mut slices: Vec<Vec<u32>> = rooms.iter().map(|&room| lent(room)).collect();
        if rng.one_in(4) {
            for slice in &mut slices[rng.below(4)..] {
                let length = slice.len().saturating_sub(3);
                slice.truncate(length);
            }
        }
        let untouched = slices.clone();
        let rooms = [0, 1, 2, 3].map(|map: usize| slices[map].len());
        let place = || {
            format!(
                "joining {:?} and {:?}, lengths {lengths:?}, maps {rooms:?}",
                one.held, two.held
            )
        };
        let expected = answer(sides, lengths, rooms);
        let mut memory = words.clone();
        let lent_maps = slices
            .iter_mut()
            .map(|slice| &mut **slice)
            .collect::<Vec<_>>();
        let changed = memory.lot_join(
            one.book.memory(),
            two.book.memory(),
            lent_maps.try_into().expect("four maps"),
        );
        let given = Answer {
            number: changed.number,
            value: changed.value,
        };
        tally.same(Thing::BookJoin, place, expected, given)?;
        if given.number != 0 {
            self.refused[given.number as usize] += 1;
            let expected = (&words, untouched, Counts::default());
            return tally.same(
                Thing::BookJoin,
                place,
                expected,
                (&memory, slices, changed.counts),
            );
        }
        self.done += 1;
        let [Ok(first), Ok(second)] = sides.map(|side| side.held.as_ref()) else {
            unreachable!("a broken book is refused");
        };
        let (plain, maps) = joining::joined([first, second]);
        // The maps at the start of their slices, and the words past them as they were.
        let expected: Vec<Vec<u32>> = maps
            .iter()
            .zip(untouched)
            .map(|(map, slice)| [map, &slice[map.len()..]].concat())
            .collect();
        tally.same(Thing::BookJoin, place, expected, slices)?;
        tally.same(Thing::BookJoin, place, spare(&words), spare(&memory))?;
        memory.counts = changed.counts;
        let mut book = LotBook::from_memory(memory);
        let model = Model {
            capacities: Capacities {
                nodes: lengths[0] as u32,
                edges: lengths[1] as u32,
            },
            plain,
            compact: true,
        };
        let reads = Reads {
            lots: &model,
            book: &book,
        };
        reads.compare(rng, tally)?;
        if first.one_weight_each() && second.one_weight_each() {
            self.by_the_rust += 1;
            let (rust, numbers) = joining::rebuilt([first, second]);
            let expected = (rust.plain(), numbers);
            tally.same(Thing::BookJoinRust, place, &expected, &(model.plain, maps))?;
            let reads = Reads {
                lots: &rust,
                book: &book,
            };
            reads.compare(rng, tally)?;
        }
        // The result is what compaction leaves.
        let before = book.clone();
        let again = book.compact().map_err(Answer::from);
        let again = again.map(|each| maps::is_identity(&each.node_map, &each.edge_map));
        tally.same(Thing::BookJoin, place, (Ok(true), &before), (again, &book))
    }

    /// Three books in both ways, and each with an empty one.
    fn regrouped(books: [&Side; 3], tally: &mut Tally) -> Same {
        let place = || "three books joined in two ways, and one with an empty one".to_string();
        let [one, two, three] = books.map(|side| &side.book);
        let join = |first: &LotBook, second: &LotBook| {
            let mut third = LotBook::new(200, 800).expect("capacities below the limit");
            let maps = third
                .join(first, second)
                .expect("two stores, and room for both");
            (third, maps)
        };
        let left = join(&join(one, two).0, three).0;
        let right = join(one, &join(two, three).0).0;
        tally.same(Thing::BookJoin, place, &left, &right)?;
        let empty = LotBook::new(0, 0).expect("capacities below the limit");
        let mut alone = one.clone();
        let compaction = alone.compact().expect("a store");
        let [(second, with), (first, before)] = [join(one, &empty), join(&empty, one)];
        let expected = (alone.image(), &compaction.node_map, &compaction.edge_map);
        let [maps, _] = &with;
        let given = (second.image(), &maps.node_map, &maps.edge_map);
        tally.same(Thing::BookJoin, place, &expected, &given)?;
        let [_, maps] = &before;
        let given = (first.image(), &maps.node_map, &maps.edge_map);
        tally.same(Thing::BookJoin, place, &expected, &given)
    }

    fn sequence(&mut self, rng: &mut Rng, tally: &mut Tally) -> Same {
        let ranged = rng.one_in(4);
        let books = [(); 3].map(|()| Side::any(ranged, rng));
        let [one, two, three] = &books;
        for sides in [[one, two], [two, one], [one, one], [two, three]] {
            self.join(sides, rng, tally)?;
        }
        if books.iter().all(|side| side.held.is_ok()) {
            Self::regrouped([one, two, three], tally)?;
        }
        Ok(())
    }
}

/// So many triples of books, each joined in four ways.
pub fn compare(triples: usize, seed: u64, tally: &mut Tally) -> Same {
    let mut rng = Rng::new(seed);
    let mut found = Found::default();
    for _ in 0..triples {
        guarded(|| found.sequence(&mut rng, tally))?;
    }
    let Found {
        done,
        by_the_rust,
        refused,
    } = found;
    println!(
        "books joined: {done} done, {by_the_rust} of them rebuilt by the Rust; refused with 1: {}, 2: {}, 10: {}, 13: {}",
        refused[1], refused[2], refused[10], refused[13]
    );
    Ok(())
}
