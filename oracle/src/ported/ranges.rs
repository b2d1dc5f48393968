//! Lot books whose weights are ranges, a low below its high, held against the model:
//! the Rust's payload of an edge is one word, so that it cannot hold them, and the
//! store has to keep low and high apart.

use super::book::Reads;
use super::memory;
use super::strips::operations;
use super::words::Words;
use crate::calls::{self, Lots};
use crate::generate::{Generator, MEDIUM, MIXES, SHORT, compact_lists, range};
use crate::image;
use crate::lots::LotBook;
use crate::model::{Answer, Capacities, EdgePayload, Model, NONE};
use crate::record::spoiled_image;
use crate::rng::Rng;
use crate::rust_store::RustStore;
use crate::sequences::{Same, guarded};
use crate::tally::{Difference, Tally, Thing};

/// Whether an edge below the bound has a low that is not its high.
pub fn holds_ranges(memory: &Words) -> bool {
    let weights = memory.lows.iter().zip(&memory.highs);
    let mut below = weights.take(memory.counts.edges.bound as usize);
    below.any(|(low, high)| low != high)
}

pub struct Ranged {
    model: Model,
    book: LotBook,
}

impl Ranged {
    /// A fresh store over words that hold anything.
    fn fresh(capacities: Capacities) -> Self {
        Self {
            model: Lots::fresh(capacities),
            book: LotBook::from_memory(memory::fresh(capacities)),
        }
    }

    /// Beside a store of which the Rust holds all but the weights.
    pub fn of(rust: &RustStore, memory: Words) -> Self {
        let mut plain = rust.plain();
        let weights = memory.lows.iter().zip(&memory.highs);
        for (slot, (&low, &high)) in plain.edges.iter_mut().zip(weights) {
            slot.payload = EdgePayload { low, high };
        }
        let model = Model {
            capacities: rust.capacities,
            plain,
            compact: rust.is_compact(),
        };
        Self {
            model,
            book: LotBook::from_memory(memory),
        }
    }

    pub fn compare_reads(&self, rng: &mut Rng, tally: &mut Tally) -> Same {
        let reads = Reads {
            lots: &self.model,
            book: &self.book,
        };
        reads.compare(rng, tally)
    }

    /// Makes a strip of up to so many operations on both sides, and compares every
    /// answer and then every read; how many operations it had.
    fn strip(
        &mut self,
        most: usize,
        generator: &mut Generator,
        tally: &mut Tally,
    ) -> Result<u64, Difference> {
        let words = operations(most, &self.model, generator);
        let place = || format!("a strip with ranges, {words:?}");
        let (operations, _) = words.as_chunks();
        let mut given = vec![NONE - 1; 2 * operations.len()];
        let answered = calls::strip(&mut self.model, &words, given.len());
        let answers = answered.expect("whole operations, and room for each");
        let mut expected = Vec::new();
        for (&operation, answer) in operations.iter().zip(answers) {
            tally.answered(operation, answer);
            expected.extend([answer.number, answer.value as u32]);
        }
        let called = self.book.strip_words(&words, &mut given);
        let given = (called.map_err(Answer::from), given);
        tally.same(Thing::BookRange, place, (Ok(()), expected), given)?;
        self.compare_reads(generator.rng, tally)?;
        Ok(operations.len() as u64)
    }

    fn compact(&mut self, tally: &mut Tally) -> Same {
        let place = || "a compaction with ranges".to_string();
        let expected = self.model.compaction();
        let given = self.book.compact().map_err(Answer::from);
        let given = given.map(|each| {
            let work = [each.outgoing, each.incoming].concat();
            [each.node_map, each.edge_map, work]
        });
        tally.same(Thing::BookRange, place, Ok(expected), given)
    }

    /// Reads an image with ranges, a spoiled one now and then.
    fn read(&mut self, rng: &mut Rng, tally: &mut Tally) -> Same {
        let Capacities { nodes, edges } = self.model.capacities;
        let bytes = match rng.one_in(2) {
            true => spoiled_image(rng, range),
            false => image::write(&compact_lists(rng, self.model.capacities, range)),
        };
        let place = || format!("reading an image with ranges, {bytes:?}");
        let given = self.book.read_image(&bytes).map_err(Answer::from);
        let read = calls::read_image(nodes.into(), edges.into(), &bytes);
        let expected = read.map(|model| self.model = model);
        tally.same(Thing::BookRange, place, expected, given)
    }

    /// Strips from a fresh store, now and then a compaction or an image read, every
    /// read after each; how many operations there were.
    fn sequence(rng: &mut Rng, tally: &mut Tally) -> Result<u64, Difference> {
        let size = rng.pick(&[SHORT, SHORT, MEDIUM]);
        let mix = rng.pick(&MIXES).ranged();
        let mut ranged = Self::fresh(size.capacities(rng));
        let mut made = 0;
        for _ in 0..rng.between(4, 24) {
            let most = rng.pick(&[1, 8, 64, 256]);
            let mut generator = Generator { rng, mix, size };
            made += ranged.strip(most, &mut generator, tally)?;
            match rng.below(5) {
                0 => ranged.compact(tally)?,
                1 => ranged.read(rng, tally)?,
                _ => continue,
            }
            ranged.compare_reads(rng, tally)?;
        }
        Ok(made)
    }
}

/// Sequences until there were so many operations.
pub fn compare(operations: u64, seed: u64, tally: &mut Tally) -> Same {
    let mut rng = Rng::new(seed);
    let mut made = 0;
    while made < operations {
        guarded(|| {
            made += Ranged::sequence(&mut rng, tally)?;
            Ok(())
        })?;
    }
    println!("lot books with ranges: {made} operations, every read after each strip by the model");
    Ok(())
}
