//! Nearest chains through the wrapper: in every store of up to four lots and five
//! transfers, held against all chains enumerated; and in large stores, held against
//! a plain search.

use super::book::compare_searched;
use crate::calls::{self, Lots, Searched};
use crate::chains::Lists;
use crate::lots::{EdgePayload, LotBook, Operation};
use crate::model::{Answer, Capacities, Model};
use crate::rng::Rng;
use crate::sequences::{Same, guarded};
use crate::tally::{Tally, Thing};

const LOTS: u32 = 4;
const TRANSFERS: u32 = 5;

/// One store, and the stores that one transfer more makes of it.
struct Small {
    book: LotBook,
    out: Vec<Vec<u32>>,
    targets: Vec<u32>,
    /// The removed lot, if one is.
    removed: Option<u32>,
}

/// How many stores there were, and in how many of them something was removed.
#[derive(Default)]
struct Stores {
    all: u64,
    removed: u64,
}

fn made(book: &LotBook, operation: Operation) -> LotBook {
    let mut book = book.clone();
    book.operation(operation).expect("there is room");
    book
}

impl Small {
    fn of(lots: u32) -> Self {
        let mut book = LotBook::new(LOTS as usize, TRANSFERS as usize).expect("within the limits");
        for payload in 0..lots {
            let added = book.operation(Operation::AddNode { payload });
            added.expect("there is room");
        }
        Self {
            book,
            out: vec![Vec::new(); lots as usize],
            targets: Vec::new(),
            removed: None,
        }
    }

    fn with_transfer(&self, source: u32, target: u32) -> Self {
        let payload = EdgePayload::exactly(1);
        let add = Operation::AddEdge {
            source,
            target,
            payload,
        };
        let mut out = self.out.clone();
        out[source as usize].push(self.targets.len() as u32);
        Self {
            book: made(&self.book, add),
            out,
            targets: [self.targets.as_slice(), &[target]].concat(),
            removed: None,
        }
    }

    /// The lists without the edges that pass.
    fn without(&self, gone: impl Fn(u32) -> bool) -> Vec<Vec<u32>> {
        let kept = |list: &Vec<u32>| list.iter().copied().filter(|&edge| !gone(edge)).collect();
        self.out.iter().map(kept).collect()
    }

    fn without_transfer(&self, edge: u32) -> Self {
        Self {
            book: made(&self.book, Operation::RemoveEdge { edge }),
            out: self.without(|other| other == edge),
            targets: self.targets.clone(),
            removed: None,
        }
    }

    fn without_lot(&self, node: u32) -> Self {
        let own = self.out[node as usize].clone();
        Self {
            book: made(&self.book, Operation::RemoveNode { node }),
            out: self.without(|edge| own.contains(&edge) || self.targets[edge as usize] == node),
            targets: self.targets.clone(),
            removed: Some(node),
        }
    }

    /// The chains between all pairs of lots, with words to spare; and, where it is
    /// asked for, into a slice that is one word too short.
    fn compare(&self, short: bool, tally: &mut Tally) -> Same {
        let lots = self.out.len() as u32;
        let lists = Lists {
            out: &self.out,
            targets: &self.targets,
        };
        let work = 2 * LOTS as usize + 1;
        for pair in (0..lots * lots).map(|pair| [pair / lots, pair % lots]) {
            let [first, second] = pair;
            let found = match self.removed {
                Some(lot) if pair.contains(&lot) => None,
                _ => Some(lists.enumerated(first, second)),
            };
            let room = found.as_ref().and_then(Option::as_ref).map_or(0, Vec::len);
            let (answer, clears, chain) = match found {
                None => (Answer::refused(6), false, Vec::new()),
                Some(None) => (Answer::refused(14), true, Vec::new()),
                Some(Some(chain)) => (Answer::done(room as u64), true, chain),
            };
            let mut expected = Searched {
                answer,
                clears,
                chain,
            };
            let mut same = |expected: &Searched, room| {
                let lengths = [work, room];
                compare_searched(Thing::BookChain, expected, &self.book, pair, lengths, tally)
            };
            same(&expected, room + 1)?;
            if short && room > 0 {
                expected.answer = Answer::too_short(room);
                expected.chain.clear();
                same(&expected, room - 1)?;
            }
        }
        Ok(())
    }

    /// This store, this store with something removed (everything in turn in small
    /// ones, in every sixteenth of the others), and those with a transfer more.
    fn compare_all(&self, stores: &mut Stores, tally: &mut Tally) -> Same {
        let (lots, transfers) = (self.out.len() as u32, self.targets.len() as u32);
        stores.all += 1;
        let small = transfers + 2 <= TRANSFERS;
        self.compare(small, tally)?;
        if small || stores.all.is_multiple_of(16) {
            for edge in 0..transfers {
                self.without_transfer(edge).compare(false, tally)?;
            }
            for lot in 0..lots {
                self.without_lot(lot).compare(false, tally)?;
            }
            stores.removed += u64::from(transfers + lots);
        }
        if transfers < TRANSFERS {
            for pair in 0..lots * lots {
                let more = self.with_transfer(pair / lots, pair % lots);
                more.compare_all(stores, tally)?;
            }
        }
        Ok(())
    }
}

/// Every store of up to four lots and five transfers.
fn compare_small(tally: &mut Tally) -> Same {
    let mut stores = Stores::default();
    for lots in 1..=LOTS {
        guarded(|| Small::of(lots).compare_all(&mut stores, tally))?;
    }
    let Stores { all, removed } = stores;
    println!(
        "nearest chains: all {all} stores of up to {LOTS} lots and {TRANSFERS} transfers, {removed} more with one removed"
    );
    Ok(())
}

/// A large store: so many lots, and transfers between those that are given, some of
/// which are removed or redirected afterwards.
fn large(lots: u32, transfers: &[[u32; 2]], changes: usize, rng: &mut Rng) -> (Model, LotBook) {
    let capacities = Capacities {
        nodes: lots,
        edges: transfers.len() as u32,
    };
    let mut words: Vec<u32> = (0..lots).flat_map(|_| [1, 0, 0, 7, 0]).collect();
    words.extend(
        transfers
            .iter()
            .flat_map(|&[source, target]| [2, source, target, 1, 1]),
    );
    for _ in 0..changes {
        let edge = rng.below(transfers.len()) as u32;
        let lot = rng.below(lots as usize) as u32;
        words.extend(match rng.below(8) {
            0 => [3, edge, 0, 0, 0],
            1 if rng.one_in(8) => [4, lot, 0, 0, 0],
            2..5 => [6, edge, lot, 0, 0],
            _ => [5, edge, lot, 0, 0],
        });
    }
    let mut model: Model = Lots::fresh(capacities);
    let room = 2 * words.len() / 5;
    calls::strip(&mut model, &words, room).expect("whole operations, and room for each");
    let mut book = LotBook::new(lots as usize, transfers.len()).expect("within the limits");
    let strip = book.strip_words(&words, &mut vec![0; room]);
    strip.expect("a store");
    (model, book)
}

/// So many searches between random pairs, and between the first lot and the last.
fn compare_pairs(
    (model, book): &(Model, LotBook),
    pairs: usize,
    rng: &mut Rng,
    tally: &mut Tally,
) -> Same {
    let lots = model.plain.nodes.len();
    let mut all: Vec<[u32; 2]> = vec![[0, lots as u32 - 1]];
    all.extend((0..pairs).map(|_| [rng.below(lots) as u32, rng.below(lots) as u32]));
    for pair in all {
        let lengths = [calls::nearest_needs(model.capacities), lots];
        let expected = calls::nearest(model, model.capacities, pair, lengths);
        compare_searched(Thing::BookNearest, &expected, book, pair, lengths, tally)?;
    }
    Ok(())
}

/// Random stores of some thousand lots, a path as long as can be, and layers in which
/// every lot leads to every lot of the next.
fn compare_large(stores: usize, seed: u64, tally: &mut Tally) -> Same {
    let mut rng = Rng::new(seed);
    for _ in 0..stores {
        let lots = rng.between(500, 4_000) as u32;
        let transfers: Vec<[u32; 2]> = (0..lots as usize * rng.between(1, 3))
            .map(|_| {
                [
                    rng.below(lots as usize) as u32,
                    rng.below(lots as usize) as u32,
                ]
            })
            .collect();
        let store = large(lots, &transfers, transfers.len() / 4, &mut rng);
        compare_pairs(&store, 40, &mut rng, tally)?;
    }
    let path: Vec<[u32; 2]> = (0..32_767).map(|lot| [lot, lot + 1]).collect();
    compare_pairs(&large(32_768, &path, 0, &mut rng), 6, &mut rng, tally)?;
    let layer = 64;
    let mut layers: Vec<[u32; 2]> = Vec::new();
    for from in 0..7 * layer {
        let next = (from / layer + 1) * layer;
        layers.extend((next..next + layer).map(|to| [from, to]));
    }
    compare_pairs(
        &large(8 * layer, &layers, 200, &mut rng),
        200,
        &mut rng,
        tally,
    )
}

pub fn compare(seed: u64, tally: &mut Tally) -> Same {
    compare_small(tally)?;
    compare_large(40, seed, tally)
}
