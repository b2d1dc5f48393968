//! The rules of document 01's check, "Checking a store", as a statement on the
//! lent words, to hold the proved check against.

use super::columns::{Column, Columns, Layout, RunsBroken};
use super::words::Words;
use crate::lots::{Counts, Slots};
use crate::model::LIMIT;

impl Columns<'_> {
    /// "(3) ends below the node bound"
    fn ends_hold(&self, counts: Counts) -> bool {
        let mut edges = 0..counts.edges.bound as usize;
        edges.all(|edge| self.word(Column::Ends, edge) < counts.nodes.bound)
    }
}

impl RunsBroken {
    /// This or the other.
    const fn or(self, other: Self) -> Self {
        Self {
            entry: self.entry || other.entry,
            twice: self.twice || other.twice,
            live: self.live || other.live,
            length: self.length || other.length,
        }
    }
}

/// As many live bits as counted, a bit for each slot, and no other bit of the last
/// word.
fn is_right(words: &[u64], slots: Slots) -> bool {
    let bound = slots.bound as usize;
    let needed = bound.div_ceil(64);
    let ones = |words: &[u64]| words.iter().map(|word| word.count_ones()).sum::<u32>();
    needed <= words.len()
        && (bound.is_multiple_of(64) || words[needed - 1] >> (bound % 64) == 0)
        && ones(&words[..needed]) == slots.live
}

fn is_live(words: &[u64], slot: usize) -> bool {
    words[slot / 64] >> (slot % 64) & 1 == 1
}

impl Words {
    pub fn layout(&self) -> Layout {
        Layout {
            edges: self.lows.len(),
            nodes: self.nodes.len(),
        }
    }

    /// Both directions. Their columns can be read where rule 1 holds.
    pub fn sides(&self) -> [Columns<'_>; 2] {
        let layout = self.layout();
        let [outgoing, incoming] = &self.axes;
        [outgoing, incoming].map(|words| Columns { words, layout })
    }

    /// "The first broken rule is the value of answer 1", 0 where the words are a
    /// store.
    pub fn first_broken(&self) -> u32 {
        self.first_of(
            |words| words.inverted().next().is_none(),
            |words| !words.runs_broken().any(),
        )
    }

    /// The same with `validate.rs`'s own part in place of rules 3 and 6: no weights,
    /// and, "rule 6 is added", run entries below the edge bound.
    #[cfg(feature = "serde")]
    pub fn first_broken_unadded(&self) -> u32 {
        self.first_of(|_| true, |words| !words.runs_broken().entry)
    }

    fn first_of(&self, weights: fn(&Self) -> bool, rule_6: fn(&Self) -> bool) -> u32 {
        let (sides, counts) = (self.sides(), self.counts);
        let rules: [&dyn Fn() -> bool; 7] = [
            &|| self.sizes_hold(),
            &|| self.live_holds(),
            &|| sides.iter().all(|side| side.ends_hold(counts)) && weights(self),
            &|| sides.iter().all(|side| side.index_holds(counts)),
            &|| sides.iter().all(|side| side.rings_hold(counts)),
            &|| rule_6(self),
            &|| self.walks_hold(),
        ];
        let mut numbered = (1..).zip(rules);
        numbered
            .find(|(_, holds)| !holds())
            .map_or(0, |(rule, _)| rule)
    }

    /// Request 8: "A lent store holding a low above its high at a slot below the
    /// bound, removed or not, breaks rule 3 of the check". These slots, and whether
    /// each is live.
    pub fn inverted(&self) -> impl Iterator<Item = (usize, bool)> {
        let weights = self.lows.iter().zip(&self.highs);
        let below = weights.take(self.counts.edges.bound as usize).enumerate();
        let inverted = below.filter(|(_, (low, high))| high < low);
        inverted.map(|(edge, _)| (edge, is_live(&self.live_edges, edge)))
    }

    /// "(1) capacities at most 32,768, bounds within them, base counts within the
    /// bounds, every other slice long enough"; "the low one's length is the
    /// capacity".
    fn sizes_hold(&self) -> bool {
        let within = |slots: Slots, capacity: usize, live: &[u64]| {
            capacity as u64 <= LIMIT
                && slots.bound as usize <= capacity
                && slots.base <= slots.bound
                && capacity.div_ceil(64) <= live.len()
        };
        let Counts { nodes, edges } = self.counts;
        let needed = self.layout().length();
        within(nodes, self.nodes.len(), &self.live_nodes)
            && within(edges, self.lows.len(), &self.live_edges)
            && self.lows.len() <= self.highs.len()
            && self.axes.iter().all(|axis| needed <= axis.len())
    }

    /// "(2) live bits agree with both counts and the last word's unused bits are 0"
    fn live_holds(&self) -> bool {
        is_right(&self.live_nodes, self.counts.nodes)
            && is_right(&self.live_edges, self.counts.edges)
    }

    /// What of rule 6 is broken, in either direction.
    pub fn runs_broken(&self) -> RunsBroken {
        let node: &dyn Fn(usize) -> bool = &|slot| is_live(&self.live_nodes, slot);
        let edge: &dyn Fn(usize) -> bool = &|slot| is_live(&self.live_edges, slot);
        let sides = self.sides();
        let [outgoing, incoming] = sides.map(|side| side.runs_broken(self.counts, [node, edge]));
        outgoing.or(incoming)
    }

    /// "(7) `check_adjacency`, and in any case each live edge exactly once in its
    /// source's out-walk and once in its target's in-walk, both ends live, and no
    /// walk listing anything else", after rules 1 to 5 and run entries below the
    /// bound.
    fn walks_hold(&self) -> bool {
        self.sides().iter().all(|side| {
            let end = |edge: usize| side.word(Column::Ends, edge) as usize;
            let walk = |node| self.walk(side, node);
            let walks: Vec<Vec<usize>> = (0..self.counts.nodes.bound as usize).map(walk).collect();
            let own =
                |(node, walk): (usize, &Vec<usize>)| walk.iter().all(|&edge| end(edge) == node);
            let once = |edge: usize| {
                let listed = walks[end(edge)].iter().filter(|&&entry| entry == edge);
                is_live(&self.live_nodes, end(edge)) && listed.count() == 1
            };
            let mut live = (0..self.counts.edges.bound as usize)
                .filter(|&edge| is_live(&self.live_edges, edge));
            walks.iter().enumerate().all(own) && live.all(once)
        })
    }

    /// The live entries of a live node's run or base part, then of its ring.
    fn walk(&self, side: &Columns<'_>, node: usize) -> Vec<usize> {
        if !is_live(&self.live_nodes, node) {
            return Vec::new();
        }
        let part = side.part(self.counts, node);
        let entries = part.front().iter().chain(&part.ring);
        entries
            .map(|&edge| edge as usize)
            .filter(|&edge| is_live(&self.live_edges, edge))
            .collect()
    }
}
