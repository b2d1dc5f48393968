//! Damaged stores: copies of stores that steps led to, changed in a few words,
//! bits, counts or lengths. The port's check is held against the rules of
//! document 01 on the same words, and against `validate.rs` wherever the words can
//! be written as a Rust store.

use std::fmt;

use serde_json::{Map, Value, json};

use super::Ported;
use super::columns::{Column, Columns};
use super::words::Words;
use crate::checked::{read, rule_of};
use crate::generate::{Generator, MEDIUM, MIXES, SHORT};
use crate::lots::Slots;
use crate::model::{Answer, LIMIT, NONE};
use crate::panics::caught;
use crate::rng::Rng;
use crate::sequences::{Same, Sides};
use crate::tally::{Tally, Thing};

const EDGE_COLUMNS: [Column; 4] = [Column::Ends, Column::Adjacency, Column::Next, Column::Link];

const NODE_COLUMNS: [Column; 6] = [
    Column::Last,
    Column::First,
    Column::Tail,
    Column::Count,
    Column::Mark,
    Column::Offsets,
];

/// Changes words, bits, counts or lengths of a store, in one place or in a few
/// that belong together.
struct Damage<'d> {
    words: &'d mut Words,
    rng: &'d mut Rng,
}

impl Damage<'_> {
    fn any(&mut self) {
        match self.rng.below(21) {
            0..6 => self.word(),
            6 => self.live_word(),
            7..9 => self.live_bit(),
            9..11 => self.retired(),
            11 => self.count(),
            12 => self.length(),
            13 => self.payload(),
            14 => self.ring_turned_on_itself(),
            15 => self.run_without_end(),
            16..18 => self.run_of_one(),
            18 => self.run_longer(),
            19 => self.run_shorter(),
            _ => self.inverted(),
        }
    }

    /// Sizes of the store, at least 1, so that something can be drawn below them.
    fn bounds(&self) -> [usize; 2] {
        let counts = self.words.counts;
        [counts.nodes, counts.edges].map(|slots| 1 + slots.bound.min(LIMIT as u32) as usize)
    }

    fn node(&mut self) -> usize {
        let [nodes, _] = self.bounds();
        self.rng.below(nodes)
    }

    fn edge(&mut self) -> u32 {
        let [_, edges] = self.bounds();
        self.rng.below(edges) as u32
    }

    /// A word in place of another: a bit of it changed, a number that could stand
    /// there, or one that never could.
    fn other(&mut self, word: u32) -> u32 {
        match self.rng.below(8) {
            0 => word ^ 1 << self.rng.below(32),
            1 => word ^ 1 << self.rng.below(4),
            2 => self.node() as u32,
            3 | 4 => self.edge(),
            5 => word.wrapping_add(self.rng.pick(&[1, NONE])),
            6 => self
                .rng
                .pick(&[0, 1, NONE, NONE - 1, 1 << 31, LIMIT as u32]),
            _ => self.rng.word(),
        }
    }

    /// Whether it is a node, and its number.
    fn slot(&mut self) -> (bool, usize) {
        match self.rng.one_in(2) {
            true => (true, self.node()),
            false => (false, self.edge() as usize),
        }
    }

    /// Puts a word into a column of one direction, if there is such a place.
    fn put(&mut self, side: usize, column: Column, slot: usize, word: u32) {
        let at = self.words.layout().at(column, slot);
        if let Some(place) = self.words.axes[side].get_mut(at) {
            *place = word;
        }
    }

    fn get(&self, side: usize, column: Column, slot: usize) -> u32 {
        let at = self.words.layout().at(column, slot);
        self.words.axes[side].get(at).copied().unwrap_or(0)
    }

    fn word(&mut self) {
        let side = self.rng.below(2);
        let (node, slot) = self.slot();
        let column = match node {
            true => self.rng.pick(&NODE_COLUMNS),
            false => self.rng.pick(&EDGE_COLUMNS),
        };
        let word = self.get(side, column, slot);
        let word = self.other(word);
        self.put(side, column, slot, word);
    }

    /// The live words and the counts of nodes or of edges.
    fn kind(&mut self, nodes: bool) -> (&mut [u64], &mut Slots) {
        match nodes {
            true => (&mut self.words.live_nodes, &mut self.words.counts.nodes),
            false => (&mut self.words.live_edges, &mut self.words.counts.edges),
        }
    }

    fn live_word(&mut self) {
        let any = self.rng.draw();
        let word = self.rng.pick(&[0, u64::MAX, any]);
        let nodes = self.rng.one_in(2);
        let (words, _) = self.kind(nodes);
        if let Some(first) = words.first_mut() {
            *first = word;
        }
    }

    /// One bit of a slot, or of one just above.
    fn live_bit(&mut self) {
        let (nodes, slot) = self.slot();
        let (words, _) = self.kind(nodes);
        if let Some(word) = words.get_mut(slot / 64) {
            *word ^= 1 << (slot % 64);
        }
    }

    /// A live slot made dead or a dead one live, and the count with it, so that
    /// rule 2 holds.
    fn retired(&mut self) {
        let (nodes, slot) = self.slot();
        let (words, slots) = self.kind(nodes);
        if slot >= slots.bound as usize {
            return;
        }
        if let Some(word) = words.get_mut(slot / 64) {
            *word ^= 1 << (slot % 64);
            slots.live = match *word >> (slot % 64) & 1 {
                1 => slots.live.wrapping_add(1),
                _ => slots.live.wrapping_sub(1),
            };
        }
    }

    fn count(&mut self) {
        let nodes = self.rng.one_in(2);
        let which = self.rng.below(3);
        let (_, slots) = self.kind(nodes);
        let count = [slots.bound, slots.base, slots.live][which];
        let other = self.other(count);
        let (_, slots) = self.kind(nodes);
        *[&mut slots.bound, &mut slots.base, &mut slots.live][which] = other;
    }

    fn length(&mut self) {
        let slice = self.rng.below(7);
        let shorter = self.rng.one_in(2);
        // Above the limit now and then: 32,769 words take a while to make.
        let more = match self.rng.one_in(50) {
            true => LIMIT as usize + 1,
            false => 1 + self.rng.below(3),
        };
        let word = self.rng.word();
        let Words {
            nodes,
            lows,
            highs,
            live_nodes,
            live_edges,
            axes: [outgoing, incoming],
            ..
        } = &mut *self.words;
        match slice {
            0 => resize(nodes, shorter, more, word),
            1 => resize(lows, shorter, more, word),
            2 => resize(highs, shorter, more, word),
            3 => resize(live_nodes, shorter, more, word.into()),
            4 => resize(live_edges, shorter, more, word.into()),
            5 => resize(outgoing, shorter, more, word),
            _ => resize(incoming, shorter, more, word),
        }
    }

    fn payload(&mut self) {
        let (node, slot) = self.slot();
        let payloads = match (node, self.rng.one_in(2)) {
            (true, _) => &mut self.words.nodes,
            (false, true) => &mut self.words.lows,
            (false, false) => &mut self.words.highs,
        };
        if let Some(payload) = payloads.get_mut(slot) {
            *payload = self.rng.word();
        }
    }

    /// An edge's low raised to one above its high, or its high lowered to one below
    /// its low, live or removed, or just above the bound.
    fn inverted(&mut self) {
        let edge = self.edge() as usize;
        let raised = self.rng.one_in(2);
        let Words { lows, highs, .. } = &mut *self.words;
        let (Some(low), Some(high)) = (lows.get_mut(edge), highs.get_mut(edge)) else {
            return;
        };
        match raised {
            true => *low = high.saturating_add(1),
            false => *high = low.saturating_sub(1),
        }
    }

    /// A ring that goes through this edge comes to its last one no more.
    fn ring_turned_on_itself(&mut self) {
        let (side, edge) = (self.rng.below(2), self.edge());
        self.put(side, Column::Next, edge as usize, edge);
    }

    /// A run that says that it is longer than there are edges, with links that
    /// come to no end.
    fn run_without_end(&mut self) {
        let (side, node, edge) = (self.rng.below(2), self.node(), self.edge());
        let length = self
            .rng
            .pick(&[NONE, NONE - 1, 1 << 31, LIMIT as u32, edge + 1]);
        if self.rng.one_in(2) {
            self.put(side, Column::Mark, node, 1);
            self.put(side, Column::First, node, edge);
        }
        self.put(side, Column::Count, node, length);
        let back = self.edge();
        self.put(side, Column::Link, edge as usize, back);
    }

    /// A node, removed or not, that has this run of one edge.
    fn run_of_one(&mut self) {
        let (side, node, edge) = (self.rng.below(2), self.node(), self.edge());
        let columns = [
            (Column::Mark, 1),
            (Column::First, edge),
            (Column::Tail, edge),
            (Column::Count, 1),
        ];
        for (column, word) in columns {
            self.put(side, column, node, word);
        }
    }

    /// An edge that a run ends in besides.
    fn run_longer(&mut self) {
        let (side, node, edge) = (self.rng.below(2), self.node(), self.edge());
        let [count, tail] =
            [Column::Count, Column::Tail].map(|column| self.get(side, column, node));
        if tail < NONE - LIMIT as u32 {
            self.put(side, Column::Link, tail as usize, edge);
        }
        self.put(side, Column::Tail, node, edge);
        self.put(side, Column::Count, node, count.wrapping_add(1));
    }

    /// A run without its first edge.
    fn run_shorter(&mut self) {
        let (side, node) = (self.rng.below(2), self.node());
        let [count, first] =
            [Column::Count, Column::First].map(|column| self.get(side, column, node));
        let second = self.get(side, Column::Link, first as usize);
        self.put(side, Column::First, node, second);
        self.put(side, Column::Count, node, count.wrapping_sub(1));
    }
}

fn resize<T: Copy>(slice: &mut Vec<T>, shorter: bool, more: usize, word: T) {
    match shorter {
        true => slice.truncate(slice.len().saturating_sub(more)),
        false => slice.resize(slice.len() + more, word),
    }
}

/// Changes a store in one to three places.
pub fn damage(words: &mut Words, rng: &mut Rng) {
    for _ in 0..rng.pick(&[1, 1, 1, 2, 3]) {
        let mut damage = Damage { words, rng };
        damage.any();
    }
}

/// The words as the Rust writes a store, where rule 1 holds. Where both base
/// counts are 0 there is no index. A ring word is a position among the edges that
/// came since the base, so that one below the base becomes one above the bound.
/// A run is cut where its entries can only repeat, and has no tail. An edge's
/// payload there is one word, the low.
pub fn written(words: &Words) -> Value {
    let Slots {
        bound: nodes,
        base: base_nodes,
        live: live_node_count,
    } = words.counts.nodes;
    let Slots {
        bound: edges,
        base: base_edges,
        live: live_edge_count,
    } = words.counts.edges;
    let sides = words.sides();
    let [outgoing, incoming] = &sides;
    let record = |edge: u32| {
        let [source, target] =
            [outgoing, incoming].map(|side| side.word(Column::Ends, edge as usize));
        json!({"source": source, "target": target, "payload": words.lows[edge as usize]})
    };
    let records = |edges: std::ops::Range<u32>| edges.map(record).collect::<Value>();
    let delta = |word: u32| match word {
        NONE => NONE,
        below if below < base_edges => NONE - 1,
        among => among - base_edges,
    };
    let links = |column: Column, slots: std::ops::Range<u32>| -> Value {
        let pair = |slot: u32| sides.map(|side| delta(side.word(column, slot as usize)));
        slots
            .map(pair)
            .collect::<Vec<_>>()
            .into_iter()
            .map(|pair| json!(pair))
            .collect()
    };
    let live = |words: &[u64], bound: u32| json!({"words": &words[..(bound as usize).div_ceil(64)], "len": bound});
    let offsets = |side: &Columns| match (base_nodes, base_edges) {
        (0, 0) => Vec::new(),
        _ => side.offsets(base_nodes as usize),
    };
    let joined = |side: &Columns| -> Vec<u32> {
        let places = 0..base_edges as usize;
        places
            .map(|place| side.word(Column::Adjacency, place))
            .collect()
    };
    let runs = |side: &Columns| -> Map<String, Value> {
        let run = |node| {
            side.run(node, edges as usize)
                .map(|run| (node.to_string(), json!(run)))
        };
        (0..nodes as usize).filter_map(run).collect()
    };
    json!({
        "base_nodes": &words.nodes[..base_nodes as usize],
        "base_edges": records(0..base_edges),
        "out_offsets": offsets(outgoing),
        "out_edges": joined(outgoing),
        "in_offsets": offsets(incoming),
        "in_edges": joined(incoming),
        "delta_nodes": &words.nodes[base_nodes as usize..nodes as usize],
        "delta_edges": records(base_edges..edges),
        "chains": {"last": links(Column::Last, 0..nodes), "next": links(Column::Next, base_edges..edges)},
        "live_nodes": live(&words.live_nodes, nodes),
        "live_edges": live(&words.live_edges, edges),
        "live_node_count": live_node_count,
        "live_edge_count": live_edge_count,
        "relocations": {"outgoing": runs(outgoing), "incoming": runs(incoming)},
    })
}

/// The rule that `validate.rs` names for a store as it is written, 0 where it takes it.
fn judged(value: &Value) -> Result<Option<u32>, String> {
    caught(|| {
        read(value.clone())
            .err()
            .map_or(Some(0), |text| rule_of(&text))
    })
}

/// A strip is refused as the check says, and then writes nothing; else its one
/// operation leaves a store that passes.
fn compare_strip(words: &Words, judged: Answer, tally: &mut Tally) -> Same {
    let place = || format!("a strip on a damaged store, {words:?}");
    let mut after = words.clone();
    let mut answers = [NONE - 1; 2];
    let edge = words.counts.edges.bound.wrapping_sub(1);
    let called = after.strip(&[5, edge, 0, 0, 0], &mut answers);
    tally.same(Thing::PortAnswer, place, judged, called)?;
    if judged.number == 0 {
        return tally.same(Thing::PortCheck, place, Answer::done(0), after.check());
    }
    let expected = (words, [NONE - 1; 2]);
    tally.same(Thing::PortRefusal, place, expected, (&after, answers))
}

/// How many damaged stores there were, by what is told of them.
#[derive(Default)]
struct Found {
    /// By the first broken rule, 0 where none is.
    rules: [u64; 8],
    /// Those with both base counts 0, whose index words the Rust is not given.
    without_index: u64,
    /// Of these, those that the Rust refuses with rule 4 where it is given them.
    unread_index: u64,
    /// Rule 3 by a low above its high alone, which the Rust does not know: at a live
    /// edge, and at removed ones only.
    inverted: [u64; 2],
    /// Rule 6 here and rule 7 in the Rust; rule 6 here and accepted by the Rust: by
    /// what of rule 6 is broken, below.
    added: [[u64; ADDED.len()]; 2],
}

const ADDED: [&str; 4] = [
    "an edge twice in runs",
    "a live edge in a removed node's run",
    "a length or a tail that is not true",
    "several of these",
];

impl Found {
    /// Those that `validate.rs` judged: all but those that break rule 1.
    fn judged(&self) -> u64 {
        self.rules.iter().sum::<u64>() - self.rules[1]
    }

    /// Compares the verdicts on a store, and counts it.
    fn compare(&mut self, words: &Words, tally: &mut Tally) -> Same {
        let place = || format!("a damaged store, {words:?}");
        let rule = words.first_broken();
        let expected = match rule {
            0 => Answer::done(0),
            rule => Answer {
                number: 1,
                value: rule.into(),
            },
        };
        tally.same(Thing::PortCheck, place, expected, words.check())?;
        compare_strip(words, expected, tally)?;
        self.rules[rule as usize] += 1;
        if rule == 1 {
            return Ok(());
        }
        let value = written(words);
        let unadded = words.first_broken_unadded();
        tally.same(Thing::Damaged, place, Ok(Some(unadded)), judged(&value))?;
        if [words.counts.nodes.base, words.counts.edges.base] == [0, 0] {
            self.without_index += 1;
            self.compare_unread_index(words, value, unadded, tally)?;
        }
        if rule == 3 && unadded != rule {
            let live = words.inverted().any(|(_, live)| live);
            self.inverted[usize::from(!live)] += 1;
        } else if unadded != rule {
            let broken = words.runs_broken();
            let kind = match (broken.twice, broken.live, broken.length) {
                (true, false, false) => 0,
                (false, true, false) => 1,
                (false, false, true) => 2,
                _ => 3,
            };
            self.added[usize::from(unadded == 0)][kind] += 1;
        }
        Ok(())
    }
}

impl Found {
    /// A store with both base counts 0 whose index the Rust is given: [0] is to it as
    /// no index at all, and any other word breaks its rule 4 unless an earlier one is
    /// broken; the port reads neither.
    fn compare_unread_index(
        &mut self,
        words: &Words,
        mut value: Value,
        unadded: u32,
        tally: &mut Tally,
    ) -> Same {
        let place = || format!("an index over an empty base, {words:?}");
        let given = words.sides().map(|side| side.offsets(0));
        for index in [[vec![0], vec![0]], given] {
            let [outgoing, incoming] = &index;
            value["out_offsets"] = json!(outgoing);
            value["in_offsets"] = json!(incoming);
            let refused = index.concat() != [0, 0] && ![2, 3].contains(&unadded);
            let expected = if refused { 4 } else { unadded };
            tally.same(Thing::Damaged, place, Ok(Some(expected)), judged(&value))?;
            self.unread_index += u64::from(refused);
        }
        Ok(())
    }
}

impl fmt::Display for Found {
    fn fmt(&self, formatter: &mut fmt::Formatter<'_>) -> fmt::Result {
        let [passed, first, ..] = self.rules;
        let added = self.added.as_flattened().iter().chain(&self.inverted);
        let different: u64 = added.sum();
        write!(
            formatter,
            "damaged stores: {}; {passed} pass the check, first broken rule",
            self.judged() + first
        )?;
        for (rule, stores) in self.rules.iter().enumerate().skip(1) {
            write!(formatter, " {rule}: {stores}")?;
        }
        writeln!(
            formatter,
            "\n  judged by validate.rs: {}, all that do not break rule 1; of them {} without index words, both base counts being 0 (given them, it refuses {} with rule 4)",
            self.judged(),
            self.without_index,
            self.unread_index
        )?;
        write!(
            formatter,
            "  its rule is the port's for {}",
            self.judged() - different
        )?;
        let [live, removed] = self.inverted;
        write!(
            formatter,
            "\n  rule 3 here by a low above its high, a later rule or none there: {live} at a live edge, {removed} at removed ones only"
        )?;
        for (verdict, kinds) in ["rule 7", "passes"].into_iter().zip(self.added) {
            for (kind, stores) in ADDED.into_iter().zip(kinds) {
                write!(
                    formatter,
                    "\n  rule 6 here, {verdict} there, {kind}: {stores}"
                )?;
            }
        }
        Ok(())
    }
}

/// So many damaged stores that `validate.rs` judges, and others on the way.
pub fn compare(stores: u64, seed: u64, tally: &mut Tally) -> Same {
    let mut rng = Rng::new(seed);
    let mut found = Found::default();
    while found.judged() < stores {
        let size = if rng.one_in(8) { MEDIUM } else { SHORT };
        let mut ported = Ported::fresh(size.capacities(&mut rng));
        let mix = rng.pick(&MIXES);
        for _ in 0..size.steps(&mut rng) {
            let mut generator = Generator {
                mix,
                rng: &mut rng,
                size,
            };
            let step = generator.step(ported.model());
            ported.compare_step(&step, false, tally)?;
            let mut words = ported.book.memory().clone();
            damage(&mut words, &mut rng);
            found.compare(&words, tally)?;
        }
    }
    println!("{found}");
    Ok(())
}
