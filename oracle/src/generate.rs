//! Random sequences of operations, compactions and image readings, chosen by
//! looking at the model's present lists, so that most operations are done and
//! every kind of refusal comes up.

use crate::calls::LOTSTRIP;
use crate::image;
use crate::model::{Capacities, DIRECTIONS, EdgePayload, Model, NONE, Plain, Slot};
use crate::rng::Rng;

#[derive(Debug, Clone, PartialEq, Eq)]
pub enum Step {
    Operation([u32; 5]),
    Compact,
    /// Reading of these bytes in place of all.
    Read(Vec<u8>),
}

/// How large the stores of a sequence are and how long it is.
#[derive(Clone, Copy)]
pub struct Size {
    pub name: &'static str,
    nodes: [usize; 2],
    edges: [usize; 2],
    steps: [usize; 2],
    /// Of how many compactions and readings the mix asks for, one is made.
    rarity: usize,
    /// Everything is compared after every so many steps; in between, after each
    /// step, what the step touched.
    pub every: usize,
}

pub const SHORT: Size = Size {
    name: "short",
    nodes: [1, 6],
    edges: [1, 9],
    steps: [8, 80],
    rarity: 1,
    every: 1,
};

pub const MEDIUM: Size = Size {
    name: "medium",
    nodes: [8, 40],
    edges: [16, 120],
    steps: [100, 600],
    rarity: 3,
    every: 1,
};

pub const LONG: Size = Size {
    name: "long",
    nodes: [200, 2000],
    edges: [500, 6000],
    steps: [5_000, 15_000],
    rarity: 60,
    every: 128,
};

/// One strip within the capacities of `lotstrip`, which can replay it.
pub const STRIP: Size = Size {
    name: "strip",
    nodes: [LOTSTRIP.nodes as usize; 2],
    edges: [LOTSTRIP.edges as usize; 2],
    steps: [300, 500],
    rarity: 1,
    every: 1,
};

/// All that the skid takes.
#[cfg(all(ported, feature = "serde"))]
pub const WHOLE_SKID: Size = Size {
    name: "skid",
    nodes: [64; 2],
    edges: [128; 2],
    steps: [100, 600],
    rarity: 3,
    every: 1,
};

impl Size {
    /// Within the size, and 0 now and then, unless the size is one number.
    pub fn capacities(&self, rng: &mut Rng) -> Capacities {
        let mut capacity = |[least, most]: [usize; 2]| match least < most && rng.one_in(40) {
            true => 0,
            false => rng.between(least, most) as u32,
        };
        Capacities {
            nodes: capacity(self.nodes),
            edges: capacity(self.edges),
        }
    }

    pub fn steps(&self, rng: &mut Rng) -> usize {
        rng.between(self.steps[0], self.steps[1])
    }
}

/// How often each kind of step comes up in a sequence.
#[derive(Clone, Copy)]
pub struct Mix {
    /// Codes 1 to 9, compaction, image reading.
    weights: [usize; 11],
    /// One slot in so many is not looked for among the live ones.
    stray: usize,
    /// One operation in so many has an unknown code, an unused word set or a low
    /// above its high.
    malformed: usize,
    /// Whether a low may be below its high, which the Rust cannot hold.
    ranges: bool,
}

impl Mix {
    /// The same with ranges.
    #[cfg(all(ported, feature = "serde"))]
    pub const fn ranged(self) -> Self {
        Self {
            ranges: true,
            ..self
        }
    }
}

const fn mix(weights: [usize; 11], stray: usize, malformed: usize) -> Mix {
    Mix {
        weights,
        stray,
        malformed,
        ranges: false,
    }
}

/// Everything, growing, many removals, redirections, moves, refusals.
pub const MIXES: [Mix; 6] = [
    mix([10, 20, 8, 3, 14, 14, 6, 6, 4, 3, 1], 12, 50),
    mix([12, 40, 3, 1, 5, 5, 2, 2, 2, 1, 0], 30, 100),
    mix([14, 24, 22, 7, 8, 8, 4, 4, 2, 3, 1], 15, 100),
    mix([4, 12, 6, 1, 34, 34, 4, 4, 1, 1, 1], 30, 100),
    mix([6, 20, 6, 2, 8, 8, 22, 22, 1, 1, 1], 30, 100),
    mix([8, 14, 8, 4, 12, 12, 8, 8, 6, 2, 1], 2, 6),
];

pub struct Generator<'r> {
    pub rng: &'r mut Rng,
    pub mix: Mix,
    pub size: Size,
}

impl Generator<'_> {
    pub fn step(&mut self, model: &Model) -> Step {
        let (plain, capacities) = (&model.plain, model.capacities);
        let full = [
            plain.nodes.len() == capacities.nodes as usize,
            plain.edges.len() == capacities.edges as usize,
        ];
        if plain.nodes.is_empty() && !full[0] && !self.rng.one_in(3) {
            return Step::Operation(self.operation(model, 1));
        }
        loop {
            match self.kind() {
                // Of the additions for which there is no room, most are passed over.
                code @ 1..=2 if full[code as usize - 1] && !self.rng.one_in(6) => {}
                code @ 1..=9 => return Step::Operation(self.operation(model, code)),
                _ if !self.rng.one_in(self.size.rarity) => {}
                10 => return Step::Compact,
                _ => {
                    let payload = if self.mix.ranges { range } else { one_weight };
                    let plain = compact_lists(self.rng, capacities, payload);
                    return Step::Read(image::write(&plain));
                }
            }
        }
    }

    /// 1 to 9 the code of an operation, 10 compaction, 11 image reading.
    fn kind(&mut self) -> u32 {
        let mut left = self.rng.below(self.mix.weights.iter().sum());
        for (kind, &weight) in (1..).zip(&self.mix.weights) {
            if left < weight {
                return kind;
            }
            left -= weight;
        }
        unreachable!("the draw is below the sum of the weights")
    }

    fn operation(&mut self, model: &Model, code: u32) -> [u32; 5] {
        let mut words = self.well_formed(model, code);
        // Now and then in two places, so that the order of 4 and 16 comes up.
        while self.rng.one_in(self.mix.malformed) {
            let place = self.rng.below(5);
            words[place] = match place {
                0 => self.rng.pick(&[0, 10, 11, 256, NONE]),
                _ => self.rng.pick(&[1, 2, 1 << 31, NONE]),
            };
        }
        let [code, _, _, low, high] = &mut words;
        if matches!(code, 2 | 9) && low < high && !self.mix.ranges {
            std::mem::swap(low, high);
        }
        words
    }

    fn well_formed(&mut self, model: &Model, code: u32) -> [u32; 5] {
        let plain = &model.plain;
        match code {
            1 => [1, 0, 0, self.payload(), 0],
            2 => {
                let source = self.node(plain);
                let self_loop = self.rng.one_in(6);
                let target = if self_loop { source } else { self.node(plain) };
                let EdgePayload { low, high } = self.weights();
                [2, source, target, low, high]
            }
            3 => [3, self.slot(&plain.edges), 0, 0, 0],
            4 => [4, self.node(plain), 0, 0, 0],
            5 | 6 => {
                let edge = self.slot(&plain.edges);
                let ends = &plain.incidence(DIRECTIONS[code as usize - 5]).ends;
                let node = match ends.get(edge as usize) {
                    Some(&end) if self.rng.one_in(8) => end,
                    _ => self.node(plain),
                };
                [code, edge, node, 0, 0]
            }
            7 | 8 => {
                let old = self.node(plain);
                let same = self.rng.one_in(20);
                let new = if same { old } else { self.node(plain) };
                [code, old, new, 0, 0]
            }
            _ => {
                let any = plain.edges.len() + 1;
                let edge = match self.rng.one_in(3) {
                    true => self.rng.below(any) as u32,
                    false => self.slot(&plain.edges),
                };
                let EdgePayload { low, high } = self.weights();
                [9, edge, 0, low, high]
            }
        }
    }

    fn weights(&mut self) -> EdgePayload {
        let weight = self.payload();
        let other = if self.mix.ranges {
            self.payload()
        } else {
            weight
        };
        ordered([weight, other])
    }

    fn payload(&mut self) -> u32 {
        match self.rng.below(4) {
            0 => self.rng.word(),
            1 => self.rng.pick(&[0, 1, 1 << 31, NONE]),
            _ => self.rng.below(10) as u32,
        }
    }

    /// A node; half of the time one of a few, so that some lists grow long and
    /// parallel edges are frequent.
    fn node(&mut self, plain: &Plain) -> u32 {
        let few = plain.nodes.len().min(4);
        if self.rng.one_in(2) {
            self.slot(&plain.nodes[..few])
        } else {
            self.slot(&plain.nodes)
        }
    }

    /// A slot, most of the time a live one.
    fn slot<P>(&mut self, slots: &[Slot<P>]) -> u32 {
        if slots.is_empty() || self.rng.one_in(self.mix.stray) {
            let bound = slots.len() as u32;
            let stray = [bound, bound + 1, 9_999, 32_768, 1 << 31, NONE];
            let below = self.rng.below(slots.len() + 1) as u32;
            let above = self.rng.pick(&stray);
            return self.rng.pick(&[below, above]);
        }
        let draws = (0..6).map(|_| self.rng.below(slots.len()));
        let draws: Vec<usize> = draws.collect();
        let live = draws.iter().find(|&&slot| slots[slot].live);
        *live.unwrap_or(&draws[0]) as u32
    }
}

/// Two weights, the lower one first.
fn ordered(weights: [u32; 2]) -> EdgePayload {
    EdgePayload {
        low: weights[0].min(weights[1]),
        high: weights[0].max(weights[1]),
    }
}

/// Low equal to high, which the Rust can hold.
pub fn one_weight(rng: &mut Rng) -> EdgePayload {
    ordered([rng.word(); 2])
}

/// A low and a high, close to each other half of the time.
pub fn range(rng: &mut Rng) -> EdgePayload {
    let weight = rng.word();
    let near = weight.saturating_add(rng.below(3) as u32);
    let any = rng.word();
    ordered([weight, rng.pick(&[near, any])])
}

/// The plain lists of a random compact store within the capacities, its lists in
/// any order, its edges with these payloads.
pub fn compact_lists(
    rng: &mut Rng,
    capacities: Capacities,
    payload: fn(&mut Rng) -> EdgePayload,
) -> Plain {
    let nodes = rng.below(capacities.nodes as usize + 1);
    let most = if nodes == 0 { 0 } else { capacities.edges };
    let edges = rng.below(most as usize + 1);
    lists_of([nodes, edges], rng, payload)
}

/// Lists of so many nodes and edges; of no node there is no edge.
pub fn lists_of(
    [nodes, edges]: [usize; 2],
    rng: &mut Rng,
    payload: fn(&mut Rng) -> EdgePayload,
) -> Plain {
    let live = true;
    let node = |_| Slot {
        payload: rng.word(),
        live,
    };
    let node_slots = (0..nodes).map(node).collect();
    let edge = |_| Slot {
        payload: payload(rng),
        live,
    };
    let mut plain = Plain {
        nodes: node_slots,
        edges: (0..edges).map(edge).collect(),
        ..Plain::default()
    };
    for incidence in [&mut plain.outgoing, &mut plain.incoming] {
        incidence.lists = vec![Vec::new(); nodes];
        for edge in 0..edges as u32 {
            let end = rng.below(nodes);
            incidence.ends.push(end as u32);
            incidence.lists[end].push(edge);
        }
        for list in &mut incidence.lists {
            rng.shuffle(list);
        }
    }
    plain
}

/// So many slots as the limit, one less or a few more, or any number below.
pub fn about(limit: usize, rng: &mut Rng) -> usize {
    match rng.below(6) {
        0 => rng.below(limit),
        1 | 2 => limit + rng.below(4),
        3 => limit - 1,
        _ => limit,
    }
}

/// Lists with lots about the skid's limit and transfers mostly few.
pub fn lists_about_skid(rng: &mut Rng, payload: fn(&mut Rng) -> EdgePayload) -> Plain {
    let nodes = 1 + about(63, rng);
    let edges = match rng.one_in(3) {
        true => about(128, rng),
        false => rng.below(8),
    };
    lists_of([nodes, edges], rng, payload)
}
