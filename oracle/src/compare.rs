//! The model, the shape and the Rust store side by side: each step is made on
//! all three and what they tell is compared.

use crate::calls::{self, Lots};
use crate::generate::Step;
use crate::graph::store::Renumbering;
use crate::image;
use crate::model::{self, Capacities, Compaction, DIRECTIONS, Model, NONE, Operation, Plain};
use crate::rust_store::{self, LOOKUPS, RustStore, node};
use crate::sequences::{Same, Sides};
use crate::shape::Shape;
use crate::tally::{Difference, Tally, Thing};

#[derive(Clone)]
pub struct Trio {
    pub model: Model,
    pub rust: RustStore,
    shape: Shape,
    /// The maps of all compactions since the store was fresh or read, joined:
    /// the model's and the Rust's.
    joined: Option<([Vec<u32>; 2], Renumbering)>,
    /// Whether neither a fresh store nor an image led to this one.
    foreign: bool,
    /// What the latest step may have changed.
    touched: Touched,
}

/// Slots that an operation names, and those whose lists or records it changes.
#[derive(Clone, Default)]
pub struct Touched {
    pub nodes: Vec<u32>,
    edges: Vec<u32>,
}

impl Touched {
    /// Found in the lists before the operation; a new slot will be the bound.
    pub fn by(operation: Operation, plain: &Plain) -> Self {
        let (mut nodes, mut edges) = (Vec::new(), Vec::new());
        match operation {
            Operation::AddNode { .. } => nodes.push(plain.nodes.len() as u32),
            Operation::AddEdge { source, target, .. } => {
                nodes.extend([source, target]);
                edges.push(plain.edges.len() as u32);
            }
            Operation::RemoveEdge { edge } | Operation::SetPayload { edge, .. } => edges.push(edge),
            Operation::RemoveNode { node } => {
                nodes.push(node);
                for direction in DIRECTIONS {
                    edges.extend(plain.walk(direction, node).unwrap_or_default());
                }
            }
            Operation::Redirect { edge, node, .. } => {
                nodes.push(node);
                edges.push(edge);
            }
            Operation::Move {
                direction,
                old,
                new,
            } => {
                nodes.extend([old, new]);
                edges.extend(plain.walk(direction, old).unwrap_or_default());
            }
        }
        let records = edges.iter().filter_map(|&edge| plain.record(edge));
        nodes.extend(records.flat_map(|[source, target, ..]| [source, target]));
        nodes.sort_unstable();
        nodes.dedup();
        Self { nodes, edges }
    }
}

impl Sides for Trio {
    const NAME: &str = "sequences";

    fn fresh(capacities: Capacities) -> Self {
        Self::fresh(capacities)
    }

    fn model(&self) -> &Model {
        &self.model
    }

    fn compare_step(&mut self, step: &Step, everything: bool, tally: &mut Tally) -> Same {
        self.step(step, tally)?;
        match step {
            Step::Operation(_) if !everything => self.compare_touched(tally),
            _ => self.compare_everything(tally),
        }
    }
}

impl Trio {
    pub fn fresh(capacities: Capacities) -> Self {
        let model = Model::fresh(capacities.nodes.into(), capacities.edges.into());
        Self::of(
            model.expect("the generated capacities are within the limit"),
            RustStore::fresh(capacities),
            false,
        )
    }

    /// A store from elsewhere, with what its own reads tell as plain lists.
    #[cfg(feature = "serde")]
    pub fn foreign(rust: RustStore) -> Self {
        let model = Model {
            capacities: rust.capacities,
            plain: rust.plain(),
            compact: rust.graph.is_compact(),
        };
        Self::of(model, rust, true)
    }

    fn of(model: Model, rust: RustStore, foreign: bool) -> Self {
        let shape = Shape::of(&rust.graph);
        Self {
            model,
            rust,
            shape,
            joined: None,
            foreign,
            touched: Touched::default(),
        }
    }

    pub fn step(&mut self, step: &Step, tally: &mut Tally) -> Same {
        match step {
            Step::Operation(words) => self.operation(*words, tally),
            Step::Compact => self.compact(tally).map(|_| ()),
            Step::Read(bytes) => self.read(bytes, tally),
        }
    }

    fn operation(&mut self, words: [u32; 5], tally: &mut Tally) -> Same {
        let operation = Operation::decode(words);
        let touched = operation.map(|operation| Touched::by(operation, &self.model.plain));
        self.touched = touched.unwrap_or_default();
        let expected = self.model.operation(words);
        let given = self.rust.operation(words);
        tally.answered(words, expected);
        tally.same(Thing::Answer, || format!("{words:?}"), expected, given)?;
        if let Some(operation) = operation
            && expected.number == 0
        {
            self.shape.operation(operation, expected.value);
        }
        Ok(())
    }

    /// Compacts, compares all that a compaction leaves, and gives it.
    pub fn compact(&mut self, tally: &mut Tally) -> Result<Compaction, Difference> {
        let place = || "compaction".to_string();
        let in_rust_order = (!self.in_order()).then(|| self.in_rust_order().compaction());
        let working = [self.model.image(), self.rust.image()];
        let expected = self.model.compact();
        let given = self.rust.graph.compact();
        let maps = [expected.node_map.clone(), expected.edge_map.clone()];
        tally.same(Thing::Map, place, &maps, &rust_store::maps(&given))?;
        let index = self.rust.graph.index();
        match in_rust_order {
            None => tally.same(Thing::Work, place, &expected.work, &index)?,
            // The Rust is no yardstick: it goes on with the lists that are kept.
            Some(other) => {
                tally.same(Thing::RustOrder, place, &other.work, &index)?;
                self.rust.put(&expected.plain);
            }
        }
        compare_lookups(&maps, &given, tally)?;

        self.joined = Some(match self.joined.take() {
            None => (maps, given),
            Some((earlier, renumbering)) => {
                let [nodes, edges] = earlier;
                let joined = [
                    model::compose(&nodes, &maps[0]),
                    model::compose(&edges, &maps[1]),
                ];
                let renumbering = renumbering.compose(&given);
                let composed = rust_store::maps(&renumbering);
                tally.same(Thing::Compose, place, &joined, &composed)?;
                (joined, renumbering)
            }
        });

        self.shape = Shape::compacted(&expected.plain);
        self.foreign = false;
        let compacted = [self.model.image(), self.rust.image()];
        tally.same(Thing::Working, place, compacted, working)?;
        self.compare_compacted(tally)?;
        Ok(expected)
    }

    /// Whether the Rust is the yardstick of a compaction: its own shape tells.
    pub fn in_order(&self) -> bool {
        Shape::of(&self.rust.graph).in_order()
    }

    /// The lists in the order in which the Rust's compaction takes them: it puts
    /// some in slot order, and its own shape tells which.
    pub fn in_rust_order(&self) -> Plain {
        let shape = Shape::of(&self.rust.graph);
        let mut plain = self.model.plain.clone();
        let sides = [&mut plain.outgoing, &mut plain.incoming];
        for (direction, incidence) in DIRECTIONS.into_iter().zip(sides) {
            for (node, list) in (0..).zip(&mut incidence.lists) {
                *list = shape.rust_order(direction, node);
            }
        }
        plain
    }

    /// A compacted store: its image, the store that reading the image leaves,
    /// and a second compaction, which changes nothing.
    fn compare_compacted(&self, tally: &mut Tally) -> Same {
        let place = || "after a compaction".to_string();
        let bytes = self.model.image();
        tally.same(Thing::Image, place, &bytes, &self.rust.image())?;

        let read = image::read(&bytes);
        tally.same(Thing::Reading, place, &read, &Ok(self.model.plain.clone()))?;
        let mut rust = RustStore::fresh(self.rust.capacities);
        rust.put(&self.model.plain);
        tally.same(Thing::Reading, place, &rust.graph, &self.rust.graph)?;

        let mut model = self.model.clone();
        let again = model.compact();
        let identity = model::is_identity(&again.node_map, &again.edge_map);
        tally.same(Thing::Again, place, (true, &self.model), (identity, &model))?;
        let identity = rust.graph.compact().is_identity();
        let graph = &self.rust.graph;
        tally.same(Thing::Again, place, (true, graph), (identity, &rust.graph))
    }

    fn read(&mut self, bytes: &[u8], tally: &mut Tally) -> Same {
        let Capacities { nodes, edges } = self.model.capacities;
        match calls::read_image(nodes.into(), edges.into(), bytes) {
            Ok(model) => {
                self.rust.put(&model.plain);
                *self = Self::of(model, self.rust.clone(), false);
                self.compare_compacted(tally)
            }
            Err(refused) => {
                let place = || "reading a written image".to_string();
                tally.same(Thing::Reading, place, "done", format!("{refused:?}"))
            }
        }
    }

    /// Everything that can be read.
    pub fn compare_everything(&self, tally: &mut Tally) -> Same {
        let plain = &self.model.plain;
        for slot in 0..plain.nodes.len() as u32 {
            self.compare_node(slot, tally)?;
        }
        for slot in 0..plain.edges.len() as u32 {
            self.compare_edge(slot, tally)?;
        }
        self.compare_nearest(tally)?;
        self.compare_whole(tally)?;

        let place = || "the store".to_string();
        let (nodes, edges) = (self.rust.live_nodes(), self.rust.live_edges());
        tally.same(Thing::LiveList, place, plain.live_nodes(), nodes)?;
        tally.same(Thing::LiveList, place, plain.live_edges(), edges)?;
        let shape = Shape::of(&self.rust.graph);
        tally.same(Thing::Parts, place, self.shape.struck(), shape.struck())?;
        if !self.foreign {
            tally.same(Thing::Reached, place, None, shape.not_reached())?;
        }
        Ok(())
    }

    /// What the latest operation touched, and the bounds and counts.
    pub fn compare_touched(&self, tally: &mut Tally) -> Same {
        let plain = &self.model.plain;
        let below = |slots: &[u32], bound: usize| {
            let mut slots = slots.to_vec();
            slots.retain(|&slot| (slot as usize) < bound);
            slots
        };
        for slot in below(&self.touched.nodes, plain.nodes.len()) {
            self.compare_node(slot, tally)?;
        }
        for slot in below(&self.touched.edges, plain.edges.len()) {
            self.compare_edge(slot, tally)?;
        }
        self.compare_whole(tally)
    }

    fn compare_node(&self, slot: u32, tally: &mut Tally) -> Same {
        let (model, rust) = (&self.model, &self.rust);
        let (plain, graph) = (&model.plain, &rust.graph);
        let kept = plain.nodes[slot as usize];
        let place = || format!("node {slot}");
        let payload = *graph.node(node(slot));
        tally.same(Thing::Payload, place, kept.payload, payload)?;
        let live = rust.contains_node(slot);
        tally.same(Thing::Liveness, place, kept.live, live)?;
        for direction in DIRECTIONS {
            let place = || format!("node {slot}, {direction:?}");
            let expected = plain.walk(direction, slot).expect("below the bound");
            let given = rust_store::walk(graph, direction, slot);
            tally.same(Thing::Walk, place, expected, given)?;
            let degrees = [model.degree(direction, slot), rust.degree(direction, slot)];
            tally.same(Thing::Degree, place, degrees[0], degrees[1])?;
            let expected = model.neighbors(direction, slot);
            let neighbors = rust.neighbors(direction, slot);
            tally.same(Thing::Neighbors, place, expected, neighbors)?;
            let totals = [
                calls::total(model, direction, slot),
                calls::total(rust, direction, slot),
            ];
            tally.same(Thing::Total, place, totals[0], totals[1])?;
        }
        Ok(())
    }

    fn compare_edge(&self, slot: u32, tally: &mut Tally) -> Same {
        let (plain, graph) = (&self.model.plain, &self.rust.graph);
        let place = || format!("edge {slot}");
        let expected = plain.record(slot).expect("below the bound");
        let given = rust_store::record(graph, slot);
        tally.same(Thing::Record, place, expected, given)?;
        let live = plain.edges[slot as usize].live;
        let contained = self.rust.contains_edge(slot);
        tally.same(Thing::Liveness, place, live, contained)?;
        if live {
            let given = rust_store::live_record(graph, slot);
            tally.same(Thing::LiveRecord, place, expected, given)?;
        }
        Ok(())
    }

    /// The nearest chain from every live node to another.
    fn compare_nearest(&self, tally: &mut Tally) -> Same {
        let live = self.model.live_nodes();
        for (at, &first) in live.iter().enumerate() {
            let second = live[(5 * at + 2) % live.len()];
            let place = || format!("from node {first} to node {second}");
            let [expected, given] = [
                self.model.nearest(first, second),
                self.rust.nearest(first, second),
            ];
            tally.same(Thing::Nearest, place, expected, given)?;
        }
        Ok(())
    }

    /// Bounds, counts and the yes or no reads.
    fn compare_whole(&self, tally: &mut Tally) -> Same {
        let (model, rust) = (&self.model, &self.rust);
        let place = || "the store".to_string();
        tally.same(Thing::Count, place, model.counts(), rust.counts())?;
        tally.same(Thing::Count, place, model.bounds(), rust.bounds())?;
        tally.same(Thing::Empty, place, model.is_empty(), rust.is_empty())?;
        let compact = rust.is_compact();
        tally.same(Thing::Compact, place, model.compact, compact)?;
        tally.same(Thing::Compact, place, self.shape.is_compact(), compact)?;
        for above in [0, 1, NONE] {
            let slots = model
                .bounds()
                .map(|bound| (bound as u32).saturating_add(above));
            let contained = rust.contains_node(slots[0]) || rust.contains_edge(slots[1]);
            tally.same(Thing::Liveness, place, false, contained)?;
        }
        Ok(())
    }
}

/// Lookups of every old slot, and of some at or above the old bound.
pub fn compare_lookups(maps: &[Vec<u32>; 2], given: &Renumbering, tally: &mut Tally) -> Same {
    for (map, lookup) in maps.iter().zip(LOOKUPS) {
        let bound = map.len() as u32;
        for old in (0..bound).chain([bound, bound + 1, NONE]) {
            let place = || format!("old slot {old}");
            let found = lookup(given, old);
            tally.same(Thing::Lookup, place, model::lookup(map, old), found)?;
        }
    }
    let [nodes, edges] = maps;
    let identity = model::is_identity(nodes, edges);
    let place = || "the maps".to_string();
    tally.same(Thing::Identity, place, identity, given.is_identity())
}
