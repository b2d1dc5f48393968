//! Nearest chains beside the Rust's `shortest_path`: the public entry checks the
//! whole store first, which is timed by itself too.

use std::time::Instant;

use super::{Pair, REPEATS, SLOTS, median};
use crate::calls::Lots;
use crate::model::Capacities;
use crate::rust_store::{self, RustStore};

impl Pair {
    /// The nearest chain between two nodes by the public entry and by the Rust's
    /// `shortest_path`, and the check alone.
    fn compare_nearest(&self, name: &str, first: u32, second: u32) {
        let graph = &self.rust.graph;
        let mut work = vec![0; 2 * self.book.memory().nodes.len()];
        let mut chain = vec![0; graph.node_bound()];
        let mut times = [const { Vec::new() }; 3];
        for _ in 0..4 * REPEATS {
            let began = Instant::now();
            self.book.check().expect("a store");
            let check = began.elapsed();
            let began = Instant::now();
            let given = self.book.nearest_into(first, second, &mut work, &mut chain);
            let port = began.elapsed();
            let began = Instant::now();
            let expected = rust_store::nearest(graph, first, second);
            let rust = began.elapsed();
            let given = given.ok().map(|length| &chain[..length as usize]);
            assert_eq!(expected.as_deref(), given, "both sides find the same");
            for (times, time) in times.iter_mut().zip([port, check, rust]) {
                times.push(time);
            }
        }
        let [port, check, rust] = times.map(median);
        println!(
            "nearest chain, {name}: port {port:.0} µs, of it the check {check:.0} µs, Rust {rust:.0} µs, ratio {:.2}, without the check {:.2}",
            port / rust,
            (port - check).max(0.0) / rust
        );
    }
}

/// A store of these capacities with as many nodes, and these edges.
fn store_of(nodes: u32, edges: impl Iterator<Item = [u32; 2]>) -> Pair {
    let mut rust = RustStore::fresh(Capacities {
        nodes,
        edges: SLOTS,
    });
    for payload in 0..nodes {
        rust.operation([1, 0, 0, payload, 0]);
    }
    for [source, target] in edges {
        rust.operation([2, source, target, 1, 1]);
    }
    Pair::of(rust)
}

/// Nearest chains: along a path as long as can be, through a hub that half of the
/// nodes lead to and that leads to the other half, and through layers in which every
/// node leads to every node of the next.
pub fn run() {
    let last = SLOTS - 1;
    let path = store_of(SLOTS, (0..last).map(|node| [node, node + 1]));
    path.compare_nearest("a path, end to end", 0, last);
    path.compare_nearest("a path, back, where there is no chain", last, 0);
    let hub = (1..SLOTS).map(|node| if node % 2 == 1 { [node, 0] } else { [0, node] });
    let hub = store_of(SLOTS, hub);
    hub.compare_nearest("a hub, through it", last, last - 1);
    const LAYER: u32 = 64;
    let next = |node| (node / LAYER + 1) * LAYER;
    let layers = (0..8 * LAYER)
        .flat_map(|node| (next(node)..next(node) + LAYER).map(move |target| [node, target]));
    let layers = store_of(9 * LAYER, layers);
    layers.compare_nearest("layers, first to last", 0, 9 * LAYER - 1);
    layers.compare_nearest("layers, back, where there is no chain", 9 * LAYER - 1, 0);
}
