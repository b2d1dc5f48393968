//! The calls whose time depends on what a store holds, store by store: the check,
//! compaction, reads of a hub, moves of a hub's list, images; how the check grows
//! with the store, and how long it takes on words made to slow it down.
//!
//! Every call checks the store first; the check is timed by itself just before, and
//! what is left is compared with the Rust, which checks nothing.

use std::time::{Duration, Instant};

use super::{Pair, SLOTS, TIMES, added, compare, median, memory, redirected, shuffled};
use crate::calls::Lots;
use crate::lots::{LotBook, Memory as Lent};
use crate::model::{Capacities, DIRECTIONS};
use crate::rng::Rng;
use crate::rust_store::{RustStore, edge, edges_of, node, record};

/// The median times, in microseconds, of actions made in turns.
fn in_turns<const N: usize>(mut actions: [&mut dyn FnMut() -> Duration; N]) -> [f64; N] {
    let mut times = [const { Vec::new() }; N];
    for _ in 0..TIMES {
        for (times, action) in times.iter_mut().zip(&mut actions) {
            times.push(action());
        }
    }
    times.map(median)
}

fn timed<T>(action: impl FnOnce() -> T) -> Duration {
    let began = Instant::now();
    let answer = action();
    let time = began.elapsed();
    std::hint::black_box(answer);
    time
}

/// A call's time without the check's, beside the Rust's.
fn tell(name: &str, [check, port, rust]: [f64; 3]) {
    let apart = (port - check).max(0.0);
    println!(
        "{name}: port {port:.1} µs, of it the check {check:.1} µs, so {apart:.1} µs, Rust {rust:.1} µs, ratio {:.2}",
        apart / rust
    );
}

/// Every second edge removed.
fn half_removed(mut rust: RustStore) -> RustStore {
    for edge in (0..SLOTS).step_by(2) {
        rust.operation([3, edge, 0, 0, 0]);
    }
    rust
}

/// As a box stands between two compactions: compact with a quarter of its room
/// free, then edges redirected, edges and some nodes removed, edges added.
fn mixed(rng: &mut Rng) -> RustStore {
    const KEPT: u32 = SLOTS / 4 * 3;
    let mut rust = RustStore::fresh(Capacities {
        nodes: SLOTS,
        edges: SLOTS,
    });
    for _ in 0..SLOTS {
        rust.operation([1, 0, 0, rng.word(), 0]);
    }
    let join = |rust: &mut RustStore, rng: &mut Rng| {
        let [source, target] = [(); 2].map(|()| rng.word() % SLOTS);
        rust.operation([2, source, target, 1, 1]);
    };
    for _ in 0..KEPT {
        join(&mut rust, rng);
    }
    rust.graph.compact();
    for _ in 0..KEPT / 3 {
        let code = 5 + rng.word() % 2;
        rust.operation([code, rng.word() % KEPT, rng.word() % SLOTS, 0, 0]);
    }
    for _ in 0..KEPT / 8 {
        rust.operation([3, rng.word() % KEPT, 0, 0, 0]);
    }
    for _ in 0..SLOTS / 64 {
        rust.operation([4, rng.word() % SLOTS, 0, 0, 0]);
    }
    while rust.graph.edge_bound() < SLOTS as usize {
        join(&mut rust, rng);
    }
    rust
}

/// Node 0 is the source of every edge; the targets are all nodes.
fn hub() -> RustStore {
    let mut rust = RustStore::fresh(Capacities {
        nodes: SLOTS,
        edges: SLOTS,
    });
    for payload in 0..SLOTS {
        rust.operation([1, 0, 0, payload, 0]);
    }
    for target in 0..SLOTS {
        rust.operation([2, 0, target, target, target]);
    }
    rust
}

/// Reads of a hub's list: all of it is read, and where an edge is removed every
/// live bit.
fn compare_hub(name: &str, rust: &RustStore) {
    let pair = Pair::of(rust.clone());
    let graph = &pair.rust.graph;
    let book = &pair.book;
    let last = graph.node_bound() as u32 - 1;
    let mut out = vec![0; graph.edge_bound()];
    let mut ends = out.clone();
    let check = &mut || timed(|| book.check().expect("a store"));
    let found = edges_of(graph, DIRECTIONS[0], 0).find(|&edge| record(graph, edge)[1] == last);
    assert_eq!(book.find(0, last), Ok(found), "both sides find the same");
    let times = in_turns([
        check,
        &mut || timed(|| book.find(0, last).expect("a store")),
        &mut || {
            timed(|| {
                edges_of(graph, DIRECTIONS[0], 0)
                    .find(|&slot| graph.edge(edge(slot)).target() == node(last))
            })
        },
    ]);
    tell(&format!("{name}, find its last edge"), times);
    let times = in_turns([
        check,
        &mut || timed(|| book.successors_into(0, &mut out).expect("a store")),
        &mut || {
            timed(|| {
                for (word, end) in ends.iter_mut().zip(graph.successors(node(0))) {
                    *word = end.raw();
                }
            })
        },
    ]);
    tell(&format!("{name}, its far ends"), times);
    let times = in_turns([
        check,
        &mut || timed(|| book.out_degree(0).expect("a store")),
        &mut || timed(|| graph.out_degree(node(0))),
    ]);
    tell(&format!("{name}, its degree"), times);
    let times = in_turns([
        check,
        &mut || timed(|| book.out_total(0).expect("a store")),
        &mut || {
            timed(|| {
                let weights = edges_of(graph, DIRECTIONS[0], 0);
                weights
                    .map(|slot| u64::from(record(graph, slot)[2]))
                    .sum::<u64>()
            })
        },
    ]);
    tell(&format!("{name}, its total"), times);
}

/// The whole list of a hub moved from node to node, by strips of 64.
fn compare_moves(rust: &RustStore) {
    let moves: Vec<[u32; 5]> = (0..64).map(|node| [7, node, node + 1, 0, 0]).collect();
    Pair::of(rust.clone()).compare("a hub's list moved on", &moves, &[64]);
}

/// Writing and reading an image, by edges. The Rust has none.
fn images(rust: &RustStore) {
    let book = LotBook::from_memory(memory::of(rust));
    let image = book.image().expect("a store with an image");
    let mut bytes = image.clone();
    let mut work = vec![0; 2 * SLOTS as usize];
    let mut into = book.clone();
    let [check, write, read] = in_turns([
        &mut || timed(|| book.check().expect("a store")),
        &mut || timed(|| book.image_into(&mut work, &mut bytes).expect("room")),
        &mut || timed(|| into.read_image(&image).expect("an image")),
    ]);
    let edge = 1e3 / f64::from(SLOTS);
    println!(
        "images of {} bytes: written in {write:.0} µs, of it the check {check:.0} µs, so {:.1} ns an edge; read in {read:.0} µs, {:.1} ns an edge",
        image.len(),
        (write - check) * edge,
        read * edge
    );
}

/// The check on stores of several sizes: its time an edge stays.
fn growth(rng: &mut Rng) {
    for size in [1024, 4096, 16_384, SLOTS] {
        let mut rust = RustStore::fresh(Capacities {
            nodes: size,
            edges: size,
        });
        for _ in 0..size {
            rust.operation([1, 0, 0, 0, 0]);
        }
        for _ in 0..size {
            rust.operation([2, rng.word() % size, rng.word() % size, 0, 0]);
        }
        let added = LotBook::from_memory(memory::of(&rust));
        for edge in 0..size {
            rust.operation([5, edge, rng.word() % size, 0, 0]);
        }
        let runs = LotBook::from_memory(memory::of(&rust));
        let [added, runs] = in_turns([
            &mut || timed(|| added.check().expect("a store")),
            &mut || timed(|| runs.check().expect("a store")),
        ]);
        let edge = 1e3 / f64::from(size);
        println!(
            "the check of {size} nodes and edges: added {added:.1} µs, {:.1} ns an edge; with runs {runs:.1} µs, {:.1} ns an edge",
            added * edge,
            runs * edge
        );
    }
}

/// Words that look like a store up to a place far on: the check reads as much of
/// them as it ever does before it refuses.
fn hostile(rng: &mut Rng) {
    let edges = SLOTS as usize;
    let column = |k: usize| k * edges;
    let nodes = |k: usize| 4 * edges + k * edges;
    let hub = hub();
    let mut one_run = hub.clone();
    one_run.operation([5, 0, 1, 0, 0]);
    one_run.operation([5, 0, 0, 0, 0]);
    let stores: [(&str, Lent); 5] = [
        ("a ring of all edges that closes past its last", {
            let mut words = memory::of(&hub);
            let last = words.axes[0][nodes(0)] as usize;
            words.axes[0][column(2) + last] = 1;
            words
        }),
        ("a ring of all edges that falls", {
            let mut words = memory::of(&hub);
            for edge in 0..edges {
                words.axes[0][column(2) + edge] = ((edge + edges - 1) % edges) as u32;
            }
            words
        }),
        ("a run of all edges whose last is the first again", {
            let mut words = memory::of(&one_run);
            let tail = words.axes[0][nodes(2)] as usize;
            let before = (0..edges)
                .find(|&edge| words.axes[0][column(3) + edge] as usize == tail)
                .expect("the tail has one before it");
            words.axes[0][column(3) + before] = words.axes[0][nodes(1)];
            words
        }),
        ("a run of all edges in any order", {
            let mut words = memory::of(&one_run);
            let order = shuffled(rng);
            for pair in order.windows(2) {
                words.axes[0][column(3) + pair[0] as usize] = pair[1];
            }
            words.axes[0][nodes(1)] = order[0];
            words.axes[0][nodes(2)] = order[edges - 1];
            words
        }),
        ("the last edge of all listed at another node", {
            let mut words = memory::of(&added(rng));
            words.axes[1][edges - 1] = (words.axes[1][edges - 1] + 1) % SLOTS;
            words
        }),
    ];
    for (name, words) in stores {
        let book = LotBook::from_memory(words);
        let [time] = in_turns([&mut || timed(|| book.check())]);
        let told = match book.check() {
            Ok(()) => "no store's rule broken".to_string(),
            Err(refused) => format!("rule {}", refused.value),
        };
        println!("the check of {name}: {time:.0} µs, {told}");
    }
}

pub fn run(rng: &mut Rng) {
    let delta = added(rng);
    let mut compact = delta.clone();
    compact.graph.compact();
    let shapes = [
        ("added", delta.clone()),
        ("half removed", half_removed(delta)),
        ("compact", compact.clone()),
        ("compact, half removed", half_removed(compact.clone())),
        (
            "redirected, both ends of every edge",
            redirected(compact.clone(), rng),
        ),
        ("mixed", mixed(rng)),
        ("hub", hub()),
    ];
    println!("by what a store holds, medians of {TIMES}");
    for (name, rust) in &shapes {
        compare(&format!("the check, {name}"), rust);
        Pair::of(rust.clone()).compare_compaction(&format!("compaction, {name}"));
    }
    let hub = hub();
    let mut removed = hub.clone();
    removed.operation([3, SLOTS / 2, 0, 0, 0]);
    compare_hub("a hub's list in its ring", &hub);
    compare_hub("a hub's list in its ring, one edge removed", &removed);
    removed.graph.compact();
    compare_hub("a hub's list in its base part", &removed);
    compare_moves(&hub);
    images(&compact);
    growth(rng);
    hostile(rng);
}
