//! The port's times as a part of the Rust's, on stores as large as the port
//! takes: `oracle/run --benchmark`.
//!
//! Workloads of operations: the same operations to the Rust's own calls, one after
//! another, and to the wrapper's lot book in strips. Each strip checks the whole
//! store before it begins; what that takes is timed by itself on the same store
//! just before the strip. Reads: lists of some nodes through the public entries,
//! which check the whole store for each.
//!
//! The check: timed are one call of `lot_check` and one of `Graph::try_from` in `validate.rs`
//! on the decoded columns of the same store, in turns; not timed are the decoding
//! and dropping of the store. `try_from` looks at the columns where they are, but
//! makes the runs from the map that was decoded, testing their entries; what that
//! takes is timed by itself too.

mod chains;
mod shapes;

use std::time::{Duration, Instant};

use super::memory;
use super::words::LISTS;
use crate::calls::Lots;
use crate::checked::{put_ring, read, written};
use crate::graph::store::Graph;
use crate::lots::LotBook;
use crate::model::{Capacities, DIRECTIONS, LIMIT, Operation};
use crate::rng::Rng;
use crate::rust_store::{self, RustStore, perform};

/// As many nodes as edges.
const SLOTS: u32 = LIMIT as u32;
/// How often each check is timed.
const TIMES: usize = 41;

fn added(rng: &mut Rng) -> RustStore {
    let mut rust = RustStore::fresh(Capacities {
        nodes: SLOTS,
        edges: SLOTS,
    });
    for _ in 0..SLOTS {
        rust.operation([1, 0, 0, rng.word(), 0]);
    }
    for _ in 0..SLOTS {
        let [source, target] = [(); 2].map(|()| rng.word() % SLOTS);
        let weight = rng.word();
        rust.operation([2, source, target, weight, weight]);
    }
    rust
}

fn redirected(mut rust: RustStore, rng: &mut Rng) -> RustStore {
    for edge in 0..SLOTS {
        rust.operation([5, edge, rng.word() % SLOTS, 0, 0]);
        rust.operation([6, edge, rng.word() % SLOTS, 0, 0]);
    }
    rust
}

fn median(mut times: Vec<Duration>) -> f64 {
    times.sort_unstable();
    times[times.len() / 2].as_secs_f64() * 1e6
}

fn compare(name: &str, rust: &RustStore) {
    let book = LotBook::from_memory(memory::of(rust));
    let written = serde_json::to_value(&rust.graph).expect("a store can be written");
    let mut times = [const { Vec::new() }; 3];
    for _ in 0..TIMES {
        let began = Instant::now();
        let answer = book.check();
        let port = began.elapsed();
        assert_eq!(answer, Ok(()), "the port passes the store");
        let (graph, [whole, making]) = Graph::judged(written.clone());
        assert_eq!(graph.as_ref(), Ok(&rust.graph), "the Rust passes the store");
        for (times, time) in times.iter_mut().zip([port, whole, making]) {
            times.push(time);
        }
    }
    let [port, whole, making] = times.map(median);
    println!(
        "{name}: port {port:.0} µs, Rust {whole:.0} µs, ratio {:.2}; \
         the Rust makes its runs in {making:.0} µs, ratio without them {:.2}",
        port / whole,
        port / (whole - making)
    );
}

/// A store on both sides.
#[derive(Clone)]
struct Pair {
    rust: RustStore,
    book: LotBook,
}

/// How often a workload is timed; at strips of one, once.
const REPEATS: usize = 5;
/// How often the writing of an image is.
const IMAGES: usize = 51;

impl Pair {
    fn of(rust: RustStore) -> Self {
        let book = LotBook::from_memory(memory::of(&rust));
        Self { rust, book }
    }

    /// The Rust's time for the operations, all of which it can do.
    fn rust_time(&self, operations: &[[u32; 5]]) -> Duration {
        let decoded = operations.iter().map(|&words| Operation::decode(words));
        let decoded: Vec<Operation> = decoded.map(|each| each.expect("an operation")).collect();
        let mut graph = self.rust.graph.clone();
        let began = Instant::now();
        let mut sum = 0u32;
        for operation in decoded {
            sum = sum.wrapping_add(perform(&mut graph, operation));
        }
        let time = began.elapsed();
        std::hint::black_box((sum, graph));
        time
    }

    /// The port's time for the operations by strips of so many, and that of the
    /// check alone, made besides on the store before each strip.
    fn port_times(&self, operations: &[[u32; 5]], strip: usize) -> [Duration; 2] {
        let mut book = self.book.clone();
        let mut answers = vec![0; 2 * strip];
        let mut times = [Duration::ZERO; 2];
        for words in operations.chunks(strip) {
            let began = Instant::now();
            book.check().expect("a store");
            times[1] += began.elapsed();
            let began = Instant::now();
            book.strip_words(words.as_flattened(), &mut answers)
                .expect("a store");
            times[0] += began.elapsed();
            let (pairs, _) = answers.as_chunks::<2>();
            assert!(
                pairs[..words.len()].iter().all(|&[number, _]| number == 0),
                "all are done"
            );
        }
        times
    }

    /// Both sides on the operations, by strips of these lengths.
    fn compare(&self, name: &str, operations: &[[u32; 5]], strips: &[usize]) {
        for &strip in strips {
            let repeats = if strip == 1 { 1 } else { REPEATS };
            let mut times = [const { Vec::new() }; 3];
            for _ in 0..repeats {
                let [port, check] = self.port_times(operations, strip);
                for (times, time) in times
                    .iter_mut()
                    .zip([port, check, self.rust_time(operations)])
                {
                    times.push(time);
                }
            }
            let [port, check, rust] = times.map(median);
            println!(
                "{name}, {} operations by strips of {strip}: port {port:.0} µs, of it the check {check:.0} µs, Rust {rust:.0} µs, \
                 ratio {:.2}, without the check {:.2}",
                operations.len(),
                port / rust,
                (port - check).max(0.0) / rust
            );
        }
    }

    /// One compaction on both sides, and the check alone.
    fn compare_compaction(&self, name: &str) {
        let [nodes, edges] = self.rust.bounds();
        let mut times = [const { Vec::new() }; 3];
        for _ in 0..REPEATS {
            let began = Instant::now();
            self.book.check().expect("a store");
            let check = began.elapsed();
            let mut book = self.book.clone();
            let mut maps = [nodes, edges].map(|bound| vec![0; bound]);
            let mut work = vec![0; 2 * self.rust.graph.edge_count()];
            let [node_map, edge_map] = &mut maps;
            let began = Instant::now();
            let done = book.compact_into(node_map, edge_map, &mut work);
            let port = began.elapsed();
            done.expect("a store");
            let mut graph = self.rust.graph.clone();
            let began = Instant::now();
            let renumbering = graph.compact();
            let rust = began.elapsed();
            std::hint::black_box((renumbering, graph));
            for (times, time) in times.iter_mut().zip([port, check, rust]) {
                times.push(time);
            }
        }
        let [port, check, rust] = times.map(median);
        println!(
            "{name}: port {port:.0} µs, of it the check {check:.0} µs, Rust {rust:.0} µs, ratio {:.2}, without the check {:.2}",
            port / rust,
            (port - check).max(0.0) / rust
        );
    }

    /// The image written directly, beside a compaction of a copy followed by writing;
    /// each of the three calls checks the store, which is timed by itself too. Lent
    /// slices and the copy are there before.
    fn compare_image(&self, name: &str) {
        let [nodes, edges] = self.rust.bounds();
        let expected = self.rust.image();
        let mut times = [const { Vec::new() }; 3];
        for _ in 0..IMAGES {
            let mut book = self.book.clone();
            let mut maps = [nodes, edges].map(|bound| vec![0; bound]);
            let mut work = vec![0; 2 * self.rust.graph.edge_count()];
            let mut images = [(); 2].map(|()| vec![0; expected.len()]);
            let [direct, behind] = &mut images;
            let began = Instant::now();
            self.book.check().expect("a store");
            let check = began.elapsed();
            let began = Instant::now();
            let done = self.book.image_into(&mut work, direct);
            let directly = began.elapsed();
            done.expect("a store");
            let [node_map, edge_map] = &mut maps;
            let began = Instant::now();
            let compacted = book.compact_into(node_map, edge_map, &mut work);
            let done = book.image_into(&mut work, behind);
            let compacting = began.elapsed();
            compacted.expect("a store");
            done.expect("a store");
            assert!(images.iter().all(|image| *image == expected), "one image");
            for (times, time) in times.iter_mut().zip([directly, compacting, check]) {
                times.push(time);
            }
        }
        let [directly, compacting, check] = times.map(median);
        println!(
            "{name}: directly {directly:.0} µs, compaction followed by writing {compacting:.0} µs, ratio {:.2}; \
             a check {check:.0} µs, ratio without the one and the two checks {:.2}",
            directly / compacting,
            (directly - check).max(0.0) / (compacting - 2.0 * check)
        );
    }

    /// Lists and degrees of some nodes, both ways. Each public call checks the whole
    /// store, which takes far longer than a short list: what walking takes is told by
    /// the reads of a hub (`shapes.rs`).
    fn compare_reads(&self) {
        const SOME: u32 = 256;
        let graph = &self.rust.graph;
        let each = |call: &mut dyn FnMut(usize, u32) -> usize| -> usize {
            let sides = (0..2).flat_map(|side| (0..SOME).map(move |node| (side, node)));
            sides.map(|(side, node)| call(side, node)).sum()
        };
        let timed = |call: &mut dyn FnMut(usize, u32) -> usize| {
            let mut sum = 0;
            let mut times = Vec::new();
            for _ in 0..REPEATS {
                let began = Instant::now();
                sum = each(call);
                times.push(began.elapsed());
            }
            (median(times) / f64::from(2 * SOME), sum)
        };
        let tell = |name: &str, port: (f64, usize), rust: (f64, usize)| {
            assert_eq!(port.1, rust.1, "both sides read the same");
            println!(
                "{name}, a node: a public call, with its check, {:.0} µs; Rust {:.3} µs",
                port.0, rust.0
            );
        };
        // Both sides fill one buffer, again and again.
        let mut out = vec![0; graph.edge_bound()];
        let port = timed(&mut |side, node| {
            let (_, [edges, _], _) = LISTS[side];
            let count = edges(&self.book, node, &mut out).expect("a store") as usize;
            std::hint::black_box(&out[..count]).len()
        });
        let rust = timed(&mut |side, node| {
            let edges = rust_store::edges_of(graph, DIRECTIONS[side], node);
            let mut count = 0;
            for (word, edge) in out.iter_mut().zip(edges) {
                *word = edge;
                count += 1;
            }
            std::hint::black_box(&out[..count]).len()
        });
        tell("walks", port, rust);
        let port = timed(&mut |side, node| {
            let (_, _, degree) = LISTS[side];
            degree(&self.book, node).expect("a store") as usize
        });
        let rust =
            timed(&mut |side, node| rust_store::degree(graph, DIRECTIONS[side], node) as usize);
        tell("degrees", port, rust);
    }
}

/// Redirections of either end of random edges to random nodes.
fn redirects(count: u32, rng: &mut Rng) -> Vec<[u32; 5]> {
    let redirect = |_| {
        [
            5 + rng.word() % 2,
            rng.word() % SLOTS,
            rng.word() % SLOTS,
            0,
            0,
        ]
    };
    (0..count).map(redirect).collect()
}

/// Slots 0 to 32,767 in random order.
fn shuffled(rng: &mut Rng) -> Vec<u32> {
    let mut slots: Vec<u32> = (0..SLOTS).collect();
    rng.shuffle(&mut slots);
    slots
}

/// Edits of a hub's run where one edge is removed, so that the port reads the run
/// at every edit: node 0 has all edges, and of these the last is removed. Its run
/// is there before the first operation that is timed.
fn compare_one_removed(hub: Pair, rng: &mut Rng) {
    const EDITS: usize = 4096;
    let after = |pair: &Pair, operations: &[[u32; 5]]| {
        let mut pair = pair.clone();
        let mut answers = vec![0; 2 * operations.len()];
        for &words in operations {
            pair.rust.operation(words);
        }
        pair.book
            .strip_words(operations.as_flattened(), &mut answers)
            .expect("a store");
        pair
    };
    let last = SLOTS - 1;
    let hub = after(
        &hub,
        &[[5, 0, 1, 0, 0], [5, 0, 0, 0, 0], [3, last, 0, 0, 0]],
    );
    let away = |edge: u32| [5, edge, 1 + edge % (SLOTS - 1), 0, 0];
    let in_order: Vec<[u32; 5]> = (1..).map(away).take(EDITS).collect();
    let mut any = shuffled(rng);
    any.retain(|&edge| edge != last);
    let any: Vec<[u32; 5]> = any.into_iter().map(away).take(EDITS).collect();
    let name = "a hub with one removed edge";
    hub.compare(
        &format!("redirects away from {name}, in its order"),
        &in_order,
        &[EDITS],
    );
    hub.compare(
        &format!("redirects away from {name}, in any order"),
        &any,
        &[EDITS],
    );
    let to: Vec<[u32; 5]> = any
        .iter()
        .map(|&[_, edge, ..]| [5, edge, 0, 0, 0])
        .collect();
    after(&hub, &any).compare(&format!("redirects to {name}"), &to, &[EDITS]);
    let moves: Vec<[u32; 5]> = (0..EDITS as u32)
        .map(|node| [7, node, node + 1, 0, 0])
        .collect();
    hub.compare(&format!("moves of {name}"), &moves, &[EDITS]);
}

fn compare_operations(rng: &mut Rng) {
    let nodes = (0..SLOTS).map(|payload| [1, 0, 0, payload, 0]);
    let edges: Vec<[u32; 5]> = (0..SLOTS)
        .map(|weight| {
            let [source, target] = [(); 2].map(|()| rng.word() % SLOTS);
            [2, source, target, weight, weight]
        })
        .collect();
    let build: Vec<[u32; 5]> = nodes.clone().chain(edges).collect();
    let capacities = Capacities {
        nodes: SLOTS,
        edges: SLOTS,
    };
    let empty = Pair::of(RustStore::fresh(capacities));
    empty.compare("building", &build, &[1, 64, 4096]);

    let mut rust = empty.rust.clone();
    for &words in &build {
        rust.operation(words);
    }
    let built = Pair::of(rust);
    built.compare("random redirects", &redirects(SLOTS, rng), &[64, 4096]);

    let mut rust = empty.rust;
    for words in nodes.chain((0..SLOTS).map(|target| [2, 0, target, target, target])) {
        rust.operation(words);
    }
    let hub = Pair::of(rust);
    let away = |edge: u32| [5, edge, 1 + edge % (SLOTS - 1), 0, 0];
    let in_order: Vec<[u32; 5]> = (0..8192).map(away).collect();
    hub.compare(
        "redirects away from a hub, in its order",
        &in_order,
        &[4096],
    );
    let any: Vec<[u32; 5]> = shuffled(rng).into_iter().take(8192).map(away).collect();
    hub.compare("redirects away from a hub, in any order", &any, &[4096]);
    hub.compare_compaction("compaction of a hub, its ring of all edges ascending");
    let mut value = written(&hub.rust.graph);
    put_ring(&mut value, 0, 0, &shuffled(rng), 0);
    let turned = Pair::of(RustStore {
        graph: read(value).expect("it passes the check"),
        capacities,
    });
    turned.compare_compaction("compaction of a hub, its ring of all edges in any order");

    compare_one_removed(hub, rng);

    let moves: Vec<[u32; 5]> = (0..SLOTS)
        .map(|_| {
            [
                7 + rng.word() % 2,
                rng.word() % SLOTS,
                rng.word() % SLOTS,
                0,
                0,
            ]
        })
        .filter(|[_, old, new, ..]| old != new)
        .collect();
    built.compare("moves", &moves, &[64, 4096]);

    let edges = shuffled(rng)
        .into_iter()
        .take(SLOTS as usize / 2)
        .map(|edge| [3, edge, 0, 0, 0]);
    let nodes = shuffled(rng).into_iter().map(|node| [4, node, 0, 0, 0]);
    let removals: Vec<[u32; 5]> = edges.chain(nodes).collect();
    built.compare(
        "removals, half of the edges and then every node",
        &removals,
        &[64, 4096],
    );

    built.compare_reads();
    compare_images(&built, &removals);
}

/// Images of a full store, of which half of the edges are removed (the first half of
/// the removals), half of the nodes, or nothing.
fn compare_images(built: &Pair, removals: &[[u32; 5]]) {
    let (edges, nodes) = removals.split_at(SLOTS as usize / 2);
    for (name, removed) in [
        ("half of its edges removed", edges),
        ("half of its nodes removed", &nodes[..edges.len()]),
        ("nothing removed", &[]),
    ] {
        let mut rust = built.rust.clone();
        for &words in removed {
            rust.operation(words);
        }
        Pair::of(rust).compare_image(&format!("the image of a full store, {name}"));
    }
}

/// A book of so many nodes and edges between random ones, a third of them redirected, so
/// that there are runs, and an eighth of the edges removed.
fn part(slots: u32, rng: &mut Rng) -> LotBook {
    let capacities = Capacities {
        nodes: slots,
        edges: slots,
    };
    let mut rust = RustStore::fresh(capacities);
    for _ in 0..slots {
        rust.operation([1, 0, 0, rng.word(), 0]);
    }
    for _ in 0..slots {
        let [source, target] = [(); 2].map(|()| rng.word() % slots);
        rust.operation([2, source, target, 1, 1]);
    }
    for edge in (0..slots).step_by(3) {
        rust.operation([5, edge, rng.word() % slots, 0, 0]);
    }
    for edge in (0..slots).step_by(8) {
        rust.operation([3, edge, 0, 0, 0]);
    }
    LotBook::from_memory(memory::of(&rust))
}

/// Two books joined, beside the compactions of both; all three calls make their checks.
fn compare_joins(rng: &mut Rng) {
    const TIMES: usize = 41;
    for slots in [SLOTS / 8, SLOTS / 4, SLOTS / 2] {
        let books = [(); 2].map(|()| part(slots, rng));
        let [one, two] = &books;
        let room = slots as usize;
        let mut times = [const { Vec::new() }; 2];
        for _ in 0..TIMES {
            let mut third = LotBook::new(2 * room, 2 * room).expect("within the limit");
            let mut maps = [(); 4].map(|()| vec![0; room]);
            let [a, b, c, d] = &mut maps;
            let began = Instant::now();
            let done = third.join_into(one, two, [a, b, c, d]);
            times[0].push(began.elapsed());
            done.expect("two stores, and room for both");
            let mut copies = books.clone();
            let mut work = vec![0; 2 * room];
            let mut both = Duration::ZERO;
            for book in &mut copies {
                let began = Instant::now();
                let done = book.compact_into(a, b, &mut work);
                both += began.elapsed();
                done.expect("a store");
            }
            times[1].push(both);
            std::hint::black_box((third, copies));
        }
        let [joining, compacting] = times.map(median);
        println!(
            "two books of {slots} nodes and edges joined: {joining:.0} µs; both compacted: {compacting:.0} µs, ratio {:.2}",
            joining / compacting
        );
    }
}

pub fn run(seed: u64) {
    println!("stores of {SLOTS} nodes and {SLOTS} edges, seed {seed}");
    let mut rng = Rng::new(seed);
    chains::run();
    compare_joins(&mut rng);
    compare_operations(&mut rng);
    shapes::run(&mut rng);
}
