//! Document 02's request 6 on plain lists: two books joined, what is refused, and both
//! books in one store by the Rust's own operations.

use crate::calls::Lots;
use crate::model::{Answer, Capacities, DIRECTIONS, Incidence, NONE, Plain};
use crate::rust_store::RustStore;

/// The maps of both books, nodes and edges of the first, then of the second.
pub type Maps = [Vec<u32>; 4];

/// "the first's survivors in slot order, then the second's, edges likewise, with each
/// list kept in its order. Four maps to the joined store's slots, made and measured as
/// in compaction": nodes and edges of the first book, then of the second.
pub fn joined([first, second]: [&Plain; 2]) -> (Plain, Maps) {
    let [one, two] = [first, second].map(Plain::compaction);
    let [nodes, edges] = [one.plain.nodes.len(), one.plain.edges.len()].map(|slots| slots as u32);
    let raised = |words: &[u32], by: u32| -> Vec<u32> {
        let raise = |&word: &u32| if word == NONE { NONE } else { word + by };
        words.iter().map(raise).collect()
    };
    let incidence = |one: &Incidence, two: &Incidence| Incidence {
        ends: [one.ends.clone(), raised(&two.ends, nodes)].concat(),
        lists: one
            .lists
            .iter()
            .cloned()
            .chain(two.lists.iter().map(|list| raised(list, edges)))
            .collect(),
    };
    let maps = [
        one.node_map,
        one.edge_map,
        raised(&two.node_map, nodes),
        raised(&two.edge_map, edges),
    ];
    let [one, two] = [one.plain, two.plain];
    let plain = Plain {
        outgoing: incidence(&one.outgoing, &two.outgoing),
        incoming: incidence(&one.incoming, &two.incoming),
        nodes: [one.nodes, two.nodes].concat(),
        edges: [one.edges, two.edges].concat(),
    };
    (plain, maps)
}

/// Both books in one Rust store, by its own operations: the live nodes and edges added
/// in slot order, and a list that does not ascend redirected to a helper and back, edge
/// by edge in its order; then the helper is removed, and the store compacted. The maps
/// are the slots that were answered.
pub fn rebuilt(books: [&Plain; 2]) -> (RustStore, Maps) {
    let counts = books.map(Plain::live_counts);
    let total = |kind: usize| (counts[0][kind] + counts[1][kind]) as u32;
    let mut rust = RustStore::fresh(Capacities {
        nodes: total(0) + 1,
        edges: total(1),
    });
    let mut operation = |words| {
        let answer = rust.operation(words);
        assert_eq!(answer.number, 0, "each is possible");
        answer.value as u32
    };
    let mut lists = Vec::new();
    let maps = books.map(|plain| {
        let mut nodes = vec![NONE; plain.nodes.len()];
        for slot in plain.live_nodes() {
            nodes[slot as usize] = operation([1, 0, 0, plain.nodes[slot as usize].payload, 0]);
        }
        let mut edges = vec![NONE; plain.edges.len()];
        for slot in plain.live_edges() {
            let [source, target, low, high] = plain.record(slot).expect("a slot");
            let ends = [source, target].map(|end| nodes[end as usize]);
            edges[slot as usize] = operation([2, ends[0], ends[1], low, high]);
        }
        for (code, direction) in [5, 6].into_iter().zip(DIRECTIONS) {
            for slot in plain.live_nodes() {
                let list = &plain.incidence(direction).lists[slot as usize];
                let list: Vec<u32> = list.iter().map(|&edge| edges[edge as usize]).collect();
                if !list.is_sorted() {
                    lists.push((code, nodes[slot as usize], list));
                }
            }
        }
        [nodes, edges]
    });
    let helper = operation([1, 0, 0, 0, 0]);
    for (code, node, list) in lists {
        for end in [helper, node] {
            for &edge in &list {
                operation([code, edge, end, 0, 0]);
            }
        }
    }
    operation([4, helper, 0, 0, 0]);
    rust.compaction();
    let [[a, b], [c, d]] = maps;
    (rust, [a, b, c, d])
}

/// "10 if the survivors of both books together exceed its lot or transfer capacity, and 2
/// for a map, in that order", of two books and a third memory that are not refused.
pub fn answer(books: [&Plain; 2], capacities: [usize; 2], rooms: [usize; 4]) -> Answer {
    let [one, two] = books.map(Plain::live_counts);
    if capacities[0] < one[0] + two[0] || capacities[1] < one[1] + two[1] {
        return Answer::refused(10);
    }
    let bounds = |plain: &Plain| [plain.nodes.len(), plain.edges.len()];
    let needed = books.map(bounds).concat();
    let short = needed
        .into_iter()
        .zip(rooms)
        .find(|(needed, room)| room < needed);
    short.map_or(Answer::done(0), |(needed, _)| Answer::too_short(needed))
}
