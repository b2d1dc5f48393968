//! Each entry once through the wrapper, with a refusal of each call that has one.

use lots::{
    BookMaps, Device, EdgePayload, EdgeRecord, LotBook, Memory, Operation, Refused, Total, maps,
};

const NONE: u64 = lots::NONE as u64;

const fn refused(number: u32, value: u64) -> Refused {
    Refused { number, value }
}

/// An edge between these lots with weights from `low` to `high`.
const fn add_edge([source, target]: [u32; 2], low: u32, high: u32) -> Operation {
    Operation::AddEdge {
        source,
        target,
        payload: EdgePayload { low, high },
    }
}

/// Nodes 0 to 2 and 17 edges from 0 to 1, then one from 1 to 2 and a loop at 1. The
/// lows are 100 and up, each high is one more.
fn book() -> LotBook {
    let mut book = LotBook::new(3, 20).expect("capacities below the limit");
    let nodes = (0..3).map(|payload| Operation::AddNode { payload });
    let ends = [[0, 1]; 17].into_iter().chain([[1, 2], [1, 1]]);
    let edges = (100..)
        .zip(ends)
        .map(|(low, ends)| add_edge(ends, low, low + 1));
    let operations: Vec<_> = nodes.chain(edges).collect();
    let answers = book.strip(&operations).expect("a fresh store");
    let slots = (0..3).chain(0..19).map(Ok);
    assert!(answers.into_iter().eq(slots), "a new slot is the bound");
    book
}

#[test]
fn lists() {
    let book = book();
    let parallel: Vec<u32> = (0..17).collect();
    assert_eq!(book.outgoing(0), Ok(parallel.clone()));
    assert_eq!(book.incoming(1), Ok([parallel, vec![18]].concat()));
    assert_eq!(book.successors(1), Ok(vec![2, 1]));
    assert_eq!(book.predecessors(2), Ok(vec![1]));
    assert_eq!((book.out_degree(0), book.in_degree(0)), (Ok(17), Ok(0)));
    for list in [
        LotBook::outgoing,
        LotBook::incoming,
        LotBook::successors,
        LotBook::predecessors,
    ] {
        assert_eq!(list(&book, 3), Err(refused(5, NONE)));
    }
    assert_eq!(book.out_degree(3), Err(refused(5, NONE)));
    assert_eq!(book.in_degree(3), Err(refused(5, NONE)));
}

#[test]
fn totals() {
    let mut book = book();
    let total = |low, high| Ok(Total { low, high });
    // 100 to 116, each high one more; then the loop, 118 to 119.
    assert_eq!(book.out_total(0), total(1836, 1836 + 17));
    assert_eq!(book.in_total(1), total(1836 + 118, 1836 + 118 + 18));
    assert_eq!(book.in_total(0), total(0, 0));
    assert_eq!(book.out_total(3), Err(refused(5, NONE)));
    assert_eq!(book.in_total(lots::NONE), Err(refused(5, NONE)));
    // A removed edge counts no more.
    assert_eq!(book.operation(Operation::RemoveEdge { edge: 18 }), Ok(1));
    assert_eq!(book.out_total(1), total(117, 118));
    assert_eq!(book.operation(Operation::RemoveNode { node: 1 }), Ok(1));
    assert_eq!(book.out_total(1), total(0, 0));
    // Exact above 32 bits.
    let heaviest = add_edge([0, 2], u32::MAX - 1, u32::MAX);
    let mut book = LotBook::new(3, 3).unwrap();
    let nodes = [Operation::AddNode { payload: 0 }; 3];
    assert!(book.strip(&[&nodes[..], &[heaviest; 3]].concat()).is_ok());
    let most = 3 * u64::from(u32::MAX);
    assert_eq!(book.in_total(2), total(most - 3, most));
}

/// The nearest chain: first among equals, denied, refused, and what the lent slices
/// then hold.
#[test]
fn nearest() {
    let mut book = book();
    assert_eq!(book.nearest(0, 2), Ok(Some(vec![0, 17])));
    assert_eq!(book.nearest(1, 1), Ok(Some(vec![])));
    assert_eq!(book.nearest(2, 0), Ok(None));
    assert_eq!(book.nearest(3, 9), Err(refused(5, NONE)));
    // The first of the parallel edges goes, and then comes back behind the others.
    let away = Operation::RedirectSource { edge: 0, node: 2 };
    let back = Operation::RedirectSource { edge: 0, node: 0 };
    assert_eq!(book.operation(away), Ok(0));
    assert_eq!(book.operation(back), Ok(2));
    assert_eq!(book.nearest(0, 2), Ok(Some(vec![1, 17])));
    assert_eq!(book.operation(Operation::RemoveEdge { edge: 1 }), Ok(1));
    assert_eq!(book.nearest(0, 2), Ok(Some(vec![2, 17])));

    // Twice the capacity of three nodes, and one word more.
    let (mut work, mut chain) = ([9; 7], [77; 3]);
    let mut call = |first, second, needed, room| {
        let answer = book.nearest_into(first, second, &mut work[..needed], &mut chain[..room]);
        let answer = (answer, work, chain);
        (work, chain) = ([9; 7], [77; 3]);
        answer
    };
    let clear = [0, 0, 0, 0, 0, 0, 9];
    assert_eq!(call(0, 2, 5, 3), (Err(refused(2, 6)), [9; 7], [77; 3]));
    assert_eq!(call(0, 3, 5, 3), (Err(refused(5, NONE)), [9; 7], [77; 3]));
    assert_eq!(call(2, 0, 7, 0), (Err(refused(14, NONE)), clear, [77; 3]));
    assert_eq!(call(0, 2, 7, 1), (Err(refused(2, 2)), clear, [77; 3]));
    assert_eq!(call(0, 2, 6, 2), (Ok(2), clear, [2, 17, 77]));

    assert_eq!(book.operation(Operation::RemoveNode { node: 1 }), Ok(1));
    assert_eq!(book.nearest(0, 2), Ok(None));
    assert_eq!(book.nearest(0, 1), Err(refused(6, NONE)));
    assert_eq!(book.nearest(1, 9), Err(refused(6, NONE)));
}

/// A low above its high: 16, directly after 4, and nothing changes.
#[test]
fn inverted() {
    let mut book = book();
    let before = book.clone();
    let set = |edge, low, high| Operation::SetPayload {
        edge,
        payload: EdgePayload { low, high },
    };
    for operation in [
        add_edge([0, 1], 2, 1),
        add_edge([9, 9], u32::MAX, 0),
        set(0, 2, 1),
        set(99, 2, 1),
    ] {
        assert_eq!(book.operation(operation), Err(refused(16, NONE)));
    }
    let mut answers = [77; 2];
    assert_eq!(book.strip_words(&[9, 0, 1, 2, 1], &mut answers), Ok(()));
    assert_eq!(answers, [4, lots::NONE]);
    assert_eq!(book, before);
    assert_eq!(book.operation(set(0, 2, 2)), Ok(0));
    assert_eq!(
        book.edge_record(0).unwrap().payload,
        EdgePayload::exactly(2)
    );
}

#[test]
fn lent_slices() {
    let book = book();
    for list in [LotBook::outgoing_into, LotBook::successors_into] {
        let mut slots = [77; 3];
        assert_eq!(list(&book, 0, &mut slots), Err(refused(2, 17)));
        assert_eq!(slots, [77; 3], "a read that refuses writes nothing");
        assert_eq!(list(&book, 1, &mut slots), Ok(2));
        assert_eq!(slots[2], 77, "words past the answer keep their content");
    }
    let mut slots = [77; 2];
    assert_eq!(book.incoming_into(2, &mut slots), Ok(1));
    assert_eq!(slots, [17, 77]);
    assert_eq!(book.predecessors_into(2, &mut slots), Ok(1));
    assert_eq!(slots, [1, 77]);
    assert_eq!(book.node_ids_into(&mut slots), Err(refused(2, 3)));
    assert_eq!(book.edge_ids_into(&mut slots), Err(refused(2, 19)));
    assert_eq!(slots, [1, 77]);
}

#[test]
fn slots() {
    let mut book = book();
    let record = EdgeRecord {
        source: 1,
        target: 2,
        payload: EdgePayload {
            low: 117,
            high: 118,
        },
    };
    assert_eq!(book.edge_record(17), Ok(record));
    assert_eq!(book.live_edge_record(17), Ok(record));
    assert_eq!(book.operation(Operation::RemoveNode { node: 2 }), Ok(1));
    assert_eq!(book.edge_record(17), Ok(record));
    assert_eq!(book.live_edge_record(17), Err(refused(8, NONE)));
    assert_eq!(book.edge_record(19), Err(refused(7, NONE)));
    assert_eq!(book.node_payload(2), Ok(2));
    assert_eq!(book.node_payload(3), Err(refused(5, NONE)));
    assert_eq!(
        (book.contains_node(2), book.contains_node(1)),
        (Ok(false), Ok(true))
    );
    assert_eq!(
        (book.contains_edge(17), book.contains_edge(18)),
        (Ok(false), Ok(true))
    );
    assert_eq!(book.find(1, 2), Ok(None));
    assert_eq!(book.find(1, 1), Ok(Some(18)));
    assert_eq!(book.find(3, 1), Err(refused(5, NONE)));
    assert_eq!(book.find(1, 3), Err(refused(5, NONE)));
}

#[test]
fn first_found() {
    let mut book = book();
    assert_eq!(book.find(0, 1), Ok(Some(0)));
    // Taken to another source and back, edge 0 comes last in the out-list.
    let back = [1, 0].map(|node| Operation::RedirectSource { edge: 0, node });
    assert_eq!(book.strip(&back), Ok(vec![Ok(0), Ok(1)]));
    assert_eq!(book.find(0, 1), Ok(Some(1)));
}

#[test]
fn whole() {
    let mut book = book();
    assert_eq!(book.operation(Operation::RemoveNode { node: 2 }), Ok(1));
    assert_eq!((book.node_bound(), book.edge_bound()), (Ok(3), Ok(19)));
    assert_eq!((book.node_count(), book.edge_count()), (Ok(2), Ok(18)));
    assert_eq!(book.node_ids(), Ok(vec![0, 1]));
    assert_eq!(
        book.edge_ids(),
        Ok((0..19).filter(|&edge| edge != 17).collect())
    );
    assert_eq!((book.is_empty(), book.is_compact()), (Ok(false), Ok(false)));
    book.fresh().expect("memory that was long enough");
    assert_eq!((book.is_empty(), book.is_compact()), (Ok(true), Ok(true)));
}

#[test]
fn operations() {
    let mut book = book();
    let answers = book.strip(&[
        Operation::RedirectSource { edge: 17, node: 0 },
        Operation::RedirectTarget { edge: 17, node: 0 },
        Operation::MoveOutgoing { old: 0, new: 2 },
        Operation::MoveIncoming { old: 1, new: 0 },
        Operation::MoveIncoming { old: 1, new: 1 },
        Operation::SetPayload {
            edge: 17,
            payload: EdgePayload { low: 5, high: 9 },
        },
        Operation::RemoveEdge { edge: 17 },
        Operation::RemoveEdge { edge: 17 },
        Operation::AddNode { payload: 0 },
    ]);
    let expected = [
        Ok(1),
        Ok(2),
        Ok(18),
        Ok(18),
        Err(refused(9, NONE)),
        Ok(0),
        Ok(1),
        Ok(0),
    ];
    let full = [Err(refused(10, NONE))];
    assert_eq!(answers, Ok([&expected[..], &full].concat()));
    assert_eq!(book.check(), Ok(()));
    let before = book.clone();
    let mut answers = [77; 1];
    assert_eq!(
        book.strip_words(&[1, 0, 0, 0], &mut answers),
        Err(refused(3, 4))
    );
    assert_eq!(
        book.strip_words(&[1, 0, 0, 0, 0], &mut answers),
        Err(refused(2, 2))
    );
    assert_eq!((book, answers), (before, [77; 1]));
}

#[test]
fn capacities() {
    assert_eq!(LotBook::new(32_769, 0), Err(refused(13, 32_769)));
    assert_eq!(LotBook::new(0, 40_000), Err(refused(13, 40_000)));
    assert!(LotBook::new(32_768, 32_768).is_ok());
    assert!(LotBook::new(0, 0).is_ok());
    let mut memory = Memory::zeros(32_769, 0);
    assert_eq!(
        LotBook::from_memory(memory).fresh(),
        Err(refused(13, 32_769))
    );
    memory = Memory::zeros(65, 3);
    memory.live_nodes.pop();
    let mut shorter = memory.clone();
    assert_eq!(LotBook::from_memory(memory).fresh(), Err(refused(2, 2)));
    // The highs are the first of the slices beside the capacities.
    shorter.highs.pop();
    let mut book = LotBook::from_memory(shorter);
    assert_eq!(book.fresh(), Err(refused(2, 3)));
    assert_eq!(book.read_image(&[0; 4]), Err(refused(2, 3)));
    assert_eq!(book.check(), Err(refused(1, 1)));
}

#[test]
fn compacted() {
    // M7: three edges, the first removed: the map is NONE, 0, 1.
    let mut book = LotBook::new(2, 3).unwrap();
    for payload in [7, 9] {
        book.operation(Operation::AddNode { payload }).unwrap();
    }
    for low in [5, 6, 8] {
        book.operation(add_edge([0, 1], low, 10)).unwrap();
    }
    book.operation(Operation::RemoveEdge { edge: 0 }).unwrap();
    let before = book.clone();
    assert_eq!(
        book.compact_into(&mut [0], &mut [0; 3], &mut [0; 4]),
        Err(refused(2, 2))
    );
    assert_eq!(
        book.compact_into(&mut [0; 2], &mut [0; 2], &mut [0; 4]),
        Err(refused(2, 3))
    );
    assert_eq!(
        book.compact_into(&mut [0; 2], &mut [0; 3], &mut [0; 3]),
        Err(refused(2, 4))
    );
    assert_eq!(book, before);
    let compaction = book.compact().unwrap();
    assert_eq!(compaction.node_map, [0, 1]);
    assert_eq!(compaction.edge_map, [lots::NONE, 0, 1]);
    assert_eq!(compaction.outgoing, [0, 1]);
    assert_eq!(compaction.incoming, [0, 1]);
    assert!(book.is_compact().unwrap());
    let payload = book.edge_record(1).unwrap().payload;
    assert_eq!(payload, EdgePayload { low: 8, high: 10 });
    assert_eq!(book.outgoing(0).unwrap(), [0, 1]);
    // Again: no word changes, and the maps leave every slot.
    let once = book.clone();
    let again = book.compact().unwrap();
    assert!(maps::is_identity(&again.node_map, &again.edge_map));
    assert_eq!(book, once);
    // "Dead slots are usable again afterwards."
    assert_eq!(book.operation(add_edge([1, 0], 1, 1)), Ok(2));
}

/// A book with a removed lot, and one with a removed transfer and a moved list.
fn two_books() -> [LotBook; 2] {
    let mut malthouse = LotBook::new(4, 3).unwrap();
    let nodes = [7, 8, 9].map(|payload| Operation::AddNode { payload });
    malthouse.strip(&nodes).unwrap();
    let operations = [
        add_edge([2, 0], 1, 2),
        add_edge([0, 1], 3, 3),
        add_edge([2, 2], 4, 5),
        Operation::RemoveNode { node: 1 },
    ];
    malthouse.strip(&operations).unwrap();
    let mut brewery = LotBook::new(2, 4).unwrap();
    brewery.strip(&nodes[..2]).unwrap();
    let operations = [
        add_edge([0, 1], 6, 6),
        add_edge([0, 1], 7, 9),
        add_edge([1, 0], 8, 8),
        Operation::RemoveEdge { edge: 0 },
        Operation::MoveIncoming { old: 0, new: 1 },
    ];
    brewery.strip(&operations).unwrap();
    [malthouse, brewery]
}

#[test]
fn joined() {
    let [malthouse, brewery] = two_books();
    let before = [malthouse.clone(), brewery.clone()];
    // Memory that holds anything, with words to spare.
    let mut memory = Memory::zeros(4, 4);
    memory.counts.nodes.bound = 9;
    memory.highs.push(77);
    memory.live_nodes.push(77);
    for axis in &mut memory.axes {
        axis.fill(77);
        axis.push(77);
    }
    let mut year = LotBook::from_memory(memory);
    let [first, second] = year.join(&malthouse, &brewery).unwrap();
    assert_eq!([malthouse.clone(), brewery.clone()], before);
    assert_eq!(first.node_map, [0, lots::NONE, 1]);
    assert_eq!(first.edge_map, [0, lots::NONE, 1]);
    assert_eq!(second.node_map, [2, 3]);
    assert_eq!(second.edge_map, [lots::NONE, 2, 3]);
    assert_eq!((year.node_bound(), year.edge_bound()), (Ok(4), Ok(4)));
    assert_eq!(year.is_compact(), Ok(true));
    assert_eq!(year.outgoing(1), Ok(vec![0, 1]));
    assert_eq!(year.outgoing(2), Ok(vec![2]));
    assert_eq!(year.incoming(3), Ok(vec![2, 3]));
    assert_eq!(year.node_payload(3), Ok(8));
    let record = EdgeRecord {
        source: 3,
        target: 3,
        payload: EdgePayload { low: 8, high: 8 },
    };
    assert_eq!(year.edge_record(3), Ok(record));
    let memory = year.memory();
    let spare = [&memory.highs, &memory.axes[0], &memory.axes[1]].map(|words| words.last());
    assert_eq!(spare, [Some(&77); 3]);
    assert_eq!(memory.live_nodes.last(), Some(&77));
    // The result is what reading its image leaves.
    let mut copy = LotBook::new(4, 4).unwrap();
    copy.read_image(&year.image().unwrap()).unwrap();
    assert_eq!(copy.memory().counts, memory.counts);

    // A book with itself, and with an empty one: what compaction leaves.
    let mut twice = LotBook::new(4, 4).unwrap();
    let [first, second] = twice.join(&malthouse, &malthouse).unwrap();
    assert_eq!(first.node_map, [0, lots::NONE, 1]);
    assert_eq!(second.node_map, [2, lots::NONE, 3]);
    assert_eq!(twice.outgoing(3), Ok(vec![2, 3]));
    let empty = LotBook::new(0, 0).unwrap();
    let mut alone = malthouse.clone();
    let compaction = alone.compact().unwrap();
    for [one, two] in [[&malthouse, &empty], [&empty, &malthouse]] {
        let mut joined = LotBook::new(4, 3).unwrap();
        let maps = joined.join(one, two).unwrap();
        assert_eq!(joined.image(), alone.image());
        let [node_map, edge_map] = [compaction.node_map.clone(), compaction.edge_map.clone()];
        assert!(maps.contains(&BookMaps { node_map, edge_map }));
    }
}

#[test]
fn joins_refused() {
    let [malthouse, brewery] = two_books();
    let mut broken = brewery.clone().into_memory();
    broken.counts.nodes.live += 1;
    let broken = LotBook::from_memory(broken);
    let [mut short, mut wide] = [Memory::zeros(4, 4), Memory::zeros(4, 32_769)];
    short.axes[1].pop();
    wide.axes[1].clear();
    let refusals = [
        ([&broken, &broken], Memory::zeros(4, 4), refused(1, 2)),
        ([&malthouse, &broken], wide.clone(), refused(1, 2)),
        ([&malthouse, &brewery], wide, refused(13, 32_769)),
        ([&malthouse, &brewery], short, refused(2, 4 * 4 + 6 * 4 + 1)),
        (
            [&malthouse, &brewery],
            Memory::zeros(3, 4),
            refused(10, NONE),
        ),
        (
            [&malthouse, &brewery],
            Memory::zeros(4, 3),
            refused(10, NONE),
        ),
    ];
    for ([one, two], memory, refusal) in refusals {
        let mut third = LotBook::from_memory(memory);
        let before = third.clone();
        assert_eq!(third.join(one, two), Err(refusal));
        assert_eq!(third, before);
    }
    // The maps, in order; then nothing is written, and what was there is a store still.
    let mut third = malthouse.clone();
    let mut maps = [77; 11];
    for (lengths, needed) in [
        ([2, 0, 0, 0], 3),
        ([3, 2, 0, 0], 3),
        ([3, 3, 1, 0], 2),
        ([3, 3, 2, 2], 3),
    ] {
        let mut rest = &mut maps[..];
        let slices = lengths.map(|length| {
            let (slice, more) = std::mem::take(&mut rest).split_at_mut(length);
            rest = more;
            slice
        });
        let mut third = LotBook::from_memory(Memory::zeros(4, 4));
        assert_eq!(
            third.join_into(&malthouse, &brewery, slices),
            Err(refused(2, needed))
        );
        assert_eq!(third, LotBook::from_memory(Memory::zeros(4, 4)));
    }
    assert_eq!(maps, [77; 11]);
    assert_eq!(third.join(&malthouse, &brewery), Err(refused(10, NONE)));
    assert_eq!(third, malthouse);
    // Words of the maps past what is needed stay.
    let [a, b, c, d] = &mut [[77; 4]; 4];
    let mut third = LotBook::new(4, 4).unwrap();
    third.join_into(&malthouse, &brewery, [a, b, c, d]).unwrap();
    assert_eq!([a[3], b[3], c[2], c[3], d[3]], [77; 5]);
    assert_eq!([c[0], c[1], d[2]], [2, 3, 3]);
}

#[test]
fn images() {
    // M2: fresh, compacted: image 00 00 00 00.
    let mut empty = LotBook::new(0, 0).unwrap();
    empty.compact().unwrap();
    assert_eq!(empty.image(), Ok(vec![0; 4]));

    // Of a store that is not compact: what a compaction followed by writing would
    // give, while the store keeps every word.
    let mut book = book();
    assert_eq!(book.is_compact(), Ok(false));
    let working = book.clone();
    let image = book.image().unwrap();
    assert_eq!(book, working);
    let needed = 2 * book.edge_count().unwrap() as usize;
    let mut work = vec![77; needed + 1];
    let mut bytes = vec![77; image.len() + 1];
    assert_eq!(
        book.image_into(&mut work, &mut bytes),
        Ok(image.len() as u32)
    );
    assert_eq!(bytes, [&image[..], &[77]].concat());
    assert_eq!(work[needed], 77);
    // The work slice first; a refusal writes nothing.
    let mut short = vec![77; image.len() - 1];
    let mut work = vec![77; needed];
    assert_eq!(
        book.image_into(&mut work[1..], &mut short),
        Err(refused(2, needed as u64))
    );
    assert_eq!(
        book.image_into(&mut work, &mut short),
        Err(refused(2, image.len() as u64))
    );
    assert_eq!(short, vec![77; image.len() - 1]);
    assert_eq!(work, vec![77; needed]);
    book.compact().unwrap();
    assert_eq!(book.image(), Ok(image.clone()));

    // Into other memory, which holds anything.
    let mut memory = Memory::zeros(4, 30);
    memory.counts.nodes.bound = 9;
    memory.axes[0].fill(77);
    let mut copy = LotBook::from_memory(memory);
    let before = copy.clone();
    // M11: 00 00 00 01 is unreadable by rule 3; with eight more zero bytes by rule 5.
    let bytes = [0, 0, 0, 1, 0, 0, 0, 0, 0, 0, 0, 0];
    assert_eq!(copy.read_image(&bytes[..4]), Err(refused(12, 3)));
    assert_eq!(copy.read_image(&bytes), Err(refused(12, 5)));
    assert_eq!(copy, before);
    assert_eq!(copy.read_image(&image), Ok(()));
    assert_eq!(copy.check(), Ok(()));
    assert_eq!(copy.image(), Ok(image.clone()));
    assert_eq!(copy.incoming(1), book.incoming(1));
    let mut small = LotBook::new(2, 30).unwrap();
    assert_eq!(small.read_image(&image), Err(refused(2, 3)));
    let mut above = LotBook::from_memory(Memory::zeros(0, 32_769));
    assert_eq!(above.read_image(&image), Err(refused(13, 32_769)));
}

/// Low and high in 64 bits of the image, in this order; a low above its high breaks
/// rule 5.
#[test]
fn image_of_a_range() {
    let mut book = LotBook::new(2, 1).unwrap();
    let nodes = [7, 9].map(|payload| Operation::AddNode { payload });
    let answers = book.strip(&[nodes[0], nodes[1], add_edge([0, 1], 5, 6)]);
    assert_eq!(answers, Ok(vec![Ok(0), Ok(1), Ok(0)]));
    book.compact().unwrap();
    let image = [
        0, 2, 0, 1, 0, 0, 0, 7, 0, 0, 0, 9, 0x40, 0, 0, 1, 0x40, 0, 0, 1, 0x80,
    ];
    assert_eq!(book.image(), Ok(image.to_vec()));
    let mut copy = LotBook::new(2, 1).unwrap();
    assert_eq!(copy.read_image(&image), Ok(()));
    assert_eq!(copy.edge_record(0), book.edge_record(0));
    // 6 as the low and 5 as the high.
    let mut inverted = image;
    inverted[15..].copy_from_slice(&[1, 0x80, 0, 0, 1, 0x40]);
    assert_eq!(copy.read_image(&inverted), Err(refused(12, 5)));
    assert_eq!(copy.image(), Ok(image.to_vec()));
}

/// A low above its high breaks rule 3, at a removed edge too, but not above the
/// bound.
#[test]
fn weights_out_of_order() {
    let mut book = book();
    assert_eq!(book.operation(Operation::RemoveEdge { edge: 3 }), Ok(1));
    let memory = book.into_memory();
    for edge in [0, 3, 18] {
        let mut raised = memory.clone();
        raised.lows[edge] = raised.highs[edge] + 1;
        assert_eq!(LotBook::from_memory(raised).check(), Err(refused(1, 3)));
    }
    let mut above = memory;
    above.lows[19] = 1;
    assert_eq!(LotBook::from_memory(above).check(), Ok(()));
}

/// Every call on memory that is no store answers 1 and leaves every word.
#[test]
fn damaged() {
    let mut memory = book().into_memory();
    memory.counts.nodes.live += 1;
    let mut book = LotBook::from_memory(memory);
    let before = book.clone();
    let no_store = refused(1, 2);
    assert_eq!(book.check(), Err(no_store));
    assert_eq!(
        book.strip(&[Operation::RemoveEdge { edge: 0 }]),
        Err(no_store)
    );
    assert_eq!(book.outgoing(0), Err(no_store));
    assert_eq!(book.edge_record(0), Err(no_store));
    assert_eq!(book.out_total(0), Err(no_store));
    assert_eq!(book.node_count(), Err(no_store));
    assert_eq!(book.find(0, 1), Err(no_store));
    assert_eq!(book.image(), Err(no_store));
    assert_eq!(book, before);
    let nothing = LotBook::from_memory(Memory {
        axes: [Vec::new(), Vec::new()],
        ..Memory::zeros(1, 1)
    });
    assert_eq!(nothing.check(), Err(refused(1, 1)));
}

#[test]
fn composed() {
    let map = [1, lots::NONE, 0];
    assert_eq!(maps::lookup(&map, 0), Some(1));
    assert_eq!(maps::lookup(&map, 1), None);
    assert_eq!(maps::lookup(&map, 3), None);
    let mut result = [7; 4];
    assert_eq!(maps::compose(&map, &[5], &mut result), Ok(()));
    assert_eq!(result, [lots::NONE, lots::NONE, 5, 7]);
    assert_eq!(
        maps::compose(&map, &[5], &mut result[..2]),
        Err(refused(2, 3))
    );
    assert!(maps::is_identity(&[0, 1], &[0]));
    assert!(!maps::is_identity(&[1, 0], &[0]));
}

/// An image of so many lots, and transfers from the first lot to itself.
fn image_of(lots: usize, transfers: usize) -> Vec<u8> {
    let mut book = LotBook::new(lots, transfers).unwrap();
    let nodes = vec![Operation::AddNode { payload: 7 }; lots];
    let edges = vec![add_edge([0, 0], 5, 6); transfers];
    assert!(book.strip(&[nodes, edges].concat()).is_ok());
    book.compact().unwrap();
    book.image().unwrap()
}

/// Request 7: 64 lots and 128 transfers are taken; more is 15 with the value asked
/// for, lots before transfers.
#[test]
fn skid_capacities() {
    assert!(LotBook::skid(64, 128).is_ok());
    assert!(LotBook::skid(0, 0).is_ok());
    assert_eq!(LotBook::skid(65, 128), Err(refused(15, 65)));
    assert_eq!(LotBook::skid(64, 129), Err(refused(15, 129)));
    assert_eq!(LotBook::skid(65, 129), Err(refused(15, 65)));
    assert_eq!(LotBook::skid(64, 40_000), Err(refused(15, 40_000)));
    let on_skid = |memory| LotBook::from_memory_on(Device::Skid, memory);
    for ([nodes, edges], above) in [([65, 129], 65), ([64, 129], 129), ([40_000, 0], 40_000)] {
        let mut book = on_skid(Memory::zeros(nodes, edges));
        assert_eq!(book.fresh(), Err(refused(15, above)));
        // In place of 13, so before 12.
        assert_eq!(book.read_image(&[0; 3]), Err(refused(15, above)));
    }
    let mut memory = Memory::zeros(64, 128);
    memory.highs.pop();
    assert_eq!(on_skid(memory).fresh(), Err(refused(2, 128)));
    // The check keeps 32,768, and so does every other call.
    let mut book = on_skid(Memory::zeros(65, 129));
    assert_eq!(book.check(), Ok(()));
    assert_eq!(book.operation(Operation::AddNode { payload: 7 }), Ok(0));
}

/// Reading on the skid: 15 for the memory, 12, 15 for the image, 2; refused, every
/// word stays.
#[test]
fn skid_images() {
    let mut book = LotBook::skid(64, 128).unwrap();
    let before = book.clone();
    assert_eq!(book.read_image(&image_of(65, 0)), Err(refused(15, 65)));
    assert_eq!(book.read_image(&image_of(64, 129)), Err(refused(15, 129)));
    assert_eq!(book.read_image(&image_of(65, 129)), Err(refused(15, 65)));
    // A broken image of 65 lots: 12 first.
    let image = image_of(65, 0);
    let short = &image[..image.len() - 1];
    assert_eq!(book.read_image(short), Err(refused(12, 3)));
    assert_eq!(book, before);
    // 2 comes after 15.
    let mut small = LotBook::skid(8, 8).unwrap();
    assert_eq!(small.read_image(&image), Err(refused(15, 65)));
    assert_eq!(small.read_image(&image_of(64, 9)), Err(refused(2, 64)));
    assert_eq!(small.read_image(&image_of(8, 9)), Err(refused(2, 9)));
    // What is taken goes on as on a box.
    let image = image_of(64, 128);
    assert_eq!(book.read_image(&image), Ok(()));
    assert_eq!(book.image(), Ok(image.clone()));
    let full = Err(refused(10, NONE));
    assert_eq!(book.operation(Operation::AddNode { payload: 7 }), full);
    assert_eq!(book.operation(add_edge([0, 1], 1, 1)), full);
    let mut copy = LotBook::new(64, 128).unwrap();
    assert_eq!(copy.read_image(&image), Ok(()));
    assert_eq!(copy.memory(), book.memory());
}
