//! The examples M1 to M12 of document 01, those with strips and images as request 8
//! reissues them, executed on the model and, where the Rust has the call, on the
//! Rust.

use crate::calls::{self, Lots, lotstrip};
use crate::compare::Trio;
use crate::generate::Step;
use crate::graph::store::Renumbering;
use crate::graph::traverse::TraversalDirection::Outgoing;
use crate::model::{self, Answer, Capacities, DIRECTIONS, Model, NONE};
use crate::rust_store::{self, RustStore};
use crate::tally::{Difference, Tally, Thing};

/// A store after these operations, with the answer to the last of them; model
/// and Rust are compared along the way.
struct Played {
    trio: Trio,
    last: Answer,
}

fn play(
    capacities: [u32; 2],
    operations: &[[u32; 5]],
    tally: &mut Tally,
) -> Result<Played, Difference> {
    let [nodes, edges] = capacities;
    let mut trio = Trio::fresh(Capacities { nodes, edges });
    let mut last = Answer::done(0);
    for &words in operations {
        last = trio.model.clone().operation(words);
        trio.step(&Step::Operation(words), tally)?;
        trio.compare_everything(tally)?;
    }
    Ok(Played { trio, last })
}

const NODE: [u32; 5] = [1, 0, 0, 7, 0];
const EDGE: [u32; 5] = [2, 0, 1, 5, 5];

/// The words of M12.
const M12: [[u32; 5]; 6] = [
    [1, 0, 0, 7, 0],
    [1, 0, 0, 9, 0],
    [2, 0, 1, 5, 5],
    [2, 0, 1, 6, 6],
    [5, 0, 1, 0, 0],
    [5, 0, 0, 0, 0],
];

const M12_TEXT: &str = "0 0 0\n1 0 1\n2 0 0\n3 0 1\n4 0 0\n5 0 1\n\
    0002000200000007000000094000000140000001500000006000000069\n";

pub fn strip_bytes(operations: &[[u32; 5]]) -> Vec<u8> {
    let words = operations.iter().flatten();
    words.flat_map(|word| word.to_be_bytes()).collect()
}

/// Compares two values as text, so that one comparison serves every kind.
macro_rules! same {
    ($tally:ident, $name:literal, $expected:expr, $given:expr) => {{
        let (expected, given) = (format!("{:?}", $expected), format!("{:?}", $given));
        $tally.same(Thing::Example, || $name.to_string(), expected, given)?
    }};
}

pub fn compare(tally: &mut Tally) -> Result<(), Difference> {
    plain_lists(tally)?;
    compactions(tally)?;
    lengths_and_limits(tally)?;
    texts(tally)
}

/// M1, M3, M5 and M6.
fn plain_lists(tally: &mut Tally) -> Result<(), Difference> {
    let Played { trio, .. } = play([2, 2], &[], tally)?;
    same!(
        tally,
        "M1 bounds",
        [[0, 0]; 2],
        [trio.model.bounds(), trio.rust.bounds()]
    );
    same!(
        tally,
        "M1 compact",
        [true; 2],
        [trio.model.is_compact(), trio.rust.is_compact()]
    );

    let mut trio = play([2, 2], &[NODE, [2, 0, 0, 5, 5]], tally)?.trio;
    for direction in DIRECTIONS {
        let walks = [trio.model.walk(direction, 0), trio.rust.walk(direction, 0)];
        same!(tally, "M3 self-loop", [Some([0]); 2], walks);
    }
    trio.step(&Step::Operation([4, 0, 0, 0, 0]), tally)?;
    let removed = Some(([0, 0, 5, 5], false));
    same!(
        tally,
        "M3 removed",
        [removed; 2],
        [trio.model.record(0), trio.rust.record(0)]
    );

    let removed = [NODE, [4, 0, 0, 0, 0]];
    let moved = [&removed[..], &[[7, 0, 9_999, 0, 0]]].concat();
    same!(
        tally,
        "M5",
        Answer::done(0),
        play([2, 2], &moved, tally)?.last
    );
    let onto_itself = [&removed[..], &[[8, 0, 0, 0, 0]]].concat();
    same!(
        tally,
        "M6",
        Answer::refused(9),
        play([2, 2], &onto_itself, tally)?.last
    );
    Ok(())
}

/// M2, M4, M7, M8 and M9.
fn compactions(tally: &mut Tally) -> Result<(), Difference> {
    let mut trio = play([2, 2], &[], tally)?.trio;
    trio.compact(tally)?;
    same!(
        tally,
        "M2",
        [[0; 4]; 2],
        [trio.model.image(), trio.rust.image()]
    );

    let mut trio = play([2, 2], &[NODE, NODE, EDGE], tally)?.trio;
    trio.compact(tally)?;
    for (code, end) in [(5, 0), (6, 1)] {
        trio.step(&Step::Operation([code, 0, end, 0, 0]), tally)?;
        same!(
            tally,
            "M4",
            [true; 2],
            [trio.model.is_compact(), trio.rust.is_compact()]
        );
    }

    let three = [NODE, NODE, EDGE, EDGE, EDGE, [3, 0, 0, 0, 0]];
    let mut trio = play([2, 4], &three, tally)?.trio;
    same!(tally, "M7", [NONE, 0, 1], trio.compact(tally)?.edge_map);

    let (first, second) = ([1, NONE, 0], [5]);
    same!(
        tally,
        "M8 model",
        [NONE, NONE, 5],
        model::compose(&first, &second)
    );
    let [first, second] = [&first[..], &second[..]].map(|map| Renumbering::from_maps(map, map));
    let composed = rust_store::maps(&first.compose(&second));
    same!(tally, "M8 Rust", [[NONE, NONE, 5]; 2], composed);

    same!(
        tally,
        "M9",
        Answer::refused(10),
        play([1, 1], &[NODE, NODE], tally)?.last
    );
    let mut full = play([1, 1], &[NODE, [4, 0, 0, 0, 0], NODE], tally)?;
    same!(tally, "M9 after removal", Answer::refused(10), full.last);
    full.trio.compact(tally)?;
    let answers = [
        full.trio.model.operation(NODE),
        full.trio.rust.operation(NODE),
    ];
    same!(tally, "M9 after compaction", [Answer::done(0); 2], answers);
    Ok(())
}

/// M10 and M11.
fn lengths_and_limits(tally: &mut Tally) -> Result<(), Difference> {
    let trio = play([2, 2], &[NODE, NODE, EDGE, EDGE], tally)?.trio;
    let short: Result<Vec<u32>, _> = Err(Answer::too_short(2));
    same!(
        tally,
        "M10",
        short,
        calls::walk(&trio.model, Outgoing, 0, 1)
    );
    same!(
        tally,
        "M10 Rust",
        short,
        calls::walk(&trio.rust, Outgoing, 0, 1)
    );

    let refused = |number, value| Err::<Model, _>(Answer { number, value });
    let bytes = [0, 0, 0, 1, 0, 0, 0, 0, 0, 0, 0, 0];
    same!(
        tally,
        "M11",
        refused(12, 3),
        calls::read_image(9, 9, &bytes[..4])
    );
    same!(
        tally,
        "M11 longer",
        refused(12, 5),
        calls::read_image(9, 9, &bytes)
    );
    same!(
        tally,
        "M11 capacity taken",
        true,
        Model::fresh(32_768, 32_768).is_ok()
    );
    same!(
        tally,
        "M11 nodes",
        refused(13, 32_769),
        Model::fresh(32_769, 40_000)
    );
    same!(
        tally,
        "M11 edges",
        refused(13, 32_769),
        Model::fresh(1, 32_769)
    );
    Ok(())
}

/// M12, with the inputs that print one line only.
fn texts(tally: &mut Tally) -> Result<(), Difference> {
    let input = strip_bytes(&M12);
    same!(tally, "M12", M12_TEXT, lotstrip::<Model>(&input));
    same!(tally, "M12 Rust", M12_TEXT, lotstrip::<RustStore>(&input));
    same!(tally, "M12 empty", "00000000\n", lotstrip::<Model>(&[]));
    same!(
        tally,
        "M12 bytes",
        "strip 3\n",
        lotstrip::<Model>(&input[..119])
    );
    same!(
        tally,
        "M12 words",
        "strip 3\n",
        lotstrip::<Model>(&input[..116])
    );
    same!(
        tally,
        "M12 long",
        "strip 2\n",
        lotstrip::<Model>(&[0; 65_537])
    );
    Ok(())
}
