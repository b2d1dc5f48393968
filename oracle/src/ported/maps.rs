//! The proved functions over maps, through the wrapper, held against the Rust's `Renumbering`. They
//! require nothing of the words.

use super::{kept, lent};
use crate::graph::store::Renumbering;
use crate::lots::maps;
use crate::maps::map;
use crate::model::{Answer, NONE};
use crate::rng::Rng;
use crate::rust_store::{self, LOOKUPS};
use crate::sequences::Same;
use crate::tally::{Tally, Thing};

fn lookup(map: &[u32], slot: u32) -> Answer {
    Answer::done(maps::lookup(map, slot).unwrap_or(NONE).into())
}

fn is_identity(nodes: &[u32], edges: &[u32]) -> Answer {
    Answer::done(maps::is_identity(nodes, edges).into())
}

fn compose(first: &[u32], second: &[u32], result: &mut [u32]) -> Answer {
    maps::compose(first, second, result).map_or_else(Answer::from, |()| Answer::done(0))
}

/// Lookups of every old slot and of some above, and the identity test.
pub fn compare_lookups(renumbering: &Renumbering, tally: &mut Tally) -> Same {
    let [nodes, edges] = rust_store::maps(renumbering);
    for (map, rust) in [&nodes, &edges].into_iter().zip(LOOKUPS) {
        let bound = map.len() as u32;
        for old in (0..bound).chain([bound, bound + 1, NONE]) {
            let place = || format!("old slot {old} of {map:?}");
            let expected = Answer::done(rust(renumbering, old).into());
            tally.same(Thing::PortLookup, place, expected, lookup(map, old))?;
        }
    }
    let place = || format!("{nodes:?} and {edges:?}");
    let expected = Answer::done(renumbering.is_identity().into());
    tally.same(
        Thing::PortIdentity,
        place,
        expected,
        is_identity(&nodes, &edges),
    )
}

/// The first and then the second, of nodes and of edges: into a slice with words
/// to spare, and into one that is too short.
pub fn compare_composed(first: &Renumbering, second: &Renumbering, tally: &mut Tally) -> Same {
    let composed = rust_store::maps(&first.compose(second));
    let pairs = rust_store::maps(first)
        .into_iter()
        .zip(rust_store::maps(second));
    for ((first, second), expected) in pairs.zip(composed) {
        let place = || format!("{first:?} with {second:?}");
        let mut result = lent(first.len());
        let answer = compose(&first, &second, &mut result);
        let expected = (Answer::done(0), expected);
        tally.same(Thing::PortCompose, place, expected, (answer, kept(result)))?;
        if let Some(shorter) = first.len().checked_sub(1) {
            let mut result = vec![NONE - 1; shorter];
            let answer = compose(&first, &second, &mut result);
            let expected = (Answer::too_short(first.len()), vec![NONE - 1; shorter]);
            tally.same(Thing::PortCompose, place, expected, (answer, result))?;
        }
    }
    Ok(())
}

/// Any two maps, also such as no compaction makes.
pub fn compare(count: usize, seed: u64, tally: &mut Tally) -> Same {
    let mut rng = Rng::new(seed);
    for _ in 0..count {
        let [first, second] =
            [(); 2].map(|()| Renumbering::from_maps(&map(&mut rng), &map(&mut rng)));
        compare_lookups(&first, tally)?;
        compare_composed(&first, &second, tally)?;
    }
    Ok(())
}
