//! Renumberings of any two maps, also such as no compaction makes: lookups,
//! composition with a shorter second map, and the identity test.

use crate::compare::compare_lookups;
use crate::graph::store::Renumbering;
use crate::model::{self, NONE};
use crate::rng::Rng;
use crate::rust_store;
use crate::tally::{Difference, Tally, Thing};

/// A map of up to seven slots; a third of the time the identity on them.
pub fn map(rng: &mut Rng) -> Vec<u32> {
    let length = rng.below(8) as u32;
    if rng.one_in(3) {
        return (0..length).collect();
    }
    let slots = (0..length).map(|_| match rng.below(5) {
        0 => NONE,
        1 => rng.word(),
        _ => rng.below(9) as u32,
    });
    slots.collect()
}

pub fn compare(count: usize, seed: u64, tally: &mut Tally) -> Result<(), Difference> {
    let mut rng = Rng::new(seed);
    for _ in 0..count {
        let [first, second] = [(); 2].map(|()| [map(&mut rng), map(&mut rng)]);
        let made = |[nodes, edges]: &[Vec<u32>; 2]| Renumbering::from_maps(nodes, edges);
        compare_lookups(&first, &made(&first), tally)?;
        let expected = [
            model::compose(&first[0], &second[0]),
            model::compose(&first[1], &second[1]),
        ];
        let given = rust_store::maps(&made(&first).compose(&made(&second)));
        let place = || format!("{first:?} with {second:?}");
        tally.same(Thing::Compose, place, expected, given)?;
    }
    Ok(())
}
