//! Images of two stores against their survivors: the images are equal exactly when
//! the survivors are, in the model and in the Rust, written directly and after a
//! compaction.

use crate::calls::Lots;
use crate::compare::Trio;
use crate::generate::{Generator, MIXES, SHORT, Step};
use crate::model::{Capacities, Survivors};
use crate::rng::Rng;
use crate::tally::{Difference, Tally, Thing};

/// Survivors, then the images of the model and the Rust, written directly, and those
/// that they close with.
fn closing(
    capacities: Capacities,
    steps: &[Step],
    tally: &mut Tally,
) -> Result<(Survivors, [Vec<u8>; 4]), Difference> {
    let mut trio = Trio::fresh(capacities);
    for step in steps {
        trio.step(step, tally)?;
    }
    let survivors = trio.model.plain.survivors();
    let direct = [trio.model.image(), trio.rust.image()];
    trio.compact(tally)?;
    let [model, rust] = direct;
    Ok((
        survivors,
        [model, rust, trio.model.image(), trio.rust.image()],
    ))
}

/// Pairs of short sequences that differ in one step, so that many of them leave
/// equal survivors.
pub fn compare(pairs: usize, seed: u64, tally: &mut Tally) -> Result<(), Difference> {
    let mut rng = Rng::new(seed);
    let mut alike = 0;
    for _ in 0..pairs {
        let capacities = SHORT.capacities(&mut rng);
        let count = SHORT.steps(&mut rng);
        let mut generator = Generator {
            mix: rng.pick(&MIXES),
            rng: &mut rng,
            size: SHORT,
        };
        let mut trio = Trio::fresh(capacities);
        let mut steps = Vec::new();
        for _ in 0..count {
            steps.push(generator.step(&trio.model));
            trio.step(&steps[steps.len() - 1], tally)?;
        }
        let mut others = steps.clone();
        let (here, there) = (rng.below(count), rng.below(count));
        match rng.below(3) {
            0 => drop(others.remove(here)),
            1 => others.insert(here, Step::Compact),
            _ => others.swap(here, there),
        }

        let (survivors, images) = closing(capacities, &steps, tally)?;
        let (other_survivors, other_images) = closing(capacities, &others, tally)?;
        let equal = survivors == other_survivors;
        alike += u64::from(equal);
        for (image, other) in images.iter().zip(&other_images) {
            let place = || format!("{survivors:?} and {other_survivors:?}");
            tally.same(Thing::Pair, place, equal, image == other)?;
        }
    }
    println!("pairs of stores: {pairs}, of them {alike} with equal survivors");
    Ok(())
}
