//! The skid's own two entries: a fresh store and an image read, in memory about its
//! limits and above, that holds anything, against the model's order of refusals.

use super::images::compare_one;
use super::strips::{Lengths, compare_one_fresh, memory_of};
use super::words::Words;
use crate::generate::{about, lists_about_skid, range};
use crate::image;
use crate::lots::Device;
use crate::record::{spoiled, spoiled_image};
use crate::rng::Rng;
use crate::sequences::Same;
use crate::tally::{Tally, Thing};

/// Memory of capacities about the skid's limits, small ones, and ones that only a box
/// takes or none.
fn memory(rng: &mut Rng) -> (Lengths, Words) {
    let capacities = [64, 128].map(|limit| match rng.below(12) {
        0 => rng.below(9),
        1 => rng.pick(&[32_767, 32_768, 32_769]),
        2..5 => about(limit, rng),
        _ => limit,
    });
    memory_of(capacities, rng)
}

/// So many fresh stores, and so many images read: of lots and transfers about the
/// limits, half of them spoiled, and small ones.
pub fn compare(calls: usize, seed: u64, tally: &mut Tally) -> Same {
    let mut rng = Rng::new(seed);
    let mut done = 0;
    for _ in 0..calls {
        let lent = memory(&mut rng);
        compare_one_fresh(Thing::SkidFresh, Device::Skid, lent, tally)?;
        let bytes = match rng.below(4) {
            0 => spoiled_image(&mut rng, range),
            1 => spoiled(lists_about_skid(&mut rng, range), &mut rng),
            _ => image::write(&lists_about_skid(&mut rng, range)),
        };
        let lent = memory(&mut rng);
        let read = compare_one(Thing::SkidReading, Device::Skid, lent, bytes, tally)?;
        done += usize::from(read);
    }
    println!(
        "on the skid, fresh stores and images read into any memory: {calls} of each, of which {done} images are done"
    );
    Ok(())
}
