//! Images read into memory of any lengths and any content, through the wrapper:
//! the number, what a refusal leaves, and the image written back.

use super::strips::{Lengths, any_memory, others_fit};
use super::words::{Words, judge};
use crate::calls;
use crate::generate::range;
use crate::lots::{Device, LotBook};
use crate::model::Answer;
use crate::record::spoiled_image;
use crate::rng::Rng;
use crate::sequences::Same;
use crate::tally::{Difference, Tally, Thing};

/// "Reading: 13, 12, 2 (13 and 2 nodes before edges, a payload slice shorter than
/// its count being too short, then the other slices)"; on the skid as request 7 has
/// it.
fn reading(device: Device, lengths: Lengths, bytes: &[u8]) -> Answer {
    let [nodes, edges, ..] = lengths.map(|length| length as u64);
    match calls::read_image_on(judge(device), nodes, edges, bytes) {
        Ok(_) => others_fit(lengths),
        Err(refused) => refused,
    }
}

/// One reading; whether it is done.
pub fn compare_one(
    thing: Thing,
    device: Device,
    (lengths, memory): (Lengths, Words),
    bytes: Vec<u8>,
    tally: &mut Tally,
) -> Result<bool, Difference> {
    let place = || format!("reading {bytes:?}, lengths {lengths:?}, {device:?}");
    let expected = reading(device, lengths, &bytes);
    let mut book = LotBook::from_memory_on(device, memory);
    let before = book.clone();
    let given = book.read_image(&bytes);
    let given = given.map_or_else(Answer::from, |()| Answer::done(0));
    tally.same(thing, place, expected, given)?;
    if given.number != 0 {
        tally.same(thing, place, &before, &book)?;
        return Ok(false);
    }
    let given = (book.check(), book.image());
    tally.same(thing, place, (Ok(()), Ok(bytes.clone())), given)?;
    Ok(true)
}

/// So many readings.
pub fn compare(readings: usize, seed: u64, tally: &mut Tally) -> Same {
    let mut rng = Rng::new(seed);
    let mut done = 0;
    for _ in 0..readings {
        let memory = any_memory(&mut rng);
        let bytes = spoiled_image(&mut rng, range);
        let read = compare_one(Thing::BookReading, Device::Box, memory, bytes, tally)?;
        done += usize::from(read);
    }
    println!("images read into any memory with the port: {readings}, of which {done} are done");
    Ok(())
}
