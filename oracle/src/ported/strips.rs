//! Fresh stores in memory of any lengths, and strips of many operations: one call
//! of the port for what the Rust does one after another.

use super::Ported;
use super::columns::Layout;
use super::words::{Words, judge};
use crate::generate::{Generator, MEDIUM, MIXES, SHORT, Step};
use crate::lots::{Counts, Device, Slots};
use crate::model::{Answer, LIMIT, Model};
use crate::rng::Rng;
use crate::sequences::{Same, Sides};
use crate::tally::{Tally, Thing};

/// The words of up to so many operations, each chosen by what those before it
/// leave.
pub fn operations(most: usize, model: &Model, generator: &mut Generator) -> Vec<u32> {
    let mut model = model.clone();
    let mut words = Vec::new();
    for _ in 0..generator.rng.below(most + 1) {
        if let Step::Operation(operation) = generator.step(&model) {
            model.operation(operation);
            words.extend(operation);
        }
    }
    words
}

/// Sequences of strips until so many are made, everything compared after each.
/// Some are no multiple of five, some have an answer slice that is too short, most
/// one with words to spare.
pub fn compare(strips: usize, seed: u64, tally: &mut Tally) -> Same {
    let mut rng = Rng::new(seed);
    let mut made = 0;
    while made < strips {
        let size = rng.pick(&[SHORT, MEDIUM]);
        let mut ported = Ported::fresh(size.capacities(&mut rng));
        let mix = rng.pick(&MIXES);
        for _ in 0..20 {
            let mut generator = Generator {
                mix,
                rng: &mut rng,
                size,
            };
            let mut words = operations(60, ported.model(), &mut generator);
            let needed = 2 * (words.len() / 5);
            let length = match rng.below(8) {
                0 => rng.below(needed + 1),
                1..4 => needed,
                _ => needed + rng.below(4),
            };
            if rng.one_in(8) {
                words.extend((0..rng.between(1, 4)).map(|_| 0));
            }
            ported.strip(&words, length, tally)?;
            ported.compare_everything(tally)?;
            made += 1;
        }
    }
    println!("strips of up to 60 operations with the port: {made}");
    Ok(())
}

/// The lengths of the slices, in their order.
pub type Lengths = [usize; 7];

/// "2 in the order of the slices": those beside the two that are the capacities,
/// the highs first.
pub fn others_fit([nodes, edges, others @ ..]: Lengths) -> Answer {
    let axis = Layout { edges, nodes }.length();
    let needed = [edges, nodes.div_ceil(64), edges.div_ceil(64), axis, axis];
    let short = needed
        .into_iter()
        .zip(others)
        .find(|(needed, length)| length < needed);
    short.map_or(Answer::done(0), |(needed, _)| Answer::too_short(needed))
}

/// "Fresh: 13, nodes before edges, then 2"; on the skid 15 "in place of 13".
fn fresh(device: Device, lengths: Lengths) -> Answer {
    let [nodes, edges, ..] = lengths.map(|length| length as u64);
    match judge(device).within([nodes, edges]) {
        Ok(_) => others_fit(lengths),
        Err(refused) => refused,
    }
}

/// Memory of lengths about those needed, with counts and words of any content, and
/// the lengths.
pub fn any_memory(rng: &mut Rng) -> (Lengths, Words) {
    let mut capacity = || match rng.below(40) {
        0 => LIMIT as usize + rng.below(3),
        1 => LIMIT as usize - rng.below(2),
        _ => rng.below(140),
    };
    let capacities = [capacity(), capacity()];
    memory_of(capacities, rng)
}

/// The same of these capacities.
pub fn memory_of([nodes, edges]: [usize; 2], rng: &mut Rng) -> (Lengths, Words) {
    let axis = Layout { edges, nodes }.length();
    let mut about = |needed: usize| match rng.below(4) {
        0 => needed.saturating_sub(1 + rng.below(2)),
        1 => needed + 1,
        _ => needed,
    };
    let highs = about(edges);
    let [live_nodes, live_edges] = [nodes, edges].map(|slots| about(slots.div_ceil(64)));
    let axes = [axis; 2].map(&mut about);
    let any = Slots {
        bound: rng.word(),
        base: rng.word(),
        live: rng.word(),
    };
    let words = Words {
        counts: Counts {
            nodes: any,
            edges: any,
        },
        nodes: vec![7; nodes],
        lows: vec![7; edges],
        highs: vec![7; highs],
        live_nodes: vec![7; live_nodes],
        live_edges: vec![7; live_edges],
        axes: axes.map(|length| vec![7; length]),
    };
    let [outgoing, incoming] = axes;
    let lengths = [
        nodes, edges, highs, live_nodes, live_edges, outgoing, incoming,
    ];
    (lengths, words)
}

/// One call of fresh: the answer, and counts that are all 0.
pub fn compare_one_fresh(
    thing: Thing,
    device: Device,
    (lengths, mut words): (Lengths, Words),
    tally: &mut Tally,
) -> Same {
    let empty = Counts {
        nodes: Slots::default(),
        edges: Slots::default(),
    };
    let place = || format!("fresh, lengths {lengths:?}, {device:?}");
    let expected = (fresh(device, lengths), empty);
    let given = (words.make_fresh(device), words.counts);
    tally.same(thing, place, expected, given)
}

/// So many calls of fresh, with lengths about those needed.
pub fn compare_fresh(calls: usize, seed: u64, tally: &mut Tally) -> Same {
    let mut rng = Rng::new(seed);
    for _ in 0..calls {
        let memory = any_memory(&mut rng);
        compare_one_fresh(Thing::PortFresh, Device::Box, memory, tally)?;
    }
    Ok(())
}
