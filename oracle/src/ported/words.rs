//! A store as it is lent: counts and seven slices, which may hold anything. The
//! proved calls go through the wrapper's lot book.

use std::mem::replace;

use super::{kept, lent};
use crate::graph::traverse::TraversalDirection;
pub use crate::lots::Memory as Words;
use crate::lots::{Device, LotBook, Refused};
use crate::model::{self, Answer};

impl From<Refused> for Answer {
    fn from(Refused { number, value }: Refused) -> Self {
        Self { number, value }
    }
}

type ListRead = fn(&LotBook, u32, &mut [u32]) -> Result<u32, Refused>;
type NodeRead = fn(&LotBook, u32) -> Result<u32, Refused>;

/// The reads of a node's list: edges and far ends, and how many.
pub const LISTS: [(TraversalDirection, [ListRead; 2], NodeRead); 2] = [
    (
        TraversalDirection::Outgoing,
        [LotBook::outgoing_into, LotBook::successors_into],
        LotBook::out_degree,
    ),
    (
        TraversalDirection::Incoming,
        [LotBook::incoming_into, LotBook::predecessors_into],
        LotBook::in_degree,
    ),
];

/// A list into a slice with words to spare: how many entries, and those written.
pub fn listed(
    needed: usize,
    call: impl Fn(&mut [u32]) -> Result<u32, Refused>,
) -> Result<(usize, Vec<u32>), Answer> {
    let mut slots = lent(needed);
    let given = call(&mut slots);
    let written = kept(slots);
    Ok((given? as usize, written))
}

/// What the model knows of a book's device.
pub const fn judge(device: Device) -> model::Device {
    match device {
        Device::Box => model::BOX,
        Device::Skid => model::SKID,
    }
}

/// The answer of a call whose value is 0 when it is done.
pub fn answer(result: Result<(), Refused>) -> Answer {
    result.map_or_else(Answer::from, |()| Answer::done(0))
}

impl Words {
    /// A call of the lot book in this memory, which goes out and comes back.
    fn through(
        &mut self,
        device: Device,
        call: impl FnOnce(&mut LotBook) -> Result<(), Refused>,
    ) -> Answer {
        let memory = replace(self, Self::zeros(0, 0));
        let mut book = LotBook::from_memory_on(device, memory);
        let result = call(&mut book);
        *self = book.into_memory();
        answer(result)
    }

    /// Makes the store a fresh one.
    pub fn make_fresh(&mut self, device: Device) -> Answer {
        self.through(device, LotBook::fresh)
    }

    /// The answer of the check.
    #[cfg(feature = "serde")]
    pub fn check(&self) -> Answer {
        answer(LotBook::from_memory(self.clone()).check())
    }

    /// The total of a node's list: number and value, and both sums, which stand beside
    /// a refusal too.
    #[cfg(feature = "serde")]
    pub fn total(&self, direction: TraversalDirection, node: u32) -> (Answer, [u64; 2]) {
        let total = match direction {
            TraversalDirection::Outgoing => self.lot_out_total(node),
            TraversalDirection::Incoming => self.lot_in_total(node),
        };
        let answer = Answer {
            number: total.number,
            value: total.value,
        };
        (answer, [total.low, total.high])
    }

    /// Makes the operations of a strip, and gives the call's own answer.
    #[cfg(feature = "serde")]
    pub fn strip(&mut self, words: &[u32], answers: &mut [u32]) -> Answer {
        self.through(Device::Box, |book| book.strip_words(words, answers))
    }
}
