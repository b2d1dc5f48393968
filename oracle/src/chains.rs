//! Request 4, "Nearest lot", on plain lists: the chains of each length enumerated,
//! as the request says it, and a plain search for stores that are too large for
//! that.

/// What chains go along: each lot's out-list, and the target of each transfer.
#[derive(Clone, Copy)]
pub struct Lists<'l> {
    pub out: &'l [Vec<u32>],
    pub targets: &'l [u32],
}

impl Lists<'_> {
    /// The first chain of so many edges, those with an earlier first edge first:
    /// "the chain whose first edge stands earliest in the out-list, then its second,
    /// and so on".
    #[cfg(ported)]
    fn of_length(self, from: u32, to: u32, length: usize) -> Option<Vec<u32>> {
        let Some(less) = length.checked_sub(1) else {
            return (from == to).then(Vec::new);
        };
        self.out[from as usize].iter().find_map(|&edge| {
            let rest = self.of_length(self.targets[edge as usize], to, less)?;
            Some([&[edge], rest.as_slice()].concat())
        })
    }

    /// "The shortest chain": of all chains, enumerated. One that comes to a lot twice
    /// is not the shortest, so it has fewer edges than there are lots.
    #[cfg(ported)]
    pub fn enumerated(self, from: u32, to: u32) -> Option<Vec<u32>> {
        (0..self.out.len()).find_map(|length| self.of_length(from, to, length))
    }

    /// The same by a search forwards, breadth first: a lot is reached by the chain
    /// that goes before all others of its length, because lots are taken up in that
    /// order.
    pub fn searched(self, from: u32, to: u32) -> Option<Vec<u32>> {
        let mut reached: Vec<Option<(u32, u32)>> = vec![None; self.out.len()];
        let mut queue = vec![from];
        let mut taken = 0;
        while let Some(&lot) = queue.get(taken) {
            if lot == to {
                break;
            }
            taken += 1;
            for &edge in &self.out[lot as usize] {
                let target = self.targets[edge as usize];
                if target != from && reached[target as usize].is_none() {
                    reached[target as usize] = Some((lot, edge));
                    queue.push(target);
                }
            }
        }
        let mut chain = Vec::new();
        let mut lot = to;
        while lot != from {
            let (before, edge) = reached[lot as usize]?;
            chain.push(edge);
            lot = before;
        }
        chain.reverse();
        Some(chain)
    }
}
