//! Maps of compactions: the new slot at each old one, or NONE where it was removed.

use super::exports;
use super::{NONE, Refused, done, narrow};

/// The new slot of an old one, if it has one. Refuses nothing.
pub fn lookup(renumbering: &[u32], slot: u32) -> Option<u32> {
    let found = narrow(exports::lookup(renumbering, slot).value);
    (found != NONE).then_some(found)
}

/// The first map, then the second, into `result`. A short second map gives NONE.
///
/// # Errors
/// 2 (the length needed, that of the first).
pub fn compose(first: &[u32], second: &[u32], result: &mut [u32]) -> Result<(), Refused> {
    let answer = exports::compose(first, second, result);
    done(answer.number, answer.value).map(|_| ())
}

/// Whether both maps leave every slot where it is. Refuses nothing.
pub fn is_identity(nodes: &[u32], edges: &[u32]) -> bool {
    exports::is_identity(nodes, edges).value == 1
}
