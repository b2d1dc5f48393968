//! Stands for the crate's `block` module: the identity of a basic block, which
//! `traverse.rs` names in its methods on `Cfg`.

use crate::graph::store::{Id, NodeTag};

pub type BlockId = Id<NodeTag>;
