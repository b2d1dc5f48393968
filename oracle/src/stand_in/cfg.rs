//! Stands for the crate's `cfg` module: a control-flow graph with an entry, on
//! which `traverse.rs` defines methods. None of them is called here.

use crate::block::BlockId;
use crate::graph::store::Graph;
use crate::graph::view::GraphView;

pub struct Cfg<I, E> {
    graph: Graph<I, E>,
    entry: BlockId,
}

impl<I, E> Cfg<I, E> {
    pub const fn entry(&self) -> BlockId {
        self.entry
    }
}

impl<I, E> GraphView for Cfg<I, E> {
    type NodeId = BlockId;

    fn node_bound(&self) -> usize {
        self.graph.node_bound()
    }

    fn node_ids(&self) -> impl Iterator<Item = BlockId> + '_ {
        self.graph.node_ids()
    }

    fn successors(&self, node: BlockId) -> impl Iterator<Item = BlockId> + '_ {
        self.graph.successors(node)
    }

    fn predecessors(&self, node: BlockId) -> impl Iterator<Item = BlockId> + '_ {
        self.graph.predecessors(node)
    }
}
