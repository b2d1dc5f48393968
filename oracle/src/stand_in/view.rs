//! Stands for `graph/view.rs`, which was not handed over: the traits and the
//! two borrowed views that `store.rs`, `edge_view.rs` and `traverse.rs` name.

pub trait DenseId: Copy + Ord {
    fn from_index(index: usize) -> Self;
    fn index(self) -> usize;
}

pub trait GraphView {
    type NodeId: DenseId;
    fn node_bound(&self) -> usize;
    fn node_ids(&self) -> impl Iterator<Item = Self::NodeId> + '_;
    fn successors(&self, node: Self::NodeId) -> impl Iterator<Item = Self::NodeId> + '_;
    fn predecessors(&self, node: Self::NodeId) -> impl Iterator<Item = Self::NodeId> + '_;
}

pub trait NodeView: GraphView {
    type NodeData: ?Sized;
    fn node(&self, node: Self::NodeId) -> &Self::NodeData;
}

pub trait RootedView: GraphView {
    fn root(&self) -> Self::NodeId;
}

/// Declares one borrowed view of a graph, with its two neighbor reads in the
/// order given.
macro_rules! borrowed_view {
    ($name:ident, $successors:ident, $predecessors:ident) => {
        pub struct $name<'g, G>(&'g G);

        impl<'g, G> $name<'g, G> {
            pub const fn graph(&self) -> &'g G {
                self.0
            }
        }

        impl<G: GraphView> GraphView for $name<'_, G> {
            type NodeId = G::NodeId;

            fn node_bound(&self) -> usize {
                self.0.node_bound()
            }

            fn node_ids(&self) -> impl Iterator<Item = Self::NodeId> + '_ {
                self.0.node_ids()
            }

            fn successors(&self, node: Self::NodeId) -> impl Iterator<Item = Self::NodeId> + '_ {
                self.0.$successors(node)
            }

            fn predecessors(&self, node: Self::NodeId) -> impl Iterator<Item = Self::NodeId> + '_ {
                self.0.$predecessors(node)
            }
        }
    };
}

borrowed_view!(Rooted, successors, predecessors);
borrowed_view!(Reversed, predecessors, successors);

pub fn assert_in_bound<G: GraphView>(graph: &G, node: G::NodeId, role: &str) {
    assert!(node.index() < graph.node_bound(), "{role} is out of range");
}
