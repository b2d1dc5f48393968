//! Stands for `graph/traverse/tests.rs`, the unit tests of `traverse.rs`, which
//! were not handed over. No traversal is compared here, so it is empty.
