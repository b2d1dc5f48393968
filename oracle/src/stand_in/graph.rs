//! Stands for the crate's `graph` module: declares the modules that the store
//! needs, three of them the unchanged Rust files, `view` a stand-in.

pub mod edge_view;
pub mod store;
pub mod traverse;
pub mod view;
