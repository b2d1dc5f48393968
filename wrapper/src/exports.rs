//! What the library of crate `boundary_c` exports, and the one place where it is called.
//! A slice is a pointer and a length. No function requires more than that its slices
//! can be read, those for answers and a changed store written, and that they do not
//! overlap: the borrows say so.

use super::{Device, Memory};

/// `Slots` of crate `plain`.
#[repr(C)]
#[derive(Debug, Clone, Copy, Default, PartialEq, Eq)]
pub struct Slots {
    /// All slots.
    pub bound: u32,
    /// Those that the compressed base holds.
    pub base: u32,
    /// Those that are live.
    pub live: u32,
}

/// `Counts` of crate `plain`.
#[repr(C)]
#[derive(Debug, Clone, Copy, Default, PartialEq, Eq)]
pub struct Counts {
    /// Of nodes.
    pub nodes: Slots,
    /// Of edges.
    pub edges: Slots,
}

/// `Answer` of crate `plain`.
#[repr(C)]
#[derive(Clone, Copy)]
pub struct Answer {
    pub number: u32,
    pub value: u64,
}

/// `Changed` of crate `plain`.
#[repr(C)]
#[derive(Clone, Copy)]
pub struct Changed {
    pub number: u32,
    pub value: u64,
    pub counts: Counts,
}

/// The weights of an edge: `EdgePayload` of crate `plain`.
#[repr(C)]
#[derive(Debug, Clone, Copy, PartialEq, Eq)]
pub struct EdgePayload {
    /// The lowest weight.
    pub low: u32,
    /// The highest weight.
    pub high: u32,
}

/// `Record` of crate `plain`.
#[repr(C)]
#[derive(Clone, Copy)]
pub struct Record {
    pub number: u32,
    pub value: u64,
    pub source: u32,
    pub target: u32,
    pub payload: EdgePayload,
}

/// `Total` of crate `plain`.
#[repr(C)]
#[derive(Clone, Copy)]
pub struct Total {
    pub number: u32,
    pub value: u64,
    pub low: u64,
    pub high: u64,
}

/// Declares reads of a store, each with its own arguments and the slices that it is
/// lent, if any, and a method of [`Memory`] for each.
macro_rules! reads {
    ($($name:ident($($argument:ident),* $(; $($slots:ident: $word:ty),+)?) -> $answer:ty;)*) => {
        mod reads {
            use super::{Answer, Counts, Record, Total};

            unsafe extern "C" {
                $(pub fn $name(
                    counts: Counts,
                    nodes: *const u32,
                    nodes_length: usize,
                    lows: *const u32,
                    lows_length: usize,
                    highs: *const u32,
                    highs_length: usize,
                    live_nodes: *const u64,
                    live_nodes_length: usize,
                    live_edges: *const u64,
                    live_edges_length: usize,
                    outgoing: *const u32,
                    outgoing_length: usize,
                    incoming: *const u32,
                    incoming_length: usize,
                    $($argument: u32,)*
                    $($($slots: *mut $word, _: usize,)+)?
                ) -> $answer;)*
            }
        }

        impl Memory {
            $(pub(crate) fn $name(&self, $($argument: u32,)* $($($slots: &mut [$word]),+)?) -> $answer {
                let [outgoing, incoming] = &self.axes;
                // SAFETY: the slices are borrowed and as long as stated.
                unsafe {
                    reads::$name(
                        self.counts,
                        self.nodes.as_ptr(),
                        self.nodes.len(),
                        self.lows.as_ptr(),
                        self.lows.len(),
                        self.highs.as_ptr(),
                        self.highs.len(),
                        self.live_nodes.as_ptr(),
                        self.live_nodes.len(),
                        self.live_edges.as_ptr(),
                        self.live_edges.len(),
                        outgoing.as_ptr(),
                        outgoing.len(),
                        incoming.as_ptr(),
                        incoming.len(),
                        $($argument,)*
                        $($($slots.as_mut_ptr(), $slots.len(),)+)?
                    )
                }
            })*
        }
    };
}

reads! {
    lot_check() -> Answer;
    lot_outgoing(node; slots: u32) -> Answer;
    lot_incoming(node; slots: u32) -> Answer;
    lot_successors(node; slots: u32) -> Answer;
    lot_predecessors(node; slots: u32) -> Answer;
    lot_out_degree(node) -> Answer;
    lot_in_degree(node) -> Answer;
    lot_out_total(node) -> Total;
    lot_in_total(node) -> Total;
    lot_find(first, second) -> Answer;
    lot_nearest(first, second; work: u32, chain: u32) -> Answer;
    lot_node_payload(node) -> Answer;
    lot_edge_record(edge) -> Record;
    lot_live_edge_record(edge) -> Record;
    lot_contains_node(node) -> Answer;
    lot_contains_edge(edge) -> Answer;
    lot_is_empty() -> Answer;
    lot_is_compact() -> Answer;
    lot_node_bound() -> Answer;
    lot_edge_bound() -> Answer;
    lot_node_count() -> Answer;
    lot_edge_count() -> Answer;
    lot_node_ids(; slots: u32) -> Answer;
    lot_edge_ids(; slots: u32) -> Answer;
    lot_write_image(; work: u32, bytes: u8) -> Answer;
}

mod others {
    use super::{Answer, Changed, Counts};

    unsafe extern "C" {
        pub fn lot_fresh(
            nodes: *const u32,
            nodes_length: usize,
            lows: *const u32,
            lows_length: usize,
            highs: *const u32,
            highs_length: usize,
            live_nodes: *const u64,
            live_nodes_length: usize,
            live_edges: *const u64,
            live_edges_length: usize,
            outgoing: *const u32,
            outgoing_length: usize,
            incoming: *const u32,
            incoming_length: usize,
        ) -> Changed;
        pub fn lot_skid_fresh(
            nodes: *const u32,
            nodes_length: usize,
            lows: *const u32,
            lows_length: usize,
            highs: *const u32,
            highs_length: usize,
            live_nodes: *const u64,
            live_nodes_length: usize,
            live_edges: *const u64,
            live_edges_length: usize,
            outgoing: *const u32,
            outgoing_length: usize,
            incoming: *const u32,
            incoming_length: usize,
        ) -> Changed;
        pub fn lot_strip(
            counts: Counts,
            nodes: *mut u32,
            nodes_length: usize,
            lows: *mut u32,
            lows_length: usize,
            highs: *mut u32,
            highs_length: usize,
            live_nodes: *mut u64,
            live_nodes_length: usize,
            live_edges: *mut u64,
            live_edges_length: usize,
            outgoing: *mut u32,
            outgoing_length: usize,
            incoming: *mut u32,
            incoming_length: usize,
            words: *const u32,
            words_length: usize,
            answers: *mut u32,
            answers_length: usize,
        ) -> Changed;
        pub fn lot_compact(
            counts: Counts,
            nodes: *mut u32,
            nodes_length: usize,
            lows: *mut u32,
            lows_length: usize,
            highs: *mut u32,
            highs_length: usize,
            live_nodes: *mut u64,
            live_nodes_length: usize,
            live_edges: *mut u64,
            live_edges_length: usize,
            outgoing: *mut u32,
            outgoing_length: usize,
            incoming: *mut u32,
            incoming_length: usize,
            node_map: *mut u32,
            node_map_length: usize,
            edge_map: *mut u32,
            edge_map_length: usize,
            work: *mut u32,
            work_length: usize,
        ) -> Changed;
        pub fn lot_read_image(
            counts: Counts,
            nodes: *mut u32,
            nodes_length: usize,
            lows: *mut u32,
            lows_length: usize,
            highs: *mut u32,
            highs_length: usize,
            live_nodes: *mut u64,
            live_nodes_length: usize,
            live_edges: *mut u64,
            live_edges_length: usize,
            outgoing: *mut u32,
            outgoing_length: usize,
            incoming: *mut u32,
            incoming_length: usize,
            bytes: *const u8,
            bytes_length: usize,
        ) -> Changed;
        pub fn lot_skid_read_image(
            counts: Counts,
            nodes: *mut u32,
            nodes_length: usize,
            lows: *mut u32,
            lows_length: usize,
            highs: *mut u32,
            highs_length: usize,
            live_nodes: *mut u64,
            live_nodes_length: usize,
            live_edges: *mut u64,
            live_edges_length: usize,
            outgoing: *mut u32,
            outgoing_length: usize,
            incoming: *mut u32,
            incoming_length: usize,
            bytes: *const u8,
            bytes_length: usize,
        ) -> Changed;
        pub fn lot_join(
            first: Counts,
            first_nodes: *const u32,
            first_nodes_length: usize,
            first_lows: *const u32,
            first_lows_length: usize,
            first_highs: *const u32,
            first_highs_length: usize,
            first_live_nodes: *const u64,
            first_live_nodes_length: usize,
            first_live_edges: *const u64,
            first_live_edges_length: usize,
            first_outgoing: *const u32,
            first_outgoing_length: usize,
            first_incoming: *const u32,
            first_incoming_length: usize,
            second: Counts,
            second_nodes: *const u32,
            second_nodes_length: usize,
            second_lows: *const u32,
            second_lows_length: usize,
            second_highs: *const u32,
            second_highs_length: usize,
            second_live_nodes: *const u64,
            second_live_nodes_length: usize,
            second_live_edges: *const u64,
            second_live_edges_length: usize,
            second_outgoing: *const u32,
            second_outgoing_length: usize,
            second_incoming: *const u32,
            second_incoming_length: usize,
            nodes: *mut u32,
            nodes_length: usize,
            lows: *mut u32,
            lows_length: usize,
            highs: *mut u32,
            highs_length: usize,
            live_nodes: *mut u64,
            live_nodes_length: usize,
            live_edges: *mut u64,
            live_edges_length: usize,
            outgoing: *mut u32,
            outgoing_length: usize,
            incoming: *mut u32,
            incoming_length: usize,
            first_node_map: *mut u32,
            first_node_map_length: usize,
            first_edge_map: *mut u32,
            first_edge_map_length: usize,
            second_node_map: *mut u32,
            second_node_map_length: usize,
            second_edge_map: *mut u32,
            second_edge_map_length: usize,
        ) -> Changed;
        pub fn lot_lookup(renumbering: *const u32, length: usize, slot: u32) -> Answer;
        pub fn lot_compose(
            first: *const u32,
            first_length: usize,
            second: *const u32,
            second_length: usize,
            result: *mut u32,
            result_length: usize,
        ) -> Answer;
        pub fn lot_is_identity(
            nodes: *const u32,
            nodes_length: usize,
            edges: *const u32,
            edges_length: usize,
        ) -> Answer;
    }
}

impl Memory {
    pub(crate) fn lot_fresh(&self, device: Device) -> Changed {
        let entry = match device {
            Device::Box => others::lot_fresh,
            Device::Skid => others::lot_skid_fresh,
        };
        let [outgoing, incoming] = &self.axes;
        // SAFETY: the slices are borrowed and as long as stated.
        unsafe {
            entry(
                self.nodes.as_ptr(),
                self.nodes.len(),
                self.lows.as_ptr(),
                self.lows.len(),
                self.highs.as_ptr(),
                self.highs.len(),
                self.live_nodes.as_ptr(),
                self.live_nodes.len(),
                self.live_edges.as_ptr(),
                self.live_edges.len(),
                outgoing.as_ptr(),
                outgoing.len(),
                incoming.as_ptr(),
                incoming.len(),
            )
        }
    }

    pub(crate) fn lot_strip(&mut self, words: &[u32], answers: &mut [u32]) -> Changed {
        let [outgoing, incoming] = &mut self.axes;
        // SAFETY: the slices are borrowed, all but `words` mutably, and as long as
        // stated.
        unsafe {
            others::lot_strip(
                self.counts,
                self.nodes.as_mut_ptr(),
                self.nodes.len(),
                self.lows.as_mut_ptr(),
                self.lows.len(),
                self.highs.as_mut_ptr(),
                self.highs.len(),
                self.live_nodes.as_mut_ptr(),
                self.live_nodes.len(),
                self.live_edges.as_mut_ptr(),
                self.live_edges.len(),
                outgoing.as_mut_ptr(),
                outgoing.len(),
                incoming.as_mut_ptr(),
                incoming.len(),
                words.as_ptr(),
                words.len(),
                answers.as_mut_ptr(),
                answers.len(),
            )
        }
    }

    pub(crate) fn lot_compact(
        &mut self,
        node_map: &mut [u32],
        edge_map: &mut [u32],
        work: &mut [u32],
    ) -> Changed {
        let [outgoing, incoming] = &mut self.axes;
        // SAFETY: the slices are borrowed mutably and as long as stated.
        unsafe {
            others::lot_compact(
                self.counts,
                self.nodes.as_mut_ptr(),
                self.nodes.len(),
                self.lows.as_mut_ptr(),
                self.lows.len(),
                self.highs.as_mut_ptr(),
                self.highs.len(),
                self.live_nodes.as_mut_ptr(),
                self.live_nodes.len(),
                self.live_edges.as_mut_ptr(),
                self.live_edges.len(),
                outgoing.as_mut_ptr(),
                outgoing.len(),
                incoming.as_mut_ptr(),
                incoming.len(),
                node_map.as_mut_ptr(),
                node_map.len(),
                edge_map.as_mut_ptr(),
                edge_map.len(),
                work.as_mut_ptr(),
                work.len(),
            )
        }
    }

    pub(crate) fn lot_read_image(&mut self, device: Device, bytes: &[u8]) -> Changed {
        let entry = match device {
            Device::Box => others::lot_read_image,
            Device::Skid => others::lot_skid_read_image,
        };
        let [outgoing, incoming] = &mut self.axes;
        // SAFETY: the slices are borrowed, all but `bytes` mutably, and as long as
        // stated.
        unsafe {
            entry(
                self.counts,
                self.nodes.as_mut_ptr(),
                self.nodes.len(),
                self.lows.as_mut_ptr(),
                self.lows.len(),
                self.highs.as_mut_ptr(),
                self.highs.len(),
                self.live_nodes.as_mut_ptr(),
                self.live_nodes.len(),
                self.live_edges.as_mut_ptr(),
                self.live_edges.len(),
                outgoing.as_mut_ptr(),
                outgoing.len(),
                incoming.as_mut_ptr(),
                incoming.len(),
                bytes.as_ptr(),
                bytes.len(),
            )
        }
    }

    /// Joins two stores into this memory. `maps`: nodes and edges of the first, then
    /// of the second.
    pub(crate) fn lot_join(
        &mut self,
        first: &Self,
        second: &Self,
        maps: [&mut [u32]; 4],
    ) -> Changed {
        let [
            first_node_map,
            first_edge_map,
            second_node_map,
            second_edge_map,
        ] = maps;
        let [outgoing, incoming] = &mut self.axes;
        // SAFETY: the slices are borrowed, this memory's and the maps mutably, and as
        // long as stated.
        unsafe {
            others::lot_join(
                first.counts,
                first.nodes.as_ptr(),
                first.nodes.len(),
                first.lows.as_ptr(),
                first.lows.len(),
                first.highs.as_ptr(),
                first.highs.len(),
                first.live_nodes.as_ptr(),
                first.live_nodes.len(),
                first.live_edges.as_ptr(),
                first.live_edges.len(),
                first.axes[0].as_ptr(),
                first.axes[0].len(),
                first.axes[1].as_ptr(),
                first.axes[1].len(),
                second.counts,
                second.nodes.as_ptr(),
                second.nodes.len(),
                second.lows.as_ptr(),
                second.lows.len(),
                second.highs.as_ptr(),
                second.highs.len(),
                second.live_nodes.as_ptr(),
                second.live_nodes.len(),
                second.live_edges.as_ptr(),
                second.live_edges.len(),
                second.axes[0].as_ptr(),
                second.axes[0].len(),
                second.axes[1].as_ptr(),
                second.axes[1].len(),
                self.nodes.as_mut_ptr(),
                self.nodes.len(),
                self.lows.as_mut_ptr(),
                self.lows.len(),
                self.highs.as_mut_ptr(),
                self.highs.len(),
                self.live_nodes.as_mut_ptr(),
                self.live_nodes.len(),
                self.live_edges.as_mut_ptr(),
                self.live_edges.len(),
                outgoing.as_mut_ptr(),
                outgoing.len(),
                incoming.as_mut_ptr(),
                incoming.len(),
                first_node_map.as_mut_ptr(),
                first_node_map.len(),
                first_edge_map.as_mut_ptr(),
                first_edge_map.len(),
                second_node_map.as_mut_ptr(),
                second_node_map.len(),
                second_edge_map.as_mut_ptr(),
                second_edge_map.len(),
            )
        }
    }
}

pub fn lookup(renumbering: &[u32], slot: u32) -> Answer {
    // SAFETY: the slice is borrowed and as long as stated.
    unsafe { others::lot_lookup(renumbering.as_ptr(), renumbering.len(), slot) }
}

pub fn compose(first: &[u32], second: &[u32], result: &mut [u32]) -> Answer {
    // SAFETY: the slices are borrowed, `result` mutably, and as long as stated.
    unsafe {
        others::lot_compose(
            first.as_ptr(),
            first.len(),
            second.as_ptr(),
            second.len(),
            result.as_mut_ptr(),
            result.len(),
        )
    }
}

pub fn is_identity(nodes: &[u32], edges: &[u32]) -> Answer {
    // SAFETY: the slices are borrowed and as long as stated.
    unsafe { others::lot_is_identity(nodes.as_ptr(), nodes.len(), edges.as_ptr(), edges.len()) }
}
