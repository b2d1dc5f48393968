//! Document 01's image: what survives of plain lists to bytes, and back, with the
//! rules that an unreadable image breaks.

use crate::model::{EdgePayload, Incidence, LIMIT, Plain, Slot};

/// "w is the least width holding n−1, 0 if n is at most 1; v likewise for m."
fn least_width(count: usize) -> usize {
    (0..)
        .find(|&width| 1_usize << width >= count)
        .expect("some power of two is large enough")
}

/// "node count n and edge count m (16 bits each); n payloads (32); per edge
/// source, target (w bits each), payload (32); the out-lists of nodes 0 up to
/// n−1 joined, then the in-lists (v bits an entry)". Request 8: "the image's edge
/// record holds low then high in 64 bits".
fn bit_length(nodes: usize, edges: usize) -> usize {
    let (w, v) = (least_width(nodes), least_width(edges));
    32 + 32 * nodes + (2 * w + 64) * edges + 2 * v * edges
}

/// The image of what survives of plain lists. Request 2: it "gives what compaction
/// followed by writing would give".
pub fn of(plain: &Plain) -> Vec<u8> {
    write(&plain.compaction().plain)
}

/// The image of plain lists without dead slots, right or not.
pub fn write(plain: &Plain) -> Vec<u8> {
    let (w, v) = (
        least_width(plain.nodes.len()),
        least_width(plain.edges.len()),
    );
    let mut bits = Vec::new();
    // "most significant bit first"
    let mut put = |width: usize, value: u32| {
        bits.extend((0..width).rev().map(|place| value >> place & 1));
    };
    put(16, plain.nodes.len() as u32);
    put(16, plain.edges.len() as u32);
    for node in &plain.nodes {
        put(32, node.payload);
    }
    for (edge, slot) in plain.edges.iter().enumerate() {
        put(w, plain.outgoing.ends[edge]);
        put(w, plain.incoming.ends[edge]);
        put(32, slot.payload.low);
        put(32, slot.payload.high);
    }
    for incidence in [&plain.outgoing, &plain.incoming] {
        for &entry in incidence.lists.iter().flatten() {
            put(v, entry);
        }
    }
    // "zero bits to a byte"
    bits.resize(bits.len().next_multiple_of(8), 0);
    let byte = |eight: &[u32]| eight.iter().fold(0, |byte, &bit| byte << 1 | bit) as u8;
    bits.chunks(8).map(byte).collect()
}

/// Reads fields one after another, most significant bit first.
struct Fields<'a> {
    bytes: &'a [u8],
    at: usize,
}

impl Fields<'_> {
    fn take(&mut self, width: usize) -> u32 {
        let bit = |at: usize| u32::from(self.bytes[at / 8] >> (7 - at % 8) & 1);
        let value = (self.at..self.at + width).fold(0, |value, at| value << 1 | bit(at));
        self.at += width;
        value
    }
}

/// The plain lists of an image, or the first rule that it breaks: "(1) under 4
/// bytes; (2) count above 32,768; (3) other length; (4) padding set; (5) end not
/// below n; (6) list entry not below m, repeated, or at the wrong node." Request 8:
/// "a low above its high … breaks … an image rule 5 of reading".
pub fn read(bytes: &[u8]) -> Result<Plain, u32> {
    if bytes.len() < 4 {
        return Err(1);
    }
    let mut fields = Fields { bytes, at: 0 };
    let nodes = fields.take(16) as usize;
    let edges = fields.take(16) as usize;
    if nodes as u64 > LIMIT || edges as u64 > LIMIT {
        return Err(2);
    }
    let length = bit_length(nodes, edges);
    if bytes.len() != length.div_ceil(8) {
        return Err(3);
    }
    let mut padding = Fields { bytes, at: length };
    if padding.take(bytes.len() * 8 - length) != 0 {
        return Err(4);
    }

    let (w, v) = (least_width(nodes), least_width(edges));
    let mut plain = Plain::default();
    let live = true;
    for _ in 0..nodes {
        let payload = fields.take(32);
        plain.nodes.push(Slot { payload, live });
    }
    for _ in 0..edges {
        plain.outgoing.ends.push(fields.take(w));
        plain.incoming.ends.push(fields.take(w));
        let [low, high] = [(); 2].map(|()| fields.take(32));
        let payload = EdgePayload { low, high };
        plain.edges.push(Slot { payload, live });
    }
    let mut ends = plain.outgoing.ends.iter().chain(&plain.incoming.ends);
    if ends.any(|&end| end as usize >= nodes) {
        return Err(5);
    }
    if plain.edges.iter().any(|slot| slot.payload.inverted()) {
        return Err(5);
    }
    for incidence in [&mut plain.outgoing, &mut plain.incoming] {
        read_lists(&mut fields, incidence, nodes, v)?;
    }
    Ok(plain)
}

/// Joined lists, "each as long as the edges' ends say".
fn read_lists(
    fields: &mut Fields<'_>,
    incidence: &mut Incidence,
    nodes: usize,
    width: usize,
) -> Result<(), u32> {
    let mut lengths = vec![0; nodes];
    for &end in &incidence.ends {
        lengths[end as usize] += 1;
    }
    let mut seen = vec![false; incidence.ends.len()];
    for (node, length) in lengths.into_iter().enumerate() {
        let mut list = Vec::new();
        for _ in 0..length {
            let entry = fields.take(width);
            let here = incidence.ends.get(entry as usize) == Some(&(node as u32));
            if !here || std::mem::replace(&mut seen[entry as usize], true) {
                return Err(6);
            }
            list.push(entry);
        }
        incidence.lists.push(list);
    }
    Ok(())
}
