//! A small brewery from hopper to bottle: books it, then costs a bottling by walking
//! back through the transfers, asks for the shortest way, and keeps the book as an image.
//!
//!     cargo run --offline --example brewery
//!
//! (after `wrapper/run`, which has the proved library written).

use lots::{EdgePayload, LotBook, Operation, Refused};

/// The lots, by the order in which they are booked.
const NAMES: [&str; 7] = [
    "hopper 1",
    "hopper 2",
    "mash",
    "kettle",
    "tank",
    "bottling A",
    "bottling B",
];

/// Everything that flowed into a lot, nearest first: each lot that a transfer back from
/// it leads to, once.
fn sources(book: &LotBook, bottling: u32) -> Result<Vec<u32>, Refused> {
    let mut found = vec![bottling];
    let mut next = 0;
    while next < found.len() {
        for lot in book.predecessors(found[next])? {
            if !found.contains(&lot) {
                found.push(lot);
            }
        }
        next += 1;
    }
    Ok(found)
}

fn main() -> Result<(), Refused> {
    let mut book = LotBook::new(16, 32)?;
    let mut lots = [0; NAMES.len()];
    for (payload, lot) in (100..).zip(&mut lots) {
        *lot = book.operation(Operation::AddNode { payload })?;
    }
    let [pale, dark, mash, kettle, tank, first, second] = lots;
    let transfers = [
        // The hoppers' scales give a lowest and a highest weight.
        (
            pale,
            mash,
            EdgePayload {
                low: 480,
                high: 490,
            },
        ),
        (dark, mash, EdgePayload { low: 55, high: 60 }),
        (mash, kettle, EdgePayload::exactly(2_100)),
        (kettle, tank, EdgePayload::exactly(1_950)),
        (tank, first, EdgePayload::exactly(900)),
        (tank, second, EdgePayload::exactly(1_000)),
    ];
    let strip = transfers.map(|(source, target, payload)| Operation::AddEdge {
        source,
        target,
        payload,
    });
    for answer in book.strip(&strip)? {
        answer?;
    }

    // A transfer that was booked to the wrong bottling goes to the other.
    let wrong = book.find(tank, first)?.expect("it was booked");
    let previous = book.operation(Operation::RedirectTarget {
        edge: wrong,
        node: second,
    })?;
    println!(
        "transfer {wrong} redirected from {} to {}",
        NAMES[previous as usize], NAMES[second as usize]
    );

    println!("{} comes from:", NAMES[second as usize]);
    for lot in sources(&book, second)? {
        let total = book.in_total(lot)?;
        println!(
            "  {}: {} transfers in, {} to {}",
            NAMES[lot as usize],
            book.in_degree(lot)?,
            total.low,
            total.high
        );
    }

    // How few transfers lie between a hopper and a bottling, and which.
    let chain = book
        .nearest(pale, second)?
        .expect("malt reaches the bottle");
    let mut way = NAMES[pale as usize].to_string();
    for transfer in chain {
        let record = book.edge_record(transfer)?;
        way += &format!(" -{transfer}-> {}", NAMES[record.target as usize]);
    }
    println!("{way}");

    // What can't be done is refused, and changes nothing.
    let refused = book.out_degree(99).expect_err("there is no lot 99");
    println!("lot 99: {refused}");

    // The image of a book needs no compaction, and changes nothing.
    let image = book.image()?;
    let mut copy = LotBook::new(16, 32)?;
    copy.read_image(&image)?;
    assert_eq!(copy.image()?, image, "the same book has the same image");
    println!("the book's image has {} bytes", image.len());
    Ok(())
}
