//! What was compared, how often, and what a difference looks like.

use std::fmt::{self, Debug};

use crate::model::Answer;

/// Declares the things that are compared, each with its name in the output and
/// the sentence that covers it.
macro_rules! things {
    ($($thing:ident: $name:literal, $sentence:literal;)*) => {
        #[derive(Debug, Clone, Copy, PartialEq, Eq)]
        pub enum Thing { $($thing),* }

        impl Thing {
            const ALL: &[Self] = &[$(Self::$thing),*];

            const fn described(self) -> (&'static str, &'static str) {
                match self { $(Self::$thing => ($name, $sentence)),* }
            }
        }
    };
}

things! {
    Answer: "answers of operations",
        "Each operation leaves two words in the answer slice: number and value.";
    Walk: "walks",
        "A walk is the list";
    Degree: "degrees",
        "a degree its length";
    Neighbors: "successors and predecessors",
        "A walk is the list; Removed edges keep their last ends.";
    Total: "totals of out-lists and in-lists",
        "the total of a lot's in-list and of its out-list as a low and a high sum, each exact in 64 bits";
    Record: "records, of removed edges too",
        "`Graph::edge` answers for removed edges too";
    LiveRecord: "live records",
        "the wrapper `EdgeView::edge` in `view.rs` refuses them";
    Payload: "node payloads",
        "a payload is the one last given";
    Liveness: "yes or no: live",
        "it is live until removed; Out of range is not live.";
    LiveList: "lists of live slots",
        "List of live nodes or edges in slot order";
    Count: "bounds and counts",
        "a new slot is the bound, which rises by one; a bound or count itself";
    Empty: "yes or no: empty",
        "1 or 0 for a yes or no";
    Compact: "yes or no: compact",
        "M1 fresh: bounds 0, compact. M4 redirect to the same end on a compact store: still compact.";
    Parts: "base parts, runs and rings of all nodes",
        "Against the Rust, run contents are from now on matched after dead entries are struck from both sides.";
    Reached: "orders and ends of base parts, runs and rings",
        "An edge is in at most one run per direction";
    Map: "maps of a compaction",
        "Compaction drops the dead slots, numbers the live ones from 0 in slot order";
    Lookup: "map lookups",
        "the slot a map lookup gives or NONE";
    Identity: "yes or no: identity",
        "an identity map holds i at each i below the bound";
    Compose: "compositions of maps",
        "A short second map gives NONE.";
    Work: "work slices",
        "Work then holds the new out adjacency, then the in adjacency";
    RustOrder: "work slices of the Rust by its own order, where it is no yardstick",
        "the other stores are named in the differences file";
    Again: "second compactions",
        "Compaction drops the dead slots; an identity map holds i at each i below the bound";
    Image: "images",
        "the out-lists of nodes 0 up to n−1 joined, then the in-lists";
    Working: "images of stores before and after a compaction",
        "Writing an image now answers for every store, and gives what compaction followed by writing would give";
    Reading: "image readings",
        "and the result equals what compaction leaves";
    Pair: "pairs of images against survivors",
        "Order and image equality are measured on the plain lists";
    Example: "examples M1 to M12",
        "Proof by example";
    Text: "texts of lotstrip",
        "It prints a line per operation with position from 0, number and value in decimal, compacts, and prints the image";
    Panic: "panics of the Rust against numbers",
        "Panics become numbers.";
    Check: "answers of validate.rs",
        "Rules 1 to 5 and 7 are those of `validate.rs` in its order";
    Damaged: "rules of validate.rs for damaged stores",
        "Rules 1 to 5 and 7 are those of `validate.rs` in its order, rule 6 is added.";
    Nearest: "nearest chains, by the model and by the Rust's shortest_path",
        "Among equal lengths take the chain whose first edge stands earliest in the out-list, then its second, and so on.";
    Call: "calls with lengths of lent slices",
        "a lent slice too short | 2 | length needed";
    PortFresh: "port: fresh stores, in memory of any lengths",
        "Fresh: 13, nodes before edges, then 2.";
    SkidFresh: "skid: fresh stores, in memory of any lengths",
        "It refuses with 15 and the value asked for, lots before transfers, in place of 13 when lent memory exceeds its limits";
    SkidReading: "skid: images read into memory of any lengths, and refused",
        "in place of 13 when lent memory exceeds its limits, and right after 12 when an image does";
    PortAnswer: "port: strips, by their own answers and all words of their answer slices",
        "Each operation leaves two words in the answer slice: number and value.";
    PortRefusal: "port: words after a refused strip, or a strip of refused operations",
        "A refused operation changes nothing";
    PortCount: "port: counts",
        "a new slot is the bound, which rises by one; a bound or count itself";
    PortLive: "port: lists of live slots, and yes or no: live",
        "it is live until removed; Out of range is not live.";
    PortRules: "port: rules 1 to 7, by the oracle's own reading of the words",
        "Rules 1 to 5 and 7 are those of `validate.rs` in its order";
    PortRecord: "port: node payloads, ends and payloads of edges",
        "a payload is the one last given; Removed edges keep their last ends.";
    PortCheck: "port: the check, of stores that steps led to and of damaged ones",
        "The first broken rule is the value of answer 1.";
    PortPart: "port: base parts, runs and rings",
        "Against the Rust, run contents are from now on matched after dead entries are struck from both sides.";
    PortRun: "port: base parts, runs and rings, dead entries included, by the model",
        "`sweep` now drops dead slots at every edit of a run";
    PortCompaction: "port: compactions, their maps and work slices",
        "Compaction drops the dead slots, numbers the live ones from 0 in slot order";
    PortReading: "port: images read",
        "and the result equals what compaction leaves";
    PortIndex: "port: offsets",
        "the out-lists of nodes 0 up to n−1 joined, then the in-lists";
    PortWalk: "port: walks",
        "A walk is the list";
    PortDegree: "port: degrees",
        "a degree its length";
    PortNeighbors: "port: successors and predecessors",
        "A walk is the list; Removed edges keep their last ends.";
    PortText: "port: texts of lotstrip",
        "It prints a line per operation with position from 0, number and value in decimal, compacts, and prints the image on one line in lower-case hexadecimal.";
    PortLookup: "port: map lookups",
        "the slot a map lookup gives or NONE";
    PortIdentity: "port: yes or no: identity",
        "an identity map holds i at each i below the bound";
    PortCompose: "port: compositions of maps",
        "A short second map gives NONE.";
    BookWhole: "book: bounds, counts, empty, compact, the check",
        "The check, the yes or no reads of a store, bounds and counts: 1.";
    BookCompaction: "book: compactions, their maps, work slices and refusals, and second ones",
        "Compaction works as `Graph::compact`.";
    BookForeignRust: "book: compactions of stores from elsewhere, judged by the Rust",
        "The Rust remains the yardstick wherever rings ascend and run entries precede the ring's in number";
    BookForeignModel: "book: compactions of stores from elsewhere with rings in another order, judged by the model",
        "compaction, joining and the image keep every walk of every store that passes the check, ring order included";
    BookImage: "book: images written of any store, with work slices and into slices of several lengths, and refused",
        "It needs a work slice of twice the live transfer count, checked for length before the image's slice and left free afterwards";
    BookWorking: "book: images of stores that are not compact, against compaction and writing of a copy",
        "Writing an image now answers for every store, and gives what compaction followed by writing would give, while the store keeps every word";
    BookReading: "book: images read, and refused",
        "Reading: 13, 12, 2 .. and the result equals what compaction leaves.";
    BookList: "book: walks, successors and predecessors, lists of live slots, into slices of several lengths",
        "Walk: 1, 5, 2. List of live nodes or edges in slot order: 1, 2.";
    BookDegree: "book: degrees",
        "Degree and node payload: 1, 5.";
    BookTotal: "book: totals of out-lists and in-lists",
        "A total refuses 1, then 5, with both sums 0; done, its value is 0.";
    BookSlot: "book: payloads, records in both readings, live or not",
        "Record 1, 7; live record 1, 7, 8.";
    BookFind: "book: found edges",
        "Finding now gives the earliest in the source lot's out-list.";
    BookNearest: "book: nearest chains, with the work slice and the chain's afterwards",
        "these words are all zero after an answer 0 or 14 and after the 2 for the chain, the chain's slice then being untouched";
    BookChain: "book: nearest chains in every store of up to four lots and five transfers, by all chains enumerated",
        "No shorter chain may exist, and a chain is denied only if there is none at all.";
    BookPart: "book: base parts, runs and rings in its memory",
        "Against the Rust, run contents are from now on matched after dead entries are struck from both sides.";
    BookRun: "book: base parts, runs and rings, dead entries included, by the model",
        "`sweep` now drops dead slots at every edit of a run";
    BookRange: "book: strips, compactions and image readings with ranges, by the model",
        "A transfer's payload becomes low and high, `u32` each, in two slices";
    BookJoin: "book: two books joined in a third memory, maps, refusals and words to spare, by the model",
        "the first's survivors in slot order, then the second's, edges likewise, with each list kept in its order";
    BookJoinRust: "book: two books joined, both rebuilt in one store by the Rust's own operations",
        "The plain lists of the result are the renumbered lists of both.";
    BookRefused: "book: calls on damaged stores that are refused, and the words afterwards",
        "words are no store | 1 | rule 1 to 7 | everything";
    Vectors: "recorded sequences",
        "the committed file is what its seed gives";
}

/// The first thing that the two sides tell differently: what document 01 makes
/// one expect, by way of the model, and what was given, by the Rust in most
/// comparisons.
#[derive(Debug, Clone)]
pub struct Difference {
    thing: Thing,
    place: String,
    expected: String,
    given: String,
}

impl fmt::Display for Difference {
    fn fmt(&self, formatter: &mut fmt::Formatter<'_>) -> fmt::Result {
        let (name, sentence) = self.thing.described();
        writeln!(formatter, "different: {name}, {}", self.place)?;
        let pairs = self.expected.char_indices().zip(self.given.chars());
        let same = pairs.take_while(|&((_, a), b)| a == b).last();
        let from = same.map_or(0, |((at, _), _)| at.saturating_sub(40));
        for (side, text) in [("expected", &self.expected), ("given", &self.given)] {
            let shown: String = text.chars().skip(from).take(400).collect();
            writeln!(formatter, "  {side}: {shown}")?;
        }
        write!(formatter, "  covered by: {sentence}")
    }
}

/// Codes 1 to 9, and 0 for any other.
const CODES: usize = 10;
/// Numbers 0 to 16, of which a strip's operations leave 0, 4 to 10 and 16.
const NUMBERS: usize = 17;

#[derive(Clone)]
pub struct Tally {
    compared: Vec<u64>,
    answers: [[u64; NUMBERS]; CODES],
    /// The most entries of a run that was compared.
    longest_run: usize,
    pub differences: u64,
}

impl Tally {
    pub fn new() -> Self {
        Self {
            compared: vec![0; Thing::ALL.len()],
            answers: [[0; NUMBERS]; CODES],
            longest_run: 0,
            differences: 0,
        }
    }

    pub fn same<M, R>(
        &mut self,
        thing: Thing,
        place: impl FnOnce() -> String,
        model: M,
        rust: R,
    ) -> Result<(), Difference>
    where
        M: PartialEq<R> + Debug,
        R: Debug,
    {
        self.compared[thing as usize] += 1;
        if model == rust {
            return Ok(());
        }
        Err(Difference {
            thing,
            place: place(),
            expected: format!("{model:?}"),
            given: format!("{rust:?}"),
        })
    }

    /// Counts an operation by its code and the number answered.
    pub fn answered(&mut self, words: [u32; 5], answer: Answer) {
        let code = match words[0] as usize {
            code if code < CODES => code,
            _ => 0,
        };
        self.answers[code][answer.number as usize] += 1;
    }

    /// Notes the length of a run.
    #[cfg(ported)]
    pub fn ran(&mut self, entries: usize) {
        self.longest_run = self.longest_run.max(entries);
    }

    pub fn operations(&self) -> u64 {
        self.answers.iter().flatten().sum()
    }

    pub fn compared(&self) -> u64 {
        self.compared.iter().sum()
    }

    /// Takes in what another tally counted.
    pub fn add(&mut self, other: &Self) {
        let others = other.compared.iter().chain(other.answers.as_flattened());
        let counts = self
            .compared
            .iter_mut()
            .chain(self.answers.as_flattened_mut());
        for (count, more) in counts.zip(others) {
            *count += more;
        }
    }

    /// Prints a difference and counts it.
    pub fn report(&mut self, difference: &dyn fmt::Display) {
        self.differences += 1;
        println!("{difference}");
    }

    /// Whether every code has come up, and every number that a strip's
    /// operations can leave: 0, 4 to 10 and 16.
    pub fn covers_all(&self) -> bool {
        let codes = self.answers.iter().all(|row| row[0] + row[4] > 0);
        let number = |number: usize| self.answers.iter().any(|row| row[number] > 0);
        codes && [0, 4, 5, 6, 7, 8, 9, 10, 16].into_iter().all(number)
    }
}

impl fmt::Display for Tally {
    fn fmt(&self, formatter: &mut fmt::Formatter<'_>) -> fmt::Result {
        let numbers: Vec<usize> = (0..NUMBERS)
            .filter(|&number| self.answers.iter().any(|row| row[number] > 0))
            .collect();
        writeln!(formatter, "operations by code and number answered:")?;
        write!(formatter, "  {:>7}", "code")?;
        for &number in &numbers {
            write!(formatter, " {number:>9}")?;
        }
        writeln!(formatter)?;
        for (code, row) in self.answers.iter().enumerate() {
            let code = match code {
                0 => "other".to_string(),
                _ => code.to_string(),
            };
            write!(formatter, "  {code:>7}")?;
            for &number in &numbers {
                write!(formatter, " {:>9}", row[number])?;
            }
            writeln!(formatter)?;
        }
        if self.longest_run > 0 {
            let entries = self.longest_run;
            writeln!(formatter, "longest run of the port: {entries} entries")?;
        }
        writeln!(formatter, "compared:")?;
        for &thing in Thing::ALL {
            let (name, _) = thing.described();
            // A run of some parts compares nothing else.
            match self.compared[thing as usize] {
                0 => {}
                times => writeln!(formatter, "  {times:>11} {name}")?,
            }
        }
        Ok(())
    }
}
