//! What a refusal means, in words: document 01's table of numbers, and document 02's additions to it.

use std::error::Error;
use std::fmt;

use super::{NONE, Refused};

impl Refused {
    /// The cause, as the table of numbers has it.
    ///
    /// ```
    /// # use lots::LotBook;
    /// let refused = LotBook::new(40_000, 0).unwrap_err();
    /// assert_eq!(refused.reason(), "a capacity above 32,768");
    /// assert_eq!(refused.to_string(), "a capacity above 32,768: 40000 (number 13)");
    /// ```
    pub const fn reason(self) -> &'static str {
        match self.number {
            1 => "the words are no store, broken rule",
            2 => "a lent slice is too short, length needed",
            3 => "the strip's length is no multiple of five",
            4 => "an unknown code, or an unused word that is not 0",
            5 => "a lot at or above the bound",
            6 => "a removed lot",
            7 => "a transfer at or above the bound",
            8 => "a removed transfer",
            9 => "a move onto itself",
            10 => "no room: the bound equals the capacity",
            12 => "the image is unreadable, broken rule",
            13 => "a capacity above 32,768",
            14 => "no chain from one lot to another",
            15 => "more than the skid takes",
            16 => "a low above its high",
            _ => "no number of the table",
        }
    }
}

impl fmt::Display for Refused {
    fn fmt(&self, formatter: &mut fmt::Formatter<'_>) -> fmt::Result {
        formatter.write_str(self.reason())?;
        // NONE is the value of every refusal that has nothing to report.
        if self.value != u64::from(NONE) {
            write!(formatter, ": {}", self.value)?;
        }
        write!(formatter, " (number {})", self.number)
    }
}

impl Error for Refused {}
