//! Groups of terminals that parts link, by one part or by several in a row.
//!
//! At first each terminal is a group of its own; then each part, in the order
//! given, merges the groups of its two ends. No way from one terminal to
//! another is looked for.

use crate::board::{Ends, Part};

/// The groups of linked terminals. The head of a group is its lowest terminal.
/// For each terminal a lower one of its group is kept; for a head, itself.
pub struct Groups {
    lower: Vec<usize>,
}

impl Groups {
    /// The groups of so many terminals that these parts link.
    pub fn linked<'a>(terminals: usize, parts: impl Iterator<Item = &'a Part>) -> Self {
        let mut groups = Groups {
            lower: (0..terminals).collect(),
        };
        for part in parts {
            groups.merge(part.ends);
        }
        groups
    }

    /// The head of this terminal's group.
    pub fn head(&self, terminal: usize) -> usize {
        let mut at = terminal;
        while self.lower[at] != at {
            at = self.lower[at];
        }
        at
    }

    /// Makes one group of the groups of both ends.
    fn merge(&mut self, (a, b): Ends) {
        let (a, b) = (self.head(a), self.head(b));
        self.lower[a.max(b)] = a.min(b);
    }
}
