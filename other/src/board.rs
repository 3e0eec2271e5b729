//! Fact boards.

use crate::Numbers;
use crate::book::Step;

/// Holds the facts that are so now, all below its span.
pub trait Board {
    fn span(&self) -> usize;
    fn held(&self, fact: usize) -> bool;
    /// Adds a fact; answers whether it is below the span.
    fn put(&mut self, fact: usize) -> bool;
    /// Removes a fact; answers whether it is below the span.
    fn clear(&mut self, fact: usize) -> bool;

    /// Clears what the step deletes, then puts what it adds.
    fn perform(&mut self, step: &Step) {
        for fact in &step.deletes {
            self.clear(*fact);
        }
        for fact in &step.adds {
            self.put(*fact);
        }
    }

    /// Holds exactly the given facts below the span.
    fn set(&mut self, facts: &Numbers) {
        for fact in 0..self.span() {
            self.clear(fact);
        }
        for fact in facts {
            self.put(*fact);
        }
    }

    /// All facts that are held.
    fn facts(&self) -> Numbers {
        (0..self.span()).filter(|fact| self.held(*fact)).collect()
    }
}

const BIT_SPAN: usize = 1024;
const TALLY_SPAN: usize = 512;

/// One yes or no for each fact.
#[derive(Debug, Clone)]
pub struct BitBoard {
    so: [bool; BIT_SPAN],
}

/// One count for each fact.
#[derive(Debug, Clone)]
pub struct TallyBoard {
    counts: [u32; TALLY_SPAN],
}

impl BitBoard {
    pub fn new() -> BitBoard {
        BitBoard {
            so: [false; BIT_SPAN],
        }
    }

    fn write(&mut self, fact: usize, so: bool) -> bool {
        match self.so.get_mut(fact) {
            None => false,
            Some(spot) => {
                *spot = so;
                true
            }
        }
    }
}

impl Default for BitBoard {
    fn default() -> BitBoard {
        BitBoard::new()
    }
}

impl Board for BitBoard {
    fn span(&self) -> usize {
        BIT_SPAN
    }

    fn held(&self, fact: usize) -> bool {
        self.so.get(fact).is_some_and(|so| *so)
    }

    fn put(&mut self, fact: usize) -> bool {
        self.write(fact, true)
    }

    fn clear(&mut self, fact: usize) -> bool {
        self.write(fact, false)
    }
}

impl TallyBoard {
    pub fn new() -> TallyBoard {
        TallyBoard {
            counts: [0; TALLY_SPAN],
        }
    }

    /// The count of a fact; 0 at or above the span.
    pub fn count(&self, fact: usize) -> u32 {
        self.counts.get(fact).copied().unwrap_or(0)
    }

    fn change(&mut self, fact: usize, count: impl Fn(u32) -> u32) -> bool {
        match self.counts.get_mut(fact) {
            None => false,
            Some(spot) => {
                *spot = count(*spot);
                true
            }
        }
    }
}

impl Default for TallyBoard {
    fn default() -> TallyBoard {
        TallyBoard::new()
    }
}

impl Board for TallyBoard {
    fn span(&self) -> usize {
        TALLY_SPAN
    }

    fn held(&self, fact: usize) -> bool {
        self.count(fact) != 0
    }

    fn put(&mut self, fact: usize) -> bool {
        self.change(fact, |count| count.saturating_add(1))
    }

    fn clear(&mut self, fact: usize) -> bool {
        self.change(fact, |_| 0)
    }
}

#[cfg(test)]
mod tests {
    use super::*;

    fn start_and_edges(mut board: impl Board, span: usize) {
        assert_eq!(board.span(), span);
        assert!(board.facts().is_empty());
        assert!(board.put(0) && board.put(span - 1) && board.put(span - 1));
        assert!(!board.put(span) && !board.clear(span) && !board.held(span));
        assert!(!board.put(usize::MAX) && !board.held(usize::MAX));
        assert_eq!(board.facts(), Numbers::from([0, span - 1]));
        assert!(board.clear(5) && board.clear(span - 1));
        assert_eq!(board.facts(), Numbers::from([0]));
        board.set(&Numbers::from([3, span, 2000]));
        assert_eq!(board.facts(), Numbers::from([3]));
    }

    #[test]
    fn both_boards() {
        start_and_edges(BitBoard::new(), 1024);
        start_and_edges(TallyBoard::new(), 512);
    }

    #[test]
    fn tallies() {
        let mut board = TallyBoard::new();
        board.put(7);
        board.put(7);
        assert_eq!(board.count(7), 2);
        board.counts[7] = u32::MAX;
        assert!(board.put(7));
        assert_eq!(board.count(7), u32::MAX);
        board.set(&Numbers::from([7]));
        assert_eq!(board.count(7), 1);
        board.clear(7);
        assert!(!board.held(7));
    }
}
