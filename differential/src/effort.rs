//! How much the comparison asks.

/// How many questions of each kind are asked, where they are too many to ask them all.
pub struct Effort {
    /// Operand tuples and component lists up to this length are all asked.
    pub exhaustive: usize,
    /// Refused tuples up to this length are asked with every pattern of marks, too.
    pub patterns: usize,
    /// Of the longer ones, one in so many is asked with some pattern of marks, too.
    pub marked: usize,
    /// For longer tuples of the right length: so many endings of each beginning that the crate refuses.
    pub endings: usize,
    /// For functions with longer tuples: so many random ones of the right and of the wrong length each.
    pub tuples: usize,
    /// Random sets made by hand, of each kind.
    pub sets: usize,
    /// Random component lists.
    pub consensus: usize,
    /// Random expressions.
    pub expressions: usize,
    /// Random worksheets.
    pub worksheets: usize,
    /// Rows of tokens up to this length are all read.
    pub tokens: usize,
    /// Random texts to read, and as many random expressions to write.
    pub texts: usize,
}

pub const FULL: Effort = Effort {
    exhaustive: 3,
    patterns: 2,
    marked: 4,
    endings: 400,
    tuples: 1_000_000,
    sets: 2_000_000,
    consensus: 4_000_000,
    expressions: 1_000_000,
    worksheets: 2_000_000,
    tokens: 8,
    texts: 2_000_000,
};

pub const QUICK: Effort = Effort {
    exhaustive: 2,
    patterns: 1,
    marked: 8,
    endings: 10,
    tuples: 20_000,
    sets: 10_000,
    consensus: 200_000,
    expressions: 40_000,
    worksheets: 80_000,
    tokens: 6,
    texts: 80_000,
};
