//! A model of the register, written from documents 01 and 02 and Figure 3 alone, in the plainest way
//! (`register`, `dayfile`, `runner`, `runs` for turns that are given at once, and `closing` for the
//! end of the day), of the day's book, from document 02 and Figure 1 (`book`, `claims`,
//! `automaton`), and, from document 02, of the figures for the quarter (`figures`) and of the mending
//! of damaged day files (`mending`, `mend_claims`, and `mend_examples`, worked out by hand). It is the
//! other side of the comparison with the proved register.
//! `baseline` is a fast day runner, which is held to the model and measures speed alone.

pub mod automaton;
pub mod baseline;
pub mod book;
pub mod book_counts;
pub mod claims;
pub mod closing;
pub mod comparison;
pub mod counts;
pub mod dayfile;
pub mod days;
pub mod figure_counts;
pub mod figures;
pub mod mend_claims;
pub mod mend_counts;
pub mod mend_examples;
pub mod mending;
pub mod mends;
pub mod papers;
pub mod program;
pub mod quarters;
pub mod random;
pub mod register;
pub mod runner;
pub mod runs;
pub mod text;
