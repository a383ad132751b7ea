//! The switch-level rules, worked out for one pattern after the other.
//!
//! A run keeps a state for each of the 2^K patterns and applies the rules, as the
//! requirements tell them, to each by itself. Functions of the letters arise only
//! when a run is stored: then a node's numbers at all patterns are one.

pub mod arithmetic;
pub mod calls;
pub mod circuit;
pub mod pattern;
pub mod reach;
pub mod run;
pub mod trial;
pub mod walk;
