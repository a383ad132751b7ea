//! A second implementation of the tool, written from the requirements alone,
//! and what is needed to compare the two on many cells.
//!
//! The modules here hold the implementation, the makers of cases and the calls
//! into the tool; the comparisons themselves are the files of `tests/`.

pub mod buffer;
pub mod cell_file;
pub mod designs;
pub mod draft;
pub mod fights;
pub mod functions;
pub mod generate;
pub mod listing;
pub mod load;
pub mod other_tool;
pub mod program;
pub mod random;
pub mod refusal;
pub mod replay;
pub mod rows;
pub mod saved;
#[cfg(feature = "editor")]
pub mod side_by_side;
pub mod simulator;
pub mod small;
pub mod source;
#[cfg(feature = "editor")]
pub mod sts;
pub mod tally;
pub mod vectors;
pub mod waves;
