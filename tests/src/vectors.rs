//! The cells that the repository keeps, with the listings of their runs.

use crate::program::{bytes, files, in_repository};
use std::fs;
use std::path::{Path, PathBuf};

/// Where the program `vectors` has its cells.
pub const CELLS: &str = "crates/vectors/data";

/// A cell that is kept, and its listing.
#[derive(Clone, Debug)]
pub struct Vector {
    /// Where the cell is.
    pub path: PathBuf,
    pub file: Vec<u8>,
    pub listing: String,
}

impl Vector {
    fn new(path: PathBuf, listing: &Path) -> Vector {
        Vector {
            file: bytes(&path),
            listing: text(listing),
            path,
        }
    }
}

/// The cells that tell doubtful readings apart. Their listings were given with
/// them and stand in `tests/vectors`. Those named `-in-range` are given ones whose
/// resistances were above the limit and are brought down to it; their listings are
/// those of the second implementation.
pub fn given() -> Vec<Vector> {
    let vector = |listing: PathBuf| {
        let cell = listing.with_extension("cell");
        let name = cell.file_name().expect("a file has a name");
        Vector::new(in_repository(CELLS).join(name), &listing)
    };
    let listings = files("tests/vectors", "waves");
    listings.into_iter().map(vector).collect()
}

/// The sample cells, whose listings stand beside them.
pub fn samples() -> Vec<Vector> {
    let vector = |cell: PathBuf| {
        let listing = cell.with_extension("waves");
        Vector::new(cell, &listing)
    };
    files("cells", "cell").into_iter().map(vector).collect()
}

/// The text of a file.
pub fn text(path: &Path) -> String {
    fs::read_to_string(path).unwrap_or_else(|error| panic!("{}: {error}", path.display()))
}
