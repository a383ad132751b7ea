//! The listings that are kept, against those that the second implementation makes.

use comparison::vectors::{self, Vector};
use comparison::waves;

fn compare(vectors: &[Vector]) {
    assert!(!vectors.is_empty(), "no cell is kept");
    for vector in vectors {
        let listing = waves::of_file(&vector.file);
        assert_eq!(listing, vector.listing, "{}", vector.path.display());
    }
}

/// The listings that were given.
#[test]
fn given() {
    compare(&vectors::given());
}

/// The listings of the sample cells.
#[test]
fn samples() {
    compare(&vectors::samples());
}
