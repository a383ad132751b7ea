//! The cells that the repository keeps: those of the program `vectors`, and `cells`.

use comparison::cell_file::parse;
use comparison::listing;
use comparison::program;
use comparison::sts;
use comparison::vectors;

/// The first line for a file: of the cell, or of its refusal.
fn first_line(file: &[u8]) -> String {
    let listing = listing::of_file(file);
    listing.lines().next().unwrap_or_default().to_owned()
}

/// The same line from the call `sts_read`.
fn first_line_read(file: &[u8]) -> String {
    let mut header = [0; 5];
    match sts::read(file, &mut header) {
        0 => {
            let [nodes, transistors, entries, letters, horizon] = header;
            format!("cell {nodes} {transistors} {entries} {letters} {horizon}")
        }
        refusal => format!("refused {refusal}"),
    }
}

/// Each file is read, or refused, as its listing says.
#[test]
fn kept_cells() {
    let kept = [vectors::given(), vectors::samples()].concat();
    assert!(!kept.is_empty(), "no cell is kept");
    for vector in kept {
        let name = vector.path.display();
        let expected = vector.listing.lines().next().unwrap_or_default();
        assert_eq!(first_line(&vector.file), expected, "{name} by the model");
        assert_eq!(
            first_line_read(&vector.file),
            expected,
            "{name} by sts_read"
        );
        let shown = program::run("show", &vector.file);
        assert_eq!(shown, Ok(listing::of_file(&vector.file)), "{name} by show");
    }
}

/// The cells that are given as samples are legal.
#[test]
fn sample_cells() {
    for sample in vectors::samples() {
        let name = sample.path.display();
        assert!(parse(&sample.file).is_ok(), "{name} by the model");
    }
}
