//! What the program `vectors` is run on, and what it has to write.

use comparison::program::{bytes, files, in_repository};
use comparison::vectors::{self, text, Vector, CELLS};
use comparison::waves;
use std::collections::BTreeSet;
use std::fs;
use std::path::Path;

/// The arguments of the program, one to a line.
fn arguments() -> String {
    text(&in_repository("crates/vectors/args"))
}

fn name(path: &Path) -> String {
    let name = path.file_name().expect("a file has a name");
    name.to_string_lossy().into_owned()
}

/// The names of the cells of the folder.
fn cells() -> BTreeSet<String> {
    let paths = files(CELLS, "cell");
    paths.iter().map(|path| name(path)).collect()
}

/// Every cell of the folder is named in the arguments, in a table as `waves` has it.
#[test]
fn every_cell_is_named() {
    let listed = arguments();
    let (first, names) = listed.split_once('\n').expect("more than one argument");
    assert_eq!(first, waves::LENGTH.to_string(), "the first table length");
    let at_this_length = names.lines().take_while(|name| name.ends_with(".cell"));
    let named: BTreeSet<String> = at_this_length.map(str::to_owned).collect();
    assert_eq!(named, cells(), "cells named in args and cells in {CELLS}");
}

/// Every cell of the folder has a listing that is kept: a given one, or a sample's.
#[test]
fn every_cell_has_a_listing() {
    let kept = [vectors::given(), vectors::samples()].concat();
    let listed: BTreeSet<String> = kept.iter().map(|vector| name(&vector.path)).collect();
    assert_eq!(listed, cells(), "cells with a listing and cells in {CELLS}");
}

/// Every sample cell is in the folder as it is in `cells`.
#[test]
fn every_cell_is_there() {
    for Vector { path, file, .. } in vectors::samples() {
        let there = in_repository(CELLS).join(name(&path));
        assert_eq!(bytes(&there), file, "{}", there.display());
    }
}

/// The program has to write what the second implementation lists.
#[test]
fn the_output_is_the_simulators() {
    let folder = in_repository(CELLS);
    let expected = waves::of_names(arguments().lines(), |name| fs::read(folder.join(name)).ok());
    let output = text(&in_repository("crates/vectors/stdout"));
    for (number, (line, other)) in (1..).zip(output.lines().zip(expected.lines())) {
        assert_eq!(line, other, "line {number} of stdout");
    }
    assert_eq!(output.len(), expected.len(), "bytes of stdout");
}
