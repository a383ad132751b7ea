//! The sample cells and the sources that they are made from.

use comparison::cell_file::{parse, Layout};
use comparison::program::{bytes, files, in_repository};
use comparison::source;
use comparison::vectors::text;
use std::process::Command;

/// Every cell file is that of its source, read here.
#[test]
fn cells_are_those_of_their_sources() {
    let paths = files("cells", "cell");
    assert!(!paths.is_empty(), "no cell in cells");
    for path in paths {
        let cell = source::read(&text(&path.with_extension("txt")));
        let cell = cell.unwrap_or_else(|line| panic!("{}: {line}", path.display()));
        let file = bytes(&path);
        assert_eq!(file, Layout::in_order(&cell).file, "{}", path.display());
        assert_eq!(parse(&file), Ok(cell), "{}", path.display());
    }
}

/// Every source has its cell file, and it is the one that `cells/make` makes.
#[test]
fn cells_are_those_that_are_made() {
    let script = in_repository("cells/make");
    let checked = Command::new(&script).arg("--check").output();
    let checked = checked.unwrap_or_else(|error| panic!("{}: {error}", script.display()));
    let told = String::from_utf8_lossy(&checked.stderr);
    assert!(checked.status.success(), "{told}");
}
