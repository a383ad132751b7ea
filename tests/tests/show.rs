//! The program `show` against the second implementation's listing.

use comparison::generate::legal;
use comparison::listing;
use comparison::program;
use comparison::random::Random;
use comparison::replay::{hex, Cases};

/// Runs the program on a file; an error names the first line that differs.
fn compare(file: &[u8]) -> Result<(), String> {
    let shown = program::run("show", file)?;
    let expected = listing::of_file(file);
    if shown == expected {
        return Ok(());
    }
    let mut shown = shown.split_inclusive('\n');
    let mut expected = expected.split_inclusive('\n');
    for number in 1.. {
        let (line, other) = (shown.next(), expected.next());
        if line != other {
            return Err(format!("line {number} is {line:?}, expected {other:?}"));
        }
    }
    unreachable!("the two texts differ")
}

/// Files of every making.
#[test]
fn files_of_every_making() {
    let cases = Cases::first(600);
    cases.for_each(|case| {
        compare(&case.file).unwrap_or_else(|why| panic!("{why}: {case}"));
    });
}

/// Legal cells, with and without entries.
#[test]
fn legal_cells() {
    let mut random = Random::new(9);
    for round in 0..400 {
        let entries = random.spread(0, 64);
        let file = legal::layout(&mut random, entries).file;
        compare(&file).unwrap_or_else(|why| panic!("{why}: round {round}, {}", hex(&file)));
    }
}

/// No input at all, the largest cell, and more than any cell has.
#[test]
fn extreme_lengths() {
    for file in legal::of_extreme_lengths(&mut Random::new(10)) {
        compare(&file).unwrap_or_else(|why| panic!("{why}: {} bytes", file.len()));
    }
}
