//! The program `save` against the second implementation's saved form.

use comparison::generate::legal;
use comparison::program::{self, Written};
use comparison::random::Random;
use comparison::replay::{hex, Cases};
use comparison::saved;
use comparison::tally::Tally;
use comparison::vectors;

/// Runs the program on a file; an error tells what it wrote instead.
fn compare(file: &[u8]) -> Result<u32, String> {
    let answer = saved::of_file(file);
    let number = answer.as_ref().map_or_else(|why| why.number(), |_| 0);
    program::compare("save", &[], file, &Written::of(answer))?;
    Ok(number)
}

/// Files of every making.
#[test]
fn files_of_every_making() {
    let cases = Cases::first(600);
    let mut tally = Tally::default();
    cases.for_each(|case| {
        let answer = compare(&case.file);
        tally.count(answer.unwrap_or_else(|why| panic!("{why}: {case}")));
    });
    println!("save: {tally}");
    if cases.complete {
        tally.expect(10, &[0, 1, 2, 3, 4, 5]);
    }
}

/// Legal cells, with and without entries, and their saved files.
#[test]
fn legal_cells() {
    let mut random = Random::new(17);
    for round in 0..200 {
        let entries = random.spread(0, 64);
        let file = legal::layout(&mut random, entries).file;
        let saved = saved::of_file(&file).expect("a legal file");
        for file in [saved, file] {
            let answer = compare(&file);
            let answer =
                answer.unwrap_or_else(|why| panic!("{why}: round {round}, {}", hex(&file)));
            assert_eq!(answer, 0, "round {round}, {}", hex(&file));
        }
    }
}

/// No input at all, the largest cell, and more than any cell has.
#[test]
fn extreme_lengths() {
    let mut tally = Tally::default();
    for file in legal::of_extreme_lengths(&mut Random::new(18)) {
        let answer = compare(&file);
        tally.count(answer.unwrap_or_else(|why| panic!("{why}: {} bytes", file.len())));
    }
    println!("save, extreme lengths: {tally}");
    tally.expect(1, &[0, 1]);
}

/// The cells that the repository keeps; those of `cells` are written as they are.
#[test]
fn kept_cells() {
    for vector in vectors::given() {
        let name = vector.path.display();
        compare(&vector.file).unwrap_or_else(|why| panic!("{why}: {name}"));
    }
    for sample in vectors::samples() {
        let same = Written::of(Ok(sample.file.clone()));
        let compared = program::compare("save", &[], &sample.file, &same);
        compared.unwrap_or_else(|why| panic!("{why}: {}", sample.path.display()));
    }
}
