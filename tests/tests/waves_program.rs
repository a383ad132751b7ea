//! The program `waves` against the second implementation's listing.

use comparison::cell_file::Layout;
use comparison::designs;
use comparison::fights;
use comparison::generate::live::{self, Size};
use comparison::generate::Case;
use comparison::program::{self, Written};
use comparison::random::Random;
use comparison::replay::hex;
use comparison::vectors;
use comparison::waves;

/// The listings that are kept, given ones and those of the sample cells.
#[test]
fn vectors() {
    let kept = [vectors::given(), vectors::samples()].concat();
    assert!(!kept.is_empty(), "no cell is kept");
    for vector in kept {
        let printed = program::run("waves", &vector.file);
        assert_eq!(printed, Ok(vector.listing), "{}", vector.path.display());
    }
}

/// Cells in which much happens.
#[test]
fn live_cells() {
    let mut random = Random::new(51);
    for round in 0..200 {
        let size = random.pick(&[Size::Small, Size::Middle, Size::Dense]);
        let letters = random.between(0, 4);
        let cell = live::cell(&mut random, size, letters);
        let file = Layout::in_order(&cell).file;
        let printed = program::run("waves", &file);
        let expected = waves::of_file(&file);
        assert_eq!(printed, Ok(expected), "round {round}, {}", hex(&file));
    }
}

/// Cells about the ceiling: `refused 11` comes in place of what would follow, also where
/// the table is too short.
#[test]
fn ceiling() {
    let about = [fights::EXACTLY[0], fights::ABOVE[0]];
    let starts = about.map(fights::at_start);
    let steps = about.map(|fight| fights::with_letters(fight, fights::OPENS));
    let many = [0, fights::OPENS].map(fights::one_pattern);
    let refused = waves::of_file(&Layout::in_order(&steps[1]).file);
    for cell in [starts, steps, many].concat() {
        let file = Layout::in_order(&cell).file;
        for (argument, length) in LENGTHS {
            let printed = program::run_with("waves", &[argument], &file);
            let expected = written(&waves::in_table(&file, length));
            assert_eq!(printed, Ok(expected), "{argument}, {}", hex(&file));
        }
    }
    let (lines, last) = refused.trim_end().rsplit_once('\n').expect("lines");
    assert_eq!(last, "refused 11");
    let lists = |time: u32| lines.contains(&format!("\n{time} "));
    assert!(lists(fights::FIRST) && !lists(fights::OPENS), "{lines}");
}

/// Files that are refused.
#[test]
fn refused_files() {
    let cases = (0..).map(|index| Case::draw(52, index).file);
    let refused = cases.filter(|file| waves::of_file(file).starts_with("refused"));
    for file in refused.take(200) {
        let printed = program::run("waves", &file);
        assert_eq!(printed, Ok(waves::of_file(&file)), "{}", hex(&file));
    }
}

/// An argument is the table's length; none is 4,096.
#[test]
fn table_lengths() {
    for vector in [vectors::given(), vectors::samples()].concat() {
        for (argument, length) in LENGTHS {
            let printed = program::run_with("waves", &[argument], &vector.file);
            let expected = written(&waves::in_table(&vector.file, length));
            assert_eq!(
                printed,
                Ok(expected),
                "{argument}, {}",
                vector.path.display()
            );
        }
    }
}

const LENGTHS: [(&str, usize); 5] = [
    ("3", 3),
    ("13", 13),
    ("4096", 4_096),
    ("65536", 65_536),
    ("0013", 13),
];

/// A listing, and nothing to standard error.
fn written(listing: &str) -> Written {
    Written {
        output: listing.to_owned(),
        errors: String::new(),
    }
}

/// A cell of 12 letters that is full at 4,096 entries and finishes with 65,536.
#[test]
fn many_letters() {
    let file = Layout::in_order(&designs::barrel_column(12, 3)).file;
    let short = program::run_with("waves", &[], &file);
    let long = program::run_with("waves", &["65536"], &file);
    assert!(waves::of_file(&file).ends_with("refused 6\n"));
    assert!(waves::in_table(&file, 65_536).contains("\nend "));
    assert_eq!(short, Ok(written(&waves::of_file(&file))));
    assert_eq!(long, Ok(written(&waves::in_table(&file, 65_536))));
}

/// Any other argument, and more than one, print a usage line to standard error and no more.
#[test]
fn usage() {
    let wrong: [&[&str]; 16] = [
        &["2"],
        &["65537"],
        &["0"],
        &[""],
        &["x"],
        &["-5"],
        &["+5"],
        &["4096x"],
        &[" 4096"],
        &["4096 "],
        &["99999999999"],
        &["4294971392"],
        &["18446744073709555712"],
        &[&"4".repeat(10_000)],
        &["4096", "4096"],
        &["4096", ""],
    ];
    let file = &vectors::given()[0].file;
    for arguments in wrong {
        let printed = program::run_with("waves", arguments, file).expect("waves runs");
        assert_eq!(printed.output, "", "{arguments:?}");
        assert!(printed.errors.starts_with("usage: "), "{arguments:?}");
        assert_eq!(printed.errors.matches('\n').count(), 1, "{arguments:?}");
        assert!(printed.errors.ends_with('\n'), "{arguments:?}");
    }
}
