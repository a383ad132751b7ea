//! The program `small` against the second implementation's list.

use comparison::listing;
use comparison::program::{self, Written};
use comparison::random::Random;
use comparison::refusal::Refusal;
use comparison::small;

/// The most characters of an argument, by the operating system.
const LONGEST: usize = 131_071;

/// Arguments that are not digits alone.
#[rustfmt::skip]
const NO_PLACES: [&str; 22] = [
    "", "-1", "-0", "+1", " 1", "1 ", "1\n", "1x", "x", "0x10", "1.0", "1e3", "1,000", "1_000",
    "/", ":", "1/", "1:", "１", "1１", "99999999999999999999x", "9312x",
];

/// Runs the program with these arguments; a difference ends the test.
fn compare(arguments: &[&str], expected: &Written<Vec<u8>>) {
    let compared = program::compare("small", arguments, &[], expected);
    compared.unwrap_or_else(|why| {
        let told = |argument: &&str| format!("{argument:.24} of {} bytes", argument.len());
        let told: Vec<String> = arguments.iter().map(told).collect();
        panic!("{why}: {told:?}")
    });
}

/// The first places, the last ones, and one of every 46 between them.
#[test]
fn places() {
    let list = small::list();
    let mut random = Random::new(71);
    let between = (0..200).map(|part| 97 + 46 * part + random.index(46));
    for place in (0..=96).chain(between).chain(9_297..9_312) {
        let file = list[place].file.clone();
        compare(&[&place.to_string()], &Written::of(Ok(file)));
    }
}

/// Zeros before a place change nothing.
#[test]
fn zeros() {
    let list = small::list();
    let many = |count: usize, digits: &str| "0".repeat(count - digits.len()) + digits;
    for (argument, place) in [
        ("00".to_owned(), 0),
        ("007".to_owned(), 7),
        (many(10, "96"), 96),
        (many(20, "9311"), 9_311),
        (many(1_001, "5"), 5),
        (many(LONGEST, "5"), 5),
        (many(LONGEST, "0"), 0),
    ] {
        let file = list[place].file.clone();
        compare(&[&argument], &Written::of(Ok(file)));
    }
    compare(
        &[&many(LONGEST, "9312")],
        &Written::of(Err(Refusal::Question)),
    );
}

/// Every number past the last place is refused, however many digits it has: also one
/// that is a place in its lower bits.
#[test]
fn past_the_last() {
    let few = [
        "9312",
        "9313",
        "9999",
        "10000",
        "65536",
        "65541",
        "4294967295",
        "4294967296",
        "4294967301",
        "18446744073709551615",
        "18446744073709551616",
        "18446744073709551621",
        "340282366920938463463374607431768211461",
    ];
    let many = [100, 1_000, 100_000, LONGEST].map(|count| "1".repeat(count));
    // 2 to the power 32 times 10 to a high power.
    let wrapped = format!("4294967296{}", "0".repeat(1_000));
    let arguments = few.into_iter().chain(many.iter().map(String::as_str));
    for argument in arguments.chain([wrapped.as_str()]) {
        compare(&[argument], &Written::of(Err(Refusal::Question)));
    }
}

/// No argument, two, and one that is not digits alone: a usage line to standard error,
/// and no more.
#[test]
fn usage() {
    let digits = "1".repeat(100_000);
    let [behind, before] = [format!("{digits}x"), format!("x{digits}")];
    let longest = "0".repeat(LONGEST - 1) + "x";
    let expected = Written {
        output: Vec::new(),
        errors: "usage: small PLACE, a number from 0 to 9311\n".to_owned(),
    };
    for argument in NO_PLACES.into_iter().chain([&*behind, &*before, &*longest]) {
        compare(&[argument], &expected);
    }
    let counts: [&[&str]; 4] = [&[], &["1", "2"], &["1", ""], &["", "1"]];
    for arguments in counts {
        compare(arguments, &expected);
    }
}

/// What the program writes is what `show` reads and `save` keeps.
#[test]
fn shown_and_saved() {
    for (place, small) in small::list().iter().enumerate().step_by(97) {
        let written = program::run_bytes("small", &[&place.to_string()], &[]);
        let file = written
            .unwrap_or_else(|why| panic!("{why}: {place}"))
            .output;
        let shown = program::run("show", &file);
        assert_eq!(shown, Ok(listing::of_cell(&small.cell)), "{place}");
        let same = Written::of(Ok(small.file.clone()));
        let saved = program::compare("save", &[], &file, &same);
        saved.unwrap_or_else(|why| panic!("{why}: {place}"));
    }
}
