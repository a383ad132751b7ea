//! The call `sts_read` against the second implementation.

use comparison::cell_file::parse;
use comparison::generate::legal;
use comparison::program::{bytes, files};
use comparison::random::Random;
use comparison::refusal::Refusal;
use comparison::replay::{hex, Cases};
use comparison::sts;
use comparison::tally::Tally;
use comparison::vectors::CELLS;

/// How many numbers a header has.
const HEADER: usize = 5;

/// Numbers before and after the lent header, which no call may touch.
const MARGIN: usize = 4;

/// Lends a header of this length with random content, and gives the answer and
/// what stands in and around the header before and after the call.
fn read(random: &mut Random, file: &[u8], length: usize) -> (u32, Vec<u32>, Vec<u32>) {
    let before: Vec<u32> = (0..MARGIN + length + MARGIN)
        .map(|_| random.word())
        .collect();
    let mut after = before.clone();
    let answer = sts::read(file, &mut after[MARGIN..MARGIN + length]);
    (answer, before, after)
}

/// Reads a file both ways; an error tells how the two differ.
fn compare(random: &mut Random, file: &[u8]) -> Result<u32, String> {
    let (answer, mut expected, after) = read(random, file, HEADER);
    let number = match parse(file) {
        Ok(cell) => {
            expected[MARGIN..MARGIN + HEADER].copy_from_slice(&cell.header());
            0
        }
        Err(refusal) => refusal.number(),
    };
    if answer != number {
        return Err(format!("answered {answer}, expected {number}"));
    }
    if after != expected {
        return Err(format!("left {after:?}, expected {expected:?}"));
    }
    Ok(answer)
}

/// Lends a header of a wrong length; an error tells what is not as it should be.
fn compare_length(random: &mut Random, file: &[u8], length: usize) -> Result<u32, String> {
    let (answer, before, after) = read(random, file, length);
    if answer != Refusal::Buffer.number() {
        return Err(format!(
            "answered {answer} to a header of {length}, expected 8"
        ));
    }
    if after != before {
        return Err(format!(
            "left {after:?} of a header of {length}, expected {before:?}"
        ));
    }
    Ok(answer)
}

/// A length of 0 to 8, but not the right one.
fn wrong_length(random: &mut Random) -> usize {
    random.pick(&[0, 1, 2, 3, 4, 6, 7, 8])
}

#[test]
fn a_million_files() {
    let cases = Cases::first(1_200_000);
    let mut tally = Tally::default();
    cases.for_each(|case| {
        let mut random = Random::of_case(case.seed, !case.index);
        let answer = compare(&mut random, &case.file);
        tally.count(answer.unwrap_or_else(|why| panic!("{why}: {case}")));
        if random.one_in(8) {
            let length = wrong_length(&mut random);
            let answer = compare_length(&mut random, &case.file, length);
            tally.count(answer.unwrap_or_else(|why| panic!("{why}: {case}")));
        }
    });
    println!("sts_read: {tally}");
    if cases.complete {
        tally.expect(10_000, &[0, 1, 2, 3, 4, 5, 8]);
    }
}

/// Every byte of some files takes every value.
#[test]
fn every_value_of_every_byte() {
    let mut random = Random::new(4);
    let mut tally = Tally::default();
    for path in files(CELLS, "cell") {
        let mut file = bytes(&path);
        for at in 0..file.len() {
            let old = file[at];
            for byte in 0..=255 {
                file[at] = byte;
                let answer = compare(&mut random, &file);
                tally.count(answer.unwrap_or_else(|why| {
                    panic!(
                        "{why}: {} with byte {at} as {byte}: {}",
                        path.display(),
                        hex(&file)
                    )
                }));
            }
            file[at] = old;
        }
    }
    println!("sts_read, every value of every byte: {tally}");
    tally.expect(10_000, &[0, 1, 2, 3, 4]);
}

/// Files of every length up to twice the right one.
#[test]
fn every_length() {
    let mut random = Random::new(5);
    let mut tally = Tally::default();
    for path in files(CELLS, "cell") {
        let whole = bytes(&path);
        for length in 0..=2 * whole.len() {
            let mut file = whole.clone();
            file.resize(length, 0);
            let answer = compare(&mut random, &file);
            tally.count(answer.unwrap_or_else(|why| panic!("{why}: {}", hex(&file))));
        }
    }
    println!("sts_read, every length: {tally}");
}

/// Files far longer than any cell.
#[test]
fn long_files() {
    let mut random = Random::new(6);
    for length in [
        2_448,
        2_449,
        4_096,
        65_535,
        65_536,
        65_552,
        1 << 20,
        (1 << 20) + 16,
    ] {
        let mut file = legal::layout(&mut random, 0).file;
        file.resize(length, 0);
        let answer = compare(&mut random, &file);
        answer.unwrap_or_else(|why| panic!("{why}: {length} bytes, {}...", hex(&file[..2_448])));
    }
}

/// A wrong length of the header comes before everything that is wrong with a
/// file.
#[test]
fn every_length_of_the_header() {
    let mut random = Random::new(7);
    for path in files(CELLS, "cell") {
        let file = bytes(&path);
        for start in [&file[..], &file[..file.len() - 1], &file[..15], &[]] {
            for length in (0..=64).filter(|&length| length != HEADER) {
                let answer = compare_length(&mut random, start, length);
                answer.unwrap_or_else(|why| panic!("{why}: {}", hex(start)));
            }
        }
    }
}

/// A file may start at any address.
#[test]
fn any_address() {
    let mut random = Random::new(8);
    for _ in 0..1_000 {
        let file = legal::layout(&mut random, 0).file;
        for offset in 0..16 {
            let mut memory = vec![0xff; offset];
            memory.extend(&file);
            let answer = compare(&mut random, &memory[offset..]);
            let answer = answer.unwrap_or_else(|why| panic!("{why}: {}", hex(&file)));
            assert_eq!(answer, 0, "offset {offset}: {}", hex(&file));
        }
    }
}
