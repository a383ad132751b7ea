//! The call `sts_save` against the second implementation.

use comparison::buffer::{self, MARGIN};
use comparison::cell_file::{
    parse, Cell, Channel, Layout, Node, Role, Source, Transistor, ENTRIES, NODES, RECORD,
    TRANSISTORS,
};
use comparison::generate::legal;
use comparison::program::{bytes, files};
use comparison::random::Random;
use comparison::refusal::Refusal;
use comparison::replay::{hex, Cases};
use comparison::saved;
use comparison::sts;
use comparison::tally::Tally;
use comparison::vectors::{self, CELLS};

/// The most bytes of a cell file.
const MOST: usize = RECORD * (1 + *NODES.end() + *TRANSISTORS.end() + *ENTRIES.end()) as usize;

/// Saves a file both ways into a buffer of this length; an error tells how the
/// two differ.
fn compare(random: &mut Random, file: &[u8], length: usize) -> Result<u32, String> {
    let save = |out: &mut [u8], saved: &mut u32| sts::save(file, out, saved);
    buffer::compare(random, length, save, saved::in_buffer(file, length))
}

/// The bytes that the call saves of a file that is a cell.
fn save(file: &[u8]) -> Vec<u8> {
    let mut buffer = vec![0xab; MOST];
    let mut length = 0;
    let answer = sts::save(file, &mut buffer, &mut length);
    assert_eq!(answer, 0, "file {}", hex(file));
    buffer.truncate(length as usize);
    buffer
}

/// Files of every making, each in a buffer that any cell fits into, in one that
/// none fits into and in one between: what is wrong with the file comes first.
#[test]
fn files_of_every_making() {
    let cases = Cases::first(200_000);
    let mut long = Tally::default();
    let mut short = Tally::default();
    let mut between = Tally::default();
    cases.for_each(|case| {
        let mut random = Random::of_case(case.seed, !case.index);
        let lengths = [
            (&mut long, MOST + random.index(64)),
            (&mut short, random.index(3 * RECORD)),
            (&mut between, random.index(MOST)),
        ];
        for (tally, length) in lengths {
            let answer = compare(&mut random, &case.file, length);
            tally.count(answer.unwrap_or_else(|why| panic!("{why}: {case}")));
        }
    });
    println!("sts_save, a long buffer: {long}");
    println!("sts_save, a short buffer: {short}");
    println!("sts_save, any buffer: {between}");
    if cases.complete {
        long.expect(1_000, &[0, 1, 2, 3, 4, 5]);
        short.expect(1_000, &[1, 2, 3, 4, 5, 8]);
        between.expect(1_000, &[0, 1, 2, 3, 4, 5, 8]);
    }
}

/// However the records of a cell stand in its file, it is saved as the same
/// bytes; saved again, these stay; and they are read as the same cell.
#[test]
fn files_of_one_cell() {
    let cases = Cases::first(20_000);
    let mut files = 0;
    cases.for_each_index(|seed, index| {
        let mut random = Random::of_case(seed, index);
        let entries = random.spread(0, *ENTRIES.end());
        let cell = legal::cell(&mut random, entries);
        let expected = saved::of_cell(&cell);
        for _ in 0..4 {
            let file = in_any_order(&mut random, &cell);
            let case = format!("seed {seed} index {index}: {}", hex(&file));
            assert_eq!(save(&file), expected, "{case}");
            files += 1;
        }
        check_saved(&cell, &expected);
    });
    println!("sts_save: {files} files of cells in any order");
}

/// A file of a cell, with its records in any order.
fn in_any_order(random: &mut Random, cell: &Cell) -> Vec<u8> {
    Layout::new(cell, &legal::places(random, cell.records())).file
}

/// The saved file of a cell is saved as itself and is read as that cell.
fn check_saved(cell: &Cell, file: &[u8]) {
    let told = hex(file);
    assert_eq!(file.len(), RECORD * (1 + cell.records()), "{told}");
    assert_eq!(save(file), file, "{told}");
    assert_eq!(parse(file).as_ref(), Ok(cell), "{told}");
    let mut header = [0; 5];
    assert_eq!(sts::read(file, &mut header), 0, "{told}");
    assert_eq!(header, cell.header(), "{told}");
}

/// A cell that differs in one field, or in the order of two records, is saved as
/// other bytes.
#[test]
fn different_cells() {
    let cases = Cases::first(20_000);
    let mut pairs = 0;
    cases.for_each_index(|seed, index| {
        let mut random = Random::of_case(seed, index);
        let entries = random.spread(0, *ENTRIES.end());
        let cell = legal::cell(&mut random, entries);
        let other = changed(&mut random, &cell);
        let files = [&cell, &other].map(|cell| in_any_order(&mut random, cell));
        if other == cell || parse(&files[1]).is_err() {
            return;
        }
        let [one, two] = files.map(|file| save(&file));
        assert_ne!(one, two, "seed {seed} index {index}: {cell:?}, {other:?}");
        assert_eq!(two, saved::of_cell(&other), "seed {seed} index {index}");
        pairs += 1;
    });
    println!("sts_save: {pairs} pairs of different cells");
    if cases.complete {
        assert!(pairs >= 10_000, "only {pairs} pairs");
    }
}

/// The cell with something changed, which may be no cell then.
fn changed(random: &mut Random, cell: &Cell) -> Cell {
    let mut other = cell.clone();
    let node = random.index(cell.nodes.len());
    let transistor = random.index(cell.transistors.len());
    let entry = random.index(cell.schedule.len().max(1));
    let source = legal::source(random, cell.letters);
    match random.below(12) {
        0 => other.letters += 1,
        1 => other.horizon += 1,
        2 => other.nodes[node].start = source,
        3 => match &mut other.nodes[node].role {
            Role::Inner { capacitance } => *capacitance ^= 1 << random.below(16),
            role => *role = Role::Inner { capacitance: 1 },
        },
        4 => other.nodes.rotate_right(1),
        5 => other.transistors[transistor].gate ^= 1,
        6 => other.transistors[transistor].ends.reverse(),
        7 => other.transistors[transistor].resistance ^= 1 << random.below(20),
        8 => other.transistors.swap(0, transistor),
        9 => other.transistors[transistor].channel = Channel::N,
        _ if cell.schedule.is_empty() => other.schedule.clear(),
        10 => other.schedule[entry].source = source,
        _ => other.schedule[entry].time += 1,
    }
    other
}

/// The least cell: one node, one transistor, nothing else.
fn least() -> Cell {
    Cell {
        letters: 0,
        horizon: 1,
        nodes: vec![Node {
            role: Role::Inner { capacitance: 1 },
            start: Source::Low,
        }],
        transistors: vec![Transistor {
            channel: Channel::N,
            gate: 0,
            ends: [0, 1],
            resistance: 1,
        }],
        schedule: vec![],
    }
}

/// Buffers of lengths about the need, and of lengths far from it.
#[test]
fn lengths_of_the_buffer() {
    let mut random = Random::new(11);
    let mut tally = Tally::default();
    let drawn: Vec<Cell> = (0..200).map(|_| legal::cell(&mut random, 0)).collect();
    let cells = [vec![least(), legal::largest(&mut random)], drawn].concat();
    for cell in cells {
        let file = in_any_order(&mut random, &cell);
        let need = file.len();
        let about = need - RECORD - 1..=need + RECORD + 1;
        let far = [0, 1, 15, 16, 17, MOST, MOST + 1, 4_096, 65_536, 100_000];
        for length in about.chain(far) {
            let answer = compare(&mut random, &file, length);
            tally.count(answer.unwrap_or_else(|why| panic!("{why}: {}", hex(&file))));
        }
    }
    println!("sts_save, lengths of the buffer: {tally}");
    tally.expect(1_000, &[0, 8]);
}

/// The kept cells, whole and cut, in buffers of no bytes up to twice the need: 8
/// comes after all that is wrong with a file.
#[test]
fn cut_files() {
    let mut random = Random::new(12);
    let mut tally = Tally::default();
    for path in files(CELLS, "cell") {
        let file = bytes(&path);
        for start in [&file[..], &file[..file.len() - 1], &file[..15], &[]] {
            for length in (0..=2 * file.len()).step_by(1 + file.len() / 100) {
                let answer = compare(&mut random, start, length);
                tally.count(answer.unwrap_or_else(|why| panic!("{why}: {}", hex(start))));
            }
        }
    }
    println!("sts_save, cut files: {tally}");
    tally.expect(1_000, &[0, 1, 8]);
}

/// Every byte of the short ones among the kept cells takes every value. Where the
/// file is still legal, it is another cell and is saved as other bytes.
#[test]
fn every_value_of_every_byte() {
    let mut random = Random::new(13);
    let mut tally = Tally::default();
    for path in files(CELLS, "cell") {
        let mut file = bytes(&path);
        if file.len() > 256 {
            continue;
        }
        let whole = saved::of_file(&file);
        let length = file.len() + RECORD;
        for at in 0..file.len() {
            let old = file[at];
            for byte in (0..=255).filter(|&byte| byte != old) {
                file[at] = byte;
                let told = || format!("{}, byte {at} as {byte}", path.display());
                let answer = compare(&mut random, &file, length);
                let answer = answer.unwrap_or_else(|why| panic!("{why}: {}", told()));
                if answer == 0 {
                    assert_ne!(Ok(save(&file)), whole, "{}", told());
                }
                tally.count(answer);
            }
            file[at] = old;
        }
    }
    println!("sts_save, every value of every byte: {tally}");
    tally.expect(1_000, &[0, 1, 2, 3, 4, 5]);
}

/// Files longer than any cell, which begin with the largest, in buffers as long and
/// in none.
#[test]
fn long_files() {
    let mut random = Random::new(14);
    for long in [2_449, 2_464, 4_096, 65_535, 65_536, 65_552, 1 << 20] {
        let cell = legal::largest(&mut random);
        let mut file = in_any_order(&mut random, &cell);
        file.resize(long, 0);
        for length in [0, MOST, long] {
            let answer = compare(&mut random, &file, length);
            let answer = answer.unwrap_or_else(|why| panic!("{why}: {}", hex(&file[..MOST])));
            assert_eq!(answer, Refusal::Length.number(), "{}", hex(&file[..MOST]));
        }
    }
}

/// File and buffer may start at any address.
#[test]
fn any_address() {
    let mut random = Random::new(15);
    for _ in 0..100 {
        let file = legal::layout(&mut random, 0).file;
        let expected = saved::of_file(&file).expect("a legal file");
        for (offset, other) in (0..16).flat_map(|one| (0..16).map(move |other| (one, other))) {
            let memory = [&vec![0xff; offset], &file[..]].concat();
            let mut buffer = vec![0xab; other + expected.len() + MARGIN];
            let mut length = 0;
            let answer = sts::save(&memory[offset..], &mut buffer[other..], &mut length);
            let [before, after] = [other, MARGIN].map(|count| vec![0xab; count]);
            let left = [&before, &expected[..], &after].concat();
            let told = hex(&file);
            assert_eq!((answer, length as usize), (0, expected.len()), "{told}");
            assert_eq!(buffer, left, "{told}");
        }
    }
}

/// The cells that the repository keeps; those of `cells` are in their saved form.
#[test]
fn kept_cells() {
    let mut random = Random::new(16);
    let kept = [vectors::given(), vectors::samples()].concat();
    assert!(!kept.is_empty(), "no cell is kept");
    for vector in kept {
        let answer = compare(&mut random, &vector.file, MOST);
        answer.unwrap_or_else(|why| panic!("{why}: {}", vector.path.display()));
    }
    for sample in vectors::samples() {
        assert_eq!(save(&sample.file), sample.file, "{}", sample.path.display());
    }
}
