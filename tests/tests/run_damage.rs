//! The calls on a run with one thing wrong: every place of the record, every
//! number of the table, every length and every byte of the file, one after the
//! other.

use comparison::cell_file::{Cell, Layout, Source, FIRST_NODE};
use comparison::draft::Draft;
use comparison::fights;
use comparison::functions::{Columns, Table, FIRST, LENGTHS};
use comparison::generate::live::{self, Size};
use comparison::generate::records;
use comparison::random::Random;
use comparison::refusal::Refusal;
use comparison::replay::hex;
use comparison::side_by_side;
use comparison::simulator::calls::{Call, Lent, ANSWER, RECORD, TIME, USED, WORKING};
use comparison::simulator::circuit::Circuit;
use comparison::simulator::trial::Trial;
use comparison::tally::Tally;

/// A run somewhere on its way.
struct Way {
    cell: Cell,
    file: Vec<u8>,
    lent: Lent,
}

impl Way {
    /// Starts a cell and takes some steps; there is room for a few entries more.
    fn new(cell: Cell, steps: usize) -> Way {
        Way::by(cell, &vec![Call::Step; steps])
    }

    /// Starts a cell and takes all steps before a time.
    fn before(cell: Cell, time: u32) -> Way {
        Way::by(cell, &[Call::Run { until: time - 1 }])
    }

    fn by(cell: Cell, calls: &[Call]) -> Way {
        let file = Layout::in_order(&cell).file;
        let mut lent = Lent {
            table: Columns::of(&FIRST, *LENGTHS.end()),
            record: vec![0; RECORD],
            working: Columns::of(&[], *WORKING.start()),
            answer: vec![1; ANSWER],
        };
        let mut take = |call: Call| {
            let answered = call.answer(&file, &mut lent);
            assert_eq!(answered, Ok(()), "{call:?} of {}", hex(&file));
        };
        take(Call::Start { used: 3 });
        calls.iter().for_each(|&call| take(call));
        let used = lent.record[USED] as usize;
        lent.table = Columns::of(&lent.table.entries(used), used + 40);
        Way { cell, file, lent }
    }

    fn used(&self) -> u32 {
        self.lent.record[USED]
    }

    /// A call of each kind.
    fn calls(&self) -> [Call; 4] {
        let until = self.lent.record[TIME] + 1;
        let node = FIRST_NODE as u32;
        [
            Call::Start { used: self.used() },
            Call::Step,
            Call::Run { until },
            Call::Ask { node, pattern: 0 },
        ]
    }

    /// Makes a call on what is given, which may be damaged.
    fn make(&self, tally: &mut Tally, call: Call, lent: &Lent, what: &str) {
        self.make_with(tally, call, &self.file, lent, what);
    }

    fn make_with(&self, tally: &mut Tally, call: Call, file: &[u8], lent: &Lent, what: &str) {
        let answered = side_by_side::call(call, file, &mut lent.clone());
        let answered = answered.unwrap_or_else(|why| {
            let Lent { table, record, .. } = lent;
            let entries = table.entries(table.letter.len().min(self.used() as usize));
            panic!(
                "{why}: {what}, {call:?}, file {}, record {record:?}, {entries:?}",
                hex(file)
            )
        });
        tally.count(answered.map_or_else(Refusal::number, |()| 0));
    }
}

/// An inverter that drives another one through a channel; all of it moves.
fn small() -> Cell {
    let mut draft = Draft::new(2, 400);
    let input = draft.input(Source::Letter(0));
    let select = draft.input(Source::NotLetter(1));
    let [a, b, c] = [20, 30, 10].map(|fat| draft.inner(fat, Source::Letter(1)));
    draft.inverter(input, a, 1_000);
    draft.n(select, [a, b], 2_000);
    draft.inverter(b, c, 1_000);
    draft.at(50, input, Source::NotLetter(0));
    draft.at(60, select, Source::High);
    draft.finish()
}

/// Ways through cells of all sizes, the largest among them.
fn ways() -> Vec<Way> {
    let mut ways: Vec<Way> = [0, 1, 3].map(|steps| Way::new(small(), steps)).into();
    // Fights before the step that is above the ceiling, and before one that would be so
    // if a value of the record were another.
    let fight = fights::with_letters(fights::ABOVE[0], fights::OPENS);
    for cell in [fight, fights::off().cell] {
        ways.push(Way::before(cell, fights::OPENS));
    }
    let mut random = Random::new(41);
    for size in [Size::Small, Size::Middle, Size::Dense] {
        // Cells that move, in tables that are not too long to be gone through.
        let drawn = (0..).map(|_| live::cell(&mut random, size, 3));
        let moving = drawn.filter(|cell| {
            let trial = Trial::of(&Circuit::new(cell), Table::fresh(3), 100);
            let full = size != Size::Dense || cell.nodes.len() == 24;
            full && trial.moments.len() > 4 && trial.moments[4].used < 150
        });
        ways.extend(moving.take(2).map(|cell| Way::new(cell, 3)));
    }
    ways
}

#[test]
fn every_place_of_the_record() {
    let mut tally = Tally::default();
    for way in ways() {
        let used = way.used();
        let horizon = way.cell.horizon;
        for at in 0..RECORD {
            let old = way.lent.record[at];
            let mut numbers: Vec<u32> = (0..used.min(60) + 2).collect();
            numbers.extend([
                used - 1,
                used,
                used + 1,
                old.wrapping_add(1),
                old.wrapping_sub(1),
            ]);
            numbers.extend([horizon - 1, horizon, horizon + 1, u32::MAX - 1, u32::MAX]);
            for number in numbers {
                let mut lent = way.lent.clone();
                lent.record[at] = number;
                let what = format!("record {at} as {number}");
                for call in way.calls() {
                    way.make(&mut tally, call, &lent, &what);
                }
            }
        }
    }
    println!("every place of the record: {tally}");
    tally.expect(1_000, &[0, 7]);
    tally.expect(100, &[11]);
}

#[test]
fn every_number_of_the_table() {
    let mut tally = Tally::default();
    for way in ways() {
        let used = way.used();
        for at in 0..used + 2 {
            for column in 0..3 {
                let old = way.lent.table.clone().each_mut()[column][at as usize];
                let near = [0, 1, 2, 3, at - at.min(1), at, at + 1, u32::MAX, 2, 4];
                let numbers = near
                    .into_iter()
                    .chain([old.wrapping_add(1), old.wrapping_sub(1)]);
                for number in numbers {
                    let mut lent = way.lent.clone();
                    lent.table.each_mut()[column][at as usize] = number;
                    let what = format!("column {column} entry {at} as {number}");
                    for call in way.calls() {
                        way.make(&mut tally, call, &lent, &what);
                    }
                }
            }
        }
    }
    println!("every number of the table: {tally}");
    tally.expect(1_000, &[0, 7]);
    tally.expect(10, &[11]);
}

/// The column of this number: the table's, the record, the working table's and the
/// answer.
fn column(lent: &mut Lent, number: usize) -> &mut Vec<u32> {
    let [letter, low, high] = lent.table.each_mut();
    let [work_letter, work_low, work_high] = lent.working.each_mut();
    match number {
        0 => letter,
        1 => low,
        2 => high,
        3 => &mut lent.record,
        4 => work_letter,
        5 => work_low,
        6 => work_high,
        _ => &mut lent.answer,
    }
}

#[test]
fn every_length() {
    let mut random = Random::new(42);
    let mut tally = Tally::default();
    for way in ways() {
        // Each column alone, the three of the table, and the three of working.
        for columns in [0..1, 1..2, 2..3, 3..4, 4..5, 5..6, 6..7, 7..8, 0..3, 4..7] {
            let right = column(&mut way.lent.clone(), columns.start).len();
            for length in [
                0,
                1,
                2,
                3,
                49,
                50,
                51,
                right - 1,
                right + 1,
                4_095,
                4_096,
                4_097,
                65_535,
                65_536,
                65_537,
            ] {
                let mut lent = way.lent.clone();
                for number in columns.clone() {
                    column(&mut lent, number).resize(length, 0);
                }
                if random.one_in(2) {
                    let length = lent.working.letter.len();
                    let lengths = lent.working.lengths();
                    let garbage = records::working(&mut random, length);
                    if lengths == [length; 3] {
                        lent.working = garbage;
                    }
                }
                let what = format!("columns {columns:?} of {length}");
                for call in way.calls() {
                    way.make(&mut tally, call, &lent, &what);
                }
            }
        }
    }
    println!("every length: {tally}");
    tally.expect(500, &[0, 8]);
    tally.expect(10, &[11]);
}

#[test]
fn every_byte_of_the_file() {
    let mut tally = Tally::default();
    for way in ways() {
        for at in 0..way.file.len() {
            let old = way.file[at];
            for byte in [0, 1, 2, 3, 255, old.wrapping_add(1), old ^ 128] {
                let mut file = way.file.clone();
                file[at] = byte;
                let what = format!("byte {at} as {byte}");
                // A step from a record that fits, and a start.
                for call in [way.calls()[at % 2], way.calls()[2 + at / 2 % 2]] {
                    way.make_with(&mut tally, call, &file, &way.lent, &what);
                }
            }
        }
        for length in 0..way.file.len() + 20 {
            let mut file = way.file.clone();
            file.resize(length, 0);
            let call = way.calls()[length % 4];
            way.make_with(&mut tally, call, &file, &way.lent, "another length");
        }
    }
    println!("every byte of the file: {tally}");
    tally.expect(500, &[0, 1, 2, 3, 4]);
    tally.expect(100, &[11]);
}

#[test]
fn every_used_count() {
    let mut tally = Tally::default();
    for way in ways() {
        let length = way.lent.table.letter.len() as u32;
        for used in (0..length + 3).chain([65_535, 65_536, 65_537, u32::MAX - 1, u32::MAX]) {
            let mut lent = way.lent.clone();
            lent.record[USED] = used;
            let what = format!("a used count of {used}");
            way.make(&mut tally, Call::Start { used }, &lent, &what);
            way.make(&mut tally, Call::Step, &lent, &what);
            way.make(&mut tally, way.calls()[3], &lent, &what);
        }
    }
    println!("every used count: {tally}");
    tally.expect(10, &[0]);
    tally.expect(500, &[7]);
}

#[test]
fn every_question() {
    let mut tally = Tally::default();
    for way in ways() {
        let patterns = 1 << way.cell.letters;
        let far = [63, 64, 4_095, 4_096, 65_536, u32::MAX - 1, u32::MAX];
        for node in (0..30).chain(far) {
            for pattern in (0..patterns + 3).chain(far) {
                let call = Call::Ask { node, pattern };
                way.make(&mut tally, call, &way.lent, "a question");
            }
        }
    }
    println!("every question: {tally}");
    tally.expect(500, &[0, 9]);
}
