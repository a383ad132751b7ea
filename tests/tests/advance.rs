//! A step on a record in a struct against the same step on the record in its
//! column: the number that comes back, the record, and every number of the table
//! and of working afterwards.

use comparison::cell_file::Layout;
use comparison::functions::{Columns, FIRST};
use comparison::generate::faults::{Fault, Given};
use comparison::generate::live::{self, Size};
use comparison::generate::records;
use comparison::random::Random;
use comparison::replay::{hex, Cases};
use comparison::side_by_side;
use comparison::simulator::calls::{Call, Lent, ANSWER, RECORD};
use comparison::tally::Tally;

/// The faults that a call on a struct can have: its record has one length.
const FAULTS: [Fault; 6] = [
    Fault::TableLengths,
    Fault::WorkingLengths,
    Fault::File,
    Fault::OtherCell,
    Fault::Record,
    Fault::Table,
];

/// How many steps are taken of a cell at most.
const STEPS: usize = 12;

/// Takes a cell through its steps, with something wrong now and then. What is
/// wrong is tried on a copy, and the run goes on with what was right.
fn steps(seed: u64, index: u64, tally: &mut Tally) {
    let mut random = Random::of_case(seed, index);
    let size = random.pick(&[Size::Small, Size::Small, Size::Middle]);
    let letters = random.between(0, 3);
    let cell = live::cell(&mut random, size, letters);
    let length = random.spread(30, 3_000) as usize;
    let mut given = Given {
        call: Call::Start { used: 3 },
        layout: Layout::in_order(&cell),
        lent: Lent {
            table: Columns::of(&FIRST, length),
            record: (0..RECORD).map(|_| random.word()).collect(),
            working: records::working(&mut random, 4_096),
            answer: vec![0; ANSWER],
        },
    };
    if given
        .call
        .answer(&given.layout.file, &mut given.lent)
        .is_err()
    {
        return;
    }
    given.call = Call::Step;
    for number in 0..STEPS {
        let working = records::working_length(&mut random);
        given.lent.working = records::working(&mut random, working);
        // Places past the node records are not looked at.
        let nodes = cell.nodes.len();
        for at in (2 + nodes..26).chain(26 + nodes..RECORD) {
            given.lent.record[at] = random.word();
        }
        if random.one_in(2) {
            let fault = random.pick(&FAULTS);
            let mut made = given.clone();
            made.spoil(&mut random, &cell, fault);
            make(&mut made, tally, || {
                format!("seed {seed} index {index} step {number} with {fault:?}")
            });
        }
        let answer = make(&mut given, tally, || {
            format!("seed {seed} index {index} step {number}")
        });
        if answer != 0 {
            return;
        }
    }
}

fn make(given: &mut Given, tally: &mut Tally, case: impl Fn() -> String) -> u32 {
    let file = &given.layout.file;
    let record = given.lent.record.clone();
    let answer = side_by_side::advance(file, &mut given.lent).unwrap_or_else(|why| {
        let lengths = given.lent.table.lengths();
        let file = hex(file);
        panic!(
            "{why}: {}, lengths {lengths:?}, record {record:?}, file {file}",
            case()
        )
    });
    tally.count(answer);
    answer
}

#[test]
fn as_the_column() {
    let cases = Cases::first(3_000);
    let mut tally = Tally::default();
    cases.for_each_index(|seed, index| steps(seed, index, &mut tally));
    println!("steps on a struct: {tally}");
    if cases.complete {
        tally.expect(20, &[0, 1, 2, 3, 4, 5, 6, 7, 8, 10, 11]);
    }
}
