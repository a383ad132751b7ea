//! The calls on a run need no more stack than `include/sts.h` says.

use comparison::cell_file::Layout;
use comparison::designs;
use comparison::functions::{Columns, FIRST, LENGTHS};
use comparison::side_by_side;
use comparison::simulator::calls::{Call, Lent, ANSWER, RECORD, WORKING};
use std::thread;

/// The stack that the calls need at most.
const STACK: usize = 2 << 20;

/// What the second implementation needs beside them.
const BESIDE: usize = 64 << 10;

/// Every call on a cell with the most nodes, transistors and letters, with the
/// longest tables and with the shortest working table.
#[test]
fn little_stack() {
    let calls = || {
        let cell = designs::dense(1, 8, 12);
        assert_eq!(cell.header()[..4], [24, 64, 8, 12]);
        let file = Layout::in_order(&cell).file;
        for working in [*WORKING.end(), *WORKING.start()] {
            let mut lent = Lent {
                table: Columns::of(&FIRST, *LENGTHS.end()),
                record: vec![0; RECORD],
                working: Columns::of(&[], working),
                answer: vec![0; ANSWER],
            };
            for call in [
                Call::Start { used: 3 },
                Call::Step,
                Call::Run { until: 8 },
                Call::Ask {
                    node: 25,
                    pattern: 4_095,
                },
            ] {
                let answered = side_by_side::call(call, &file, &mut lent);
                assert_eq!(answered, Ok(Ok(())), "{call:?}");
            }
        }
    };
    let thread = thread::Builder::new().stack_size(STACK + BESIDE);
    let thread = thread.spawn(calls).expect("a thread starts");
    thread.join().expect("all calls agree");
}
