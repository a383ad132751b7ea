//! A run by the tool: the two calls, and what is lent to them.

use comparison::cell_file::{Cell, Layout};
use comparison::functions::{Columns, FIRST, LENGTHS};
use comparison::simulator::calls::{Call, RECORD};
use comparison::sts;

/// A run by the tool in the longest table.
pub struct Tool {
    file: Vec<u8>,
    horizon: u32,
    working: Columns,
    pub table: Columns,
    pub record: Vec<u32>,
}

impl Tool {
    /// A run that is lent a working table of this length.
    pub fn new(cell: &Cell, working: usize) -> Tool {
        Tool {
            file: Layout::in_order(cell).file,
            horizon: cell.horizon,
            working: Columns::of(&[], working),
            table: Columns::default(),
            record: vec![0; RECORD],
        }
    }

    /// Lends the next run a fresh table.
    pub fn renew(&mut self) {
        self.table = Columns::of(&FIRST, *LENGTHS.end());
    }

    fn call(&mut self, call: Call) -> u32 {
        let lent = sts::Lent {
            table: self.table.each_mut().map(Vec::as_mut_slice),
            record: &mut self.record,
            working: self.working.each_mut().map(Vec::as_mut_slice),
            answer: &mut [],
        };
        sts::call_on_run(call, &self.file, lent)
    }

    /// Starts a run in a fresh table and runs it to the horizon; gives the answer.
    pub fn run(&mut self) -> u32 {
        let used = FIRST.len() as u32;
        match self.call(Call::Start { used }) {
            0 => self.call(Call::Run {
                until: self.horizon,
            }),
            refused => refused,
        }
    }
}
