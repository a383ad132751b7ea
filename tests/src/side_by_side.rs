//! A call on a run, made both ways: the number that comes back and every number
//! of every lent column afterwards.

use crate::functions::{Columns, TERMINAL};
use crate::refusal::Refusal;
use crate::simulator::calls::{Call, Lent};
use crate::sts;
use std::mem;

/// Numbers before, between and after the lent columns, which no call may touch.
const MARGIN: usize = 4;

/// The columns that are lent, in the order in which they lie in memory.
const NAMES: [&str; 8] = [
    "letter",
    "low",
    "high",
    "record",
    "working letter",
    "working low",
    "working high",
    "answer",
];

/// Lent columns in memory, with margins. What follows a table's columns looks
/// like one more entry, so that a call that goes too far does not notice it.
struct Memory {
    numbers: Vec<u32>,
    lengths: [usize; 8],
}

fn columns(lent: &Lent) -> [&Vec<u32>; 8] {
    let Columns { letter, low, high } = &lent.table;
    let working = &lent.working;
    [
        letter,
        low,
        high,
        &lent.record,
        &working.letter,
        &working.low,
        &working.high,
        &lent.answer,
    ]
}

impl Memory {
    fn of(lent: &Lent, margin: u32) -> Memory {
        let after = [TERMINAL, margin, 0, margin, TERMINAL, margin, 0, margin];
        let columns = columns(lent);
        let lengths = columns.map(Vec::len);
        let mut numbers = Vec::with_capacity(lengths.iter().sum::<usize>() + 9 * MARGIN);
        numbers.extend([margin; MARGIN]);
        for (column, after) in columns.into_iter().zip(after) {
            numbers.extend(column);
            numbers.extend([after; MARGIN]);
        }
        Memory { numbers, lengths }
    }

    fn lend(&mut self) -> sts::Lent<'_> {
        let mut rest = &mut self.numbers[..];
        let [letter, low, high, record, work_letter, work_low, work_high, answer] =
            self.lengths.map(|length| {
                let (column, after) = mem::take(&mut rest)[MARGIN..].split_at_mut(length);
                rest = after;
                column
            });
        sts::Lent {
            table: [letter, low, high],
            record,
            working: [work_letter, work_low, work_high],
            answer,
        }
    }

    /// Hands the table, the record and working over.
    fn give(&mut self, lent: &mut Lent) {
        let sts::Lent {
            table: [letter, low, high],
            record,
            working: [work_letter, work_low, work_high],
            ..
        } = self.lend();
        lent.table.letter.copy_from_slice(letter);
        lent.table.low.copy_from_slice(low);
        lent.table.high.copy_from_slice(high);
        lent.record.copy_from_slice(record);
        lent.working.letter.copy_from_slice(work_letter);
        lent.working.low.copy_from_slice(work_low);
        lent.working.high.copy_from_slice(work_high);
    }

    /// Where the memory is not as expected.
    fn difference(&self, expected: &Memory) -> Result<(), String> {
        if self.numbers == expected.numbers {
            return Ok(());
        }
        let pairs = self.numbers.iter().zip(&expected.numbers);
        let (mut at, (is, should)) = pairs
            .enumerate()
            .find(|(_, (is, should))| is != should)
            .expect("two memories of one length differ somewhere");
        let mut column = 0;
        while column + 1 < NAMES.len() && at >= MARGIN + self.lengths[column] {
            at -= MARGIN + self.lengths[column];
            column += 1;
        }
        Err(format!(
            "{} {} is {is}, expected {should}",
            NAMES[column],
            at as isize - MARGIN as isize
        ))
    }
}

/// Makes a call both ways; `lent` then is what it is afterwards. An error tells
/// how the two differ.
pub fn call(call: Call, file: &[u8], lent: &mut Lent) -> Result<Result<(), Refusal>, String> {
    let margin = 0xfeed_0000 ^ file.len() as u32;
    let mut memory = Memory::of(lent, margin);
    let number = sts::call_on_run(call, file, memory.lend());
    let answered = call.answer(file, lent);
    let expected = answered.map_or_else(Refusal::number, |()| 0);
    if number != expected {
        return Err(format!("answered {number}, expected {expected}"));
    }
    memory.difference(&Memory::of(lent, margin))?;
    Ok(answered)
}

/// Makes a step on the record in its column and on the same record in a struct, and
/// gives the number of both. `lent` then is what it is afterwards. An error tells how
/// the two differ.
pub fn advance(file: &[u8], lent: &mut Lent) -> Result<u32, String> {
    let margin = 0xfeed_0000 ^ file.len() as u32;
    let mut stepped = Memory::of(lent, margin);
    let number = sts::call_on_run(Call::Step, file, stepped.lend());
    let mut advanced = Memory::of(lent, margin);
    // Numbers around the struct, which the call may not touch.
    let mut held = Held {
        before: [margin; MARGIN],
        moment: sts::Moment::of(&lent.record),
        after: [margin; MARGIN],
    };
    let sts::Lent { table, working, .. } = advanced.lend();
    let in_place = sts::advance(file, table, &mut held.moment, working);
    if in_place != number {
        return Err(format!(
            "sts_advance answered {in_place}, sts_step {number}"
        ));
    }
    let sts::Lent { record, .. } = stepped.lend();
    if held.moment != sts::Moment::of(record) {
        return Err(format!(
            "sts_advance left {:?}, sts_step {record:?}",
            held.moment
        ));
    }
    if [held.before, held.after] != [[margin; MARGIN]; 2] {
        return Err("sts_advance wrote around its struct".into());
    }
    // The column of the second memory was not lent, and is as it was.
    let sts::Lent { record: column, .. } = advanced.lend();
    if column != lent.record {
        return Err("sts_advance wrote into a column that it was not lent".into());
    }
    column.copy_from_slice(record);
    advanced.difference(&stepped)?;
    stepped.give(lent);
    Ok(number)
}

#[repr(C)]
struct Held {
    before: [u32; MARGIN],
    moment: sts::Moment,
    after: [u32; MARGIN],
}
