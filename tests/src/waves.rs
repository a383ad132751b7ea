//! What the programs `waves` and `vectors` print.

use crate::cell_file::{parse, Cell, FIRST_NODE};
use crate::functions::{self, Call as Operate, Columns, Operation, FIRST};
use crate::listing::cell_line;
use crate::refusal::Refusal;
use crate::simulator::calls::{Call, Lent, RECORD, TIME, USED, VALUES};
use std::ops::RangeInclusive;

/// The length of the table of `waves` without an argument, and of both programs' working table.
pub const LENGTH: usize = 4_096;

/// The lengths that a table may have.
const LENGTHS: RangeInclusive<usize> = 3..=65_536;

/// All that `waves` prints of a file.
pub fn of_file(file: &[u8]) -> String {
    in_table(file, LENGTH)
}

/// What `waves` lists after the start.
pub fn after_start(file: &[u8]) -> Vec<String> {
    let listing = of_file(file);
    let lines = listing.lines().skip(1);
    lines
        .skip_while(|line| line.starts_with("0 "))
        .map(str::to_owned)
        .collect()
}

/// The listing of a run in a table of this length.
pub fn in_table(file: &[u8], length: usize) -> String {
    let mut text = String::new();
    if let Err(refusal) = list(file, length, &mut text) {
        text += &format!("{refusal}\n");
    }
    text
}

/// All that `vectors` prints for these arguments: table lengths, and names of files
/// that `read` gives.
pub fn of_names<'a>(
    arguments: impl IntoIterator<Item = &'a str>,
    read: impl Fn(&str) -> Option<Vec<u8>>,
) -> String {
    let mut length = LENGTH;
    let mut text = String::new();
    for argument in arguments {
        match table_length(argument) {
            Some(number) => length = number,
            None => {
                text += &format!("{argument} {length}\n");
                text += &match read(argument) {
                    Some(file) => in_table(&file, length),
                    None => "no such file\n".to_owned(),
                };
            }
        }
    }
    text
}

/// The table length that an argument tells, if it is digits alone and one.
fn table_length(argument: &str) -> Option<usize> {
    let digits = argument.bytes().all(|byte| byte.is_ascii_digit());
    let number = argument.parse().ok().filter(|_| digits);
    number.filter(|number| LENGTHS.contains(number))
}

/// Lists the run until it is finished; a refusal breaks it off.
fn list(file: &[u8], length: usize, text: &mut String) -> Result<(), Refusal> {
    let cell = parse(file)?;
    *text += &cell_line(&cell);
    let mut lent = Lent {
        table: Columns::of(&[], length),
        record: vec![0; RECORD],
        working: Columns::of(&[], LENGTH),
        answer: Vec::new(),
    };
    functions::fresh(&mut lent.table)?;
    let used = FIRST.len() as u32;
    Call::Start { used }.answer(file, &mut lent)?;
    lines(&cell, &lent, text, |_| true)?;
    let mut steps = 0;
    loop {
        let before = lent.record.clone();
        match Call::Step.answer(file, &mut lent) {
            Err(Refusal::Finished) => break,
            answered => answered?,
        }
        steps += 1;
        lines(&cell, &lent, text, |at| lent.record[at] != before[at])?;
    }
    *text += &format!("end {} {steps}\n", lent.record[TIME]);
    Ok(())
}

/// A line for each node whose place in the record is to be listed.
fn lines(
    cell: &Cell,
    lent: &Lent,
    text: &mut String,
    listed: impl Fn(usize) -> bool,
) -> Result<(), Refusal> {
    for number in 0..cell.nodes.len() {
        let at = VALUES + number;
        if listed(at) {
            let high = patterns_high(cell, lent, lent.record[at])?;
            let time = lent.record[TIME];
            *text += &format!("{time} {} {high}\n", FIRST_NODE + number);
        }
    }
    Ok(())
}

/// The number of patterns at which a function is 1.
fn patterns_high(cell: &Cell, lent: &Lent, function: u32) -> Result<u32, Refusal> {
    let count = Operate {
        letters: cell.letters,
        used: lent.record[USED],
        operation: Operation::Count { function },
    };
    let answer = count.answer(&mut lent.table.clone())?;
    Ok(answer.result)
}
