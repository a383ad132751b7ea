//! The calls that start a run, advance it and ask about it: every answer and
//! refusal, and what each lent column holds afterwards.

use super::circuit::Circuit;
use super::pattern::State;
use super::run::{Run, Stored};
use crate::cell_file::{parse, Cell, FIRST_NODE, NODES};
use crate::functions::{Columns, Table, LENGTHS, NEVER};
use crate::refusal::Refusal;
use std::ops::RangeInclusive;

/// How many numbers a run record has.
pub const RECORD: usize = 2 + 2 * MOST_NODES;
/// Where the time, the used count, and the first value and next change stand.
pub const TIME: usize = 0;
pub const USED: usize = 1;
pub const VALUES: usize = 2;
pub const NEXT: usize = VALUES + MOST_NODES;

/// The most node records of a cell.
pub const MOST_NODES: usize = *NODES.end() as usize;

/// How many numbers an answer has: a value and a next change.
pub const ANSWER: usize = 2;

/// The lengths that a working table may have.
pub const WORKING: RangeInclusive<usize> = 4_096..=65_536;

/// What is lent to a call beside the file. A call looks at what concerns it.
#[derive(Clone, Debug, Default, PartialEq, Eq)]
pub struct Lent {
    pub table: Columns,
    pub record: Vec<u32>,
    pub working: Columns,
    pub answer: Vec<u32>,
}

/// A call on a run.
#[derive(Clone, Copy, Debug, PartialEq, Eq)]
pub enum Call {
    /// Starts a run in a table with this used count.
    Start { used: u32 },
    /// Takes one step.
    Step,
    /// Takes every step not later than this.
    Run { until: u32 },
    /// Asks for a node's value and next change at a pattern.
    Ask { node: u32, pattern: u32 },
}

impl Call {
    /// Answers the call or refuses it. Refused, it leaves all but the working
    /// table alone.
    pub fn answer(self, file: &[u8], lent: &mut Lent) -> Result<(), Refusal> {
        self.check_lengths(lent)?;
        if self.works() {
            lent.working.clear();
        }
        let cell = parse(file)?;
        let circuit = Circuit::new(&cell);
        match self {
            Call::Start { used } => start(&circuit, used, lent),
            Call::Step => step(&circuit, lent),
            Call::Run { until } => run(&circuit, until, lent),
            Call::Ask { node, pattern } => ask(&circuit, node, pattern, lent),
        }
    }

    /// The call is lent a working table; else it is lent an answer.
    pub fn works(self) -> bool {
        !matches!(self, Call::Ask { .. })
    }

    fn check_lengths(self, lent: &Lent) -> Result<(), Refusal> {
        let beside = match self.works() {
            true => fits(&lent.working, &WORKING),
            false => lent.answer.len() == ANSWER,
        };
        match fits(&lent.table, &LENGTHS) && lent.record.len() == RECORD && beside {
            true => Ok(()),
            false => Err(Refusal::Buffer),
        }
    }
}

/// The columns have one length, and it is one of these.
fn fits(columns: &Columns, lengths: &RangeInclusive<usize>) -> bool {
    let [letter, low, high] = columns.lengths();
    letter == low && low == high && lengths.contains(&letter)
}

fn start(circuit: &Circuit, used: u32, lent: &mut Lent) -> Result<(), Refusal> {
    let mut table = read_table(circuit.cell, used, lent)?;
    // Whether an arm is above the ceiling comes before whether the table is full.
    let run = Run::start(circuit)?;
    let mut stored = Stored::default();
    keep(&run, circuit, &mut stored, &mut table, lent)?;
    write(&run, &stored, &table, lent);
    Ok(())
}

fn step(circuit: &Circuit, lent: &mut Lent) -> Result<(), Refusal> {
    let (mut table, mut run, mut stored) = read_run(circuit, lent)?;
    let time = run.next_time(circuit).ok_or(Refusal::Finished)?;
    run.step(circuit, time)?;
    keep(&run, circuit, &mut stored, &mut table, lent)?;
    write(&run, &stored, &table, lent);
    Ok(())
}

fn run(circuit: &Circuit, until: u32, lent: &mut Lent) -> Result<(), Refusal> {
    let (mut table, mut run, mut stored) = read_run(circuit, lent)?;
    while let Some(time) = run.next_time(circuit).filter(|&time| time <= until) {
        run.step(circuit, time)?;
        keep(&run, circuit, &mut stored, &mut table, lent)?;
    }
    write(&run, &stored, &table, lent);
    Ok(())
}

fn ask(circuit: &Circuit, node: u32, pattern: u32, lent: &mut Lent) -> Result<(), Refusal> {
    let (_, run, _) = read_run(circuit, lent)?;
    let state = run.states.get(pattern as usize);
    let value = state.and_then(|state| state.values.get(node as usize));
    let next = state.and_then(|state| state.next.get(node as usize));
    let (&value, &next) = value.zip(next).ok_or(Refusal::Question)?;
    lent.answer = vec![u32::from(value), next];
    Ok(())
}

/// The table that is lent, for the cell's letters.
fn read_table(cell: &Cell, used: u32, lent: &Lent) -> Result<Table, Refusal> {
    Table::read(&lent.table, used, cell.letters).map_err(|_| Refusal::Unsound)
}

/// The run that is lent, if it and its table are sound together.
pub fn read_run(circuit: &Circuit, lent: &Lent) -> Result<(Table, Run, Stored), Refusal> {
    let table = read_table(circuit.cell, lent.record[USED], lent)?;
    let now = lent.record[TIME];
    let horizon = circuit.cell.horizon;
    if now > horizon {
        return Err(Refusal::Unsound);
    }
    let mut run = Run {
        now,
        states: vec![State::blank(circuit); circuit.patterns()],
    };
    let mut stored = Stored::default();
    for node in circuit.records() {
        let entry = lent.record[VALUES + node - FIRST_NODE];
        let function = function(&table, entry, |number| number <= 1)?;
        for (state, &number) in run.states.iter_mut().zip(&function) {
            state.values[node] = number == 1;
        }
        stored.entries.push(entry);
        stored.functions.push(function);
    }
    for node in circuit.records() {
        let entry = lent.record[NEXT + node - FIRST_NODE];
        let inner = circuit.is_inner(node);
        let allowed = |time| time == NEVER || inner && now < time && time <= horizon;
        let function = function(&table, entry, allowed)?;
        for (state, &time) in run.states.iter_mut().zip(&function) {
            state.next[node] = time;
        }
        stored.entries.push(entry);
        stored.functions.push(function);
    }
    Ok((table, run, stored))
}

/// The function of an entry, if there is one and all its numbers are allowed.
fn function(table: &Table, entry: u32, allowed: impl Fn(u32) -> bool) -> Result<Vec<u32>, Refusal> {
    let function = table.function(entry).map_err(|_| Refusal::Unsound)?;
    match function.iter().all(|&number| allowed(number)) {
        true => Ok(function),
        false => Err(Refusal::Unsound),
    }
}

/// Stores a run after its start or a step, unless the table is too short for it.
fn keep(
    run: &Run,
    circuit: &Circuit,
    stored: &mut Stored,
    table: &mut Table,
    lent: &Lent,
) -> Result<(), Refusal> {
    stored.update(run, circuit, table);
    match table.entries().len() <= lent.table.letter.len() {
        true => Ok(()),
        false => Err(Refusal::Full),
    }
}

/// Writes the run record and the entries of the table.
fn write(run: &Run, stored: &Stored, table: &Table, lent: &mut Lent) {
    let entries = table.entries();
    for (at, &entry) in entries.iter().enumerate() {
        lent.table.put(at, entry);
    }
    let (values, next) = stored.entries.split_at(stored.entries.len() / 2);
    lent.record.fill(0);
    lent.record[TIME] = run.now;
    lent.record[USED] = entries.len() as u32;
    lent.record[VALUES..][..values.len()].copy_from_slice(values);
    lent.record[NEXT..][..next.len()].copy_from_slice(next);
}
