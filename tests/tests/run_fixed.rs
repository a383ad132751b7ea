//! The order of fixing letters and running makes no difference: a cell with
//! letters beside the same cell with some of them fixed, each given a list of
//! steps and runs, refused calls among them.

use comparison::cell_file::{Cell, Layout};
use comparison::functions::{Columns, Table, FIRST, LENGTHS};
use comparison::generate::live::{self, Size};
use comparison::generate::{legal, records};
use comparison::random::Random;
use comparison::refusal::Refusal;
use comparison::replay::{hex, Cases};
use comparison::side_by_side;
use comparison::simulator::calls::{Call, Lent, ANSWER, NEXT, RECORD, TIME, USED, VALUES};
use comparison::simulator::circuit::Circuit;
use comparison::simulator::trial::Trial;
use comparison::tally::Tally;

/// What was seen.
#[derive(Default)]
struct Seen {
    all: Tally,
    /// Picoseconds at which both runs stood, by how many letters were fixed: none,
    /// some or all.
    stood: [u64; 3],
    /// Of these, where the fixed run was at another time, and where it had used
    /// fewer entries.
    earlier: u64,
    fewer: u64,
    /// Picoseconds at which the first run stood although one of its calls was
    /// refused for the length of the table, or for the ceiling.
    after_full: u64,
    after_ceiling: u64,
    /// Starts that are refused for the ceiling, and no more so with letters fixed.
    removed: u64,
}

/// A run in a table of its own.
#[derive(Clone)]
struct Run {
    cell: Cell,
    file: Vec<u8>,
    trial: Trial,
    lent: Lent,
    /// A call was refused for the length of the table, or for the ceiling.
    was_full: bool,
    was_above: bool,
}

impl Run {
    fn new(random: &mut Random, cell: Cell, states: usize) -> Run {
        let places = legal::places(random, cell.records());
        let table = Table::fresh(cell.letters);
        let trial = Trial::of(&Circuit::new(&cell), table, states);
        Run {
            file: Layout::new(&cell, &places).file,
            trial,
            cell,
            lent: Lent {
                table: Columns::default(),
                record: (0..RECORD).map(|_| random.word()).collect(),
                working: Columns::default(),
                answer: vec![0; ANSWER],
            },
            was_full: false,
            was_above: false,
        }
    }

    /// Makes a call both ways, with a working table of a legal length.
    fn call(&mut self, random: &mut Random, seen: &mut Seen, call: Call) -> Result<(), Refusal> {
        let length = records::working_length(random);
        self.lent.working = records::working(random, length);
        self.make(seen, call)
    }

    fn make(&mut self, seen: &mut Seen, call: Call) -> Result<(), Refusal> {
        let answered = side_by_side::call(call, &self.file, &mut self.lent);
        let answered =
            answered.unwrap_or_else(|why| panic!("{why}: {call:?}, {}", hex(&self.file)));
        seen.all
            .count(answered.map_or_else(Refusal::number, |()| 0));
        self.was_full |= answered == Err(Refusal::Full);
        self.was_above |= answered == Err(Refusal::Ceiling);
        answered
    }

    /// Starts the run in a fresh table.
    fn start(&mut self, random: &mut Random, seen: &mut Seen, length: usize) -> bool {
        self.lent.table = Columns::of(&FIRST, length);
        self.call(random, seen, Call::Start { used: 3 }).is_ok()
    }

    /// A list of steps and runs up to a picosecond, refused ones among them.
    fn list(&mut self, random: &mut Random, seen: &mut Seen, last: u32) {
        for _ in 0..random.between(0, 6) {
            let until = self.picosecond(random).min(last);
            let call = match random.one_in(2) {
                true if self.lent.record[TIME] < last => Call::Step,
                _ => Call::Run { until },
            };
            if random.one_in(5) {
                let length = records::working_length(random);
                self.lent.working = records::working(random, length);
                records::misfit_working(random, &mut self.lent.working);
                assert_eq!(self.make(seen, call), Err(Refusal::Buffer));
            } else {
                let _ = self.call(random, seen, call);
            }
        }
    }

    /// A picosecond about the time of one of the steps.
    fn picosecond(&self, random: &mut Random) -> u32 {
        let time = random.pick(&self.trial.moments).time;
        match random.below(5) {
            0 => time.saturating_sub(1),
            1 => time + 1,
            2 => random.spread(0, self.cell.horizon + 1),
            _ => time,
        }
    }

    /// The run stands at a picosecond.
    fn stands(&self, random: &mut Random, seen: &mut Seen, at: u32) -> bool {
        let mut next = self.clone();
        let ran = next.call(random, seen, Call::Run { until: at });
        self.lent.record[TIME] <= at && ran.is_ok() && next.lent.record == self.lent.record
    }

    /// All values and next changes, by node and pattern.
    fn numbers(&self) -> Vec<Vec<u32>> {
        let Lent { table, record, .. } = &self.lent;
        let table = Table::read(table, record[USED], self.cell.letters).expect("a sound table");
        let nodes = self.cell.nodes.len();
        let entries = record[VALUES..][..nodes].iter();
        let entries = entries.chain(&record[NEXT..][..nodes]);
        let function = |&entry| table.function(entry).expect("an entry of the table");
        entries.map(function).collect()
    }

    /// The answer to a question.
    fn ask(&mut self, seen: &mut Seen, node: usize, pattern: usize) -> Vec<u32> {
        let (node, pattern) = (node as u32, pattern as u32);
        let asked = self.make(seen, Call::Ask { node, pattern });
        assert_eq!(asked, Ok(()), "node {node}, pattern {pattern}");
        self.lent.answer.clone()
    }
}

/// Letters and the bits that they are fixed at.
fn fixing(random: &mut Random, letters: u32) -> Vec<(u8, bool)> {
    let mut all: Vec<u8> = (0..letters as u8).collect();
    random.shuffle(&mut all);
    let count = match random.below(4) {
        0 => 0,
        1 => all.len(),
        _ => random.index(all.len() + 1),
    };
    let bits = all.into_iter().take(count);
    bits.map(|letter| (letter, random.one_in(2))).collect()
}

/// The pattern with the fixed bits set.
fn fixed_pattern(pattern: usize, fixing: &[(u8, bool)]) -> usize {
    fixing.iter().fold(pattern, |pattern, &(letter, bit)| {
        pattern & !(1 << letter) | usize::from(bit) << letter
    })
}

/// Two runs, and the picoseconds at which they are compared.
fn compare(seed: u64, index: u64, seen: &mut Seen) {
    let random = &mut Random::of_case(seed, index);
    let size = random.pick(&[
        Size::Small,
        Size::Small,
        Size::Small,
        Size::Middle,
        Size::Dense,
    ]);
    let letters = match random.one_in(50) {
        true => random.between(6, 8),
        false => random.between(1, 5),
    };
    let cell = live::cell(random, size, letters);
    let fixing = fixing(random, letters);
    let fix = |cell: Cell, &(letter, bit): &(u8, bool)| cell.fixed(letter, bit);
    let fixed = fixing.iter().fold(cell.clone(), fix);
    let mut first = Run::new(random, cell, 600);
    let mut second = Run::new(random, fixed, 2_000);
    let last = first.trial.last().min(second.trial.last());

    let need = random.pick(&first.trial.moments).used;
    let length = match random.below(4) {
        0 => need - 1,
        1 => need,
        2 => 4_096,
        _ => need + random.index(30),
    };
    let length = length.clamp(*LENGTHS.start(), *LENGTHS.end());
    // A refused start leaves no run. Fixing letters may remove the refusal.
    if !first.start(random, seen, length) {
        let removed = first.was_above && second.start(random, seen, length);
        seen.removed += u64::from(removed);
        return;
    }
    let case = format!("seed {seed} index {index}, {fixing:?}, length {length}");
    let fresh = second.clone();
    assert!(second.start(random, seen, length), "the start: {case}");
    first.list(random, seen, last);
    second.list(random, seen, last);
    if random.one_in(2) {
        let until = first.picosecond(random).min(last);
        let _ = first.call(random, seen, Call::Run { until });
        let _ = second.call(random, seen, Call::Run { until });
    }

    let now = [&first, &second].map(|run| run.lent.record[TIME]);
    for at in [
        now[0],
        now[1],
        first.picosecond(random),
        second.picosecond(random),
    ] {
        let at = at.min(last);
        if !first.stands(random, seen, at) {
            continue;
        }
        not_refused(random, seen, fresh.clone(), length, at, &case);
        seen.after_full += u64::from(first.was_full);
        seen.after_ceiling += u64::from(first.was_above);
        if second.stands(random, seen, at) {
            same(random, seen, &mut first, &mut second, &fixing, &case);
        }
    }
}

/// Running the fixed cell up to a picosecond is not refused, in one run or step by
/// step.
fn not_refused(
    random: &mut Random,
    seen: &mut Seen,
    mut run: Run,
    length: usize,
    at: u32,
    case: &str,
) {
    assert!(run.start(random, seen, length), "the start: {case}");
    let mut steps = run.clone();
    let ran = run.call(random, seen, Call::Run { until: at });
    assert_eq!(ran, Ok(()), "a run up to {at}: {case}");
    for _ in 0..run.trial.between(0, at) {
        let stepped = steps.call(random, seen, Call::Step);
        assert_eq!(stepped, Ok(()), "a step up to {at}: {case}");
    }
    assert_eq!(steps.lent.record, run.lent.record, "up to {at}: {case}");
    assert_eq!(steps.lent.table, run.lent.table, "up to {at}: {case}");
}

/// Every wire of the fixed run is what it is in the first with the letters fixed.
fn same(
    random: &mut Random,
    seen: &mut Seen,
    first: &mut Run,
    second: &mut Run,
    fixing: &[(u8, bool)],
    case: &str,
) {
    let (with, fixed) = (first.numbers(), second.numbers());
    for (place, (with, fixed)) in with.iter().zip(&fixed).enumerate() {
        for (pattern, &number) in fixed.iter().enumerate() {
            let expected = with[fixed_pattern(pattern, fixing)];
            assert_eq!(number, expected, "place {place} at {pattern}: {case}");
        }
    }
    for _ in 0..2 {
        let node = random.index(2 + first.cell.nodes.len());
        let pattern = random.index(1 << first.cell.letters);
        let expected = first.ask(seen, node, fixed_pattern(pattern, fixing));
        let answer = second.ask(seen, node, pattern);
        assert_eq!(answer, expected, "node {node} at {pattern}: {case}");
    }
    let kind = match fixing.len() {
        0 => 0,
        count if count < first.cell.letters as usize => 1,
        _ => 2,
    };
    seen.stood[kind] += 1;
    let [one, other] = [first, second].map(|run| &run.lent.record);
    seen.earlier += u64::from(one[TIME] != other[TIME]);
    seen.fewer += u64::from(other[USED] < one[USED]);
}

#[test]
fn fixing_and_running() {
    let cases = Cases::first(2_500);
    let mut seen = Seen::default();
    cases.for_each_index(|seed, index| compare(seed, index, &mut seen));
    let Seen {
        all,
        stood,
        earlier,
        fewer,
        after_full,
        after_ceiling,
        removed,
    } = &seen;
    println!("fixing and running: {all}");
    println!("fixing and running: both stood with none, some and all fixed {stood:?}");
    println!("fixing and running: at another time {earlier}, with fewer entries {fewer}");
    println!("fixing and running: stood after a full table {after_full}");
    println!("fixing and running: stood after the ceiling {after_ceiling}, removed {removed}");
    if cases.complete {
        all.expect(300, &[0, 6, 8, 10]);
        all.expect(100, &[11]);
        assert!(stood.iter().all(|&count| count >= 500), "{stood:?}");
        assert!(*earlier >= 100, "at another time {earlier}");
        assert!(*fewer >= 500, "with fewer entries {fewer}");
        assert!(*after_full >= 100, "after a full table {after_full}");
        assert!(*after_ceiling >= 20, "after the ceiling {after_ceiling}");
        assert!(*removed >= 8, "removed {removed}");
    }
}
