//! The calls that start a run, advance it and ask about it, against the second
//! implementation: the number that comes back, and every number of the table, the
//! record, the working table and the answer afterwards.

use comparison::cell_file::{parse, Cell, Layout, FIRST_NODE};
use comparison::designs;
use comparison::functions::{Columns, Entry, Table, FIRST, LENGTHS, TERMINAL};
use comparison::generate::faults::{Fault, Given};
use comparison::generate::live::{self, Size};
use comparison::generate::{calls, functions as tables, legal, records};
use comparison::program::{bytes, files};
use comparison::random::Random;
use comparison::refusal::Refusal;
use comparison::replay::{hex, Cases};
use comparison::rows;
use comparison::side_by_side;
use comparison::simulator::calls::{
    read_run, Call, Lent, ANSWER, RECORD, TIME, USED, VALUES, WORKING,
};
use comparison::simulator::circuit::Circuit;
use comparison::simulator::trial::Trial;
use comparison::sts;
use comparison::tally::Tally;
use comparison::vectors::CELLS;
use std::collections::{BTreeMap, BTreeSet};
use std::fmt;

type Answered = Result<(), Refusal>;

/// What was seen in some comparisons.
#[derive(Default)]
struct Seen {
    /// The answers of each export, and of all together.
    answers: BTreeMap<&'static str, Tally>,
    all: Tally,
    /// Answered steps, those in runs too, by the number of letters, and in cells of
    /// more than 16 nodes.
    letters: [u64; 13],
    dense: u64,
    /// Runs that took several steps, and runs that took none.
    several: u64,
    none: u64,
    /// Runs in which several nodes moved at one time.
    together: u64,
    /// Tables that were just long enough, and one entry too short.
    exact: u64,
    short: u64,
    /// Calls with an earlier record, and calls made with two working tables.
    earlier: u64,
    twice: u64,
    /// Refused for the ceiling in a table that has no room for a single entry more.
    ceiling_in_full_table: u64,
    /// Answered steps and runs of records in which a node is above the ceiling that no
    /// step reconsidered.
    passed_by: u64,
    /// How often each fault was the only one, and whether it was refused.
    faults: BTreeMap<(Fault, bool), u64>,
}

impl Seen {
    /// Compares a call and counts it; a difference ends the test.
    fn compare(&mut self, given: &mut Given, case: impl fmt::Display) -> Answered {
        let file = &given.layout.file;
        let before = given.lent.clone();
        let answered = side_by_side::call(given.call, file, &mut given.lent);
        let answered = answered.unwrap_or_else(|why| {
            let lent = &before;
            let call = given.call;
            panic!("{why}: {case}, {}", Made { call, file, lent })
        });
        let number = answered.map_or_else(Refusal::number, |()| 0);
        let name = sts::name_on_run(given.call);
        self.answers.entry(name).or_default().count(number);
        self.all.count(number);
        let used = match given.call {
            Call::Start { used } => used as usize,
            _ => before.record.get(USED).map_or(0, |&used| used as usize),
        };
        let no_room = used == before.table.letter.len();
        let ceiling = answered == Err(Refusal::Ceiling);
        self.ceiling_in_full_table += u64::from(ceiling && no_room);
        answered
    }

    /// Counts an answered step or run of a record that may be no run's.
    fn count_passed_by(&mut self, given: &Given, before: &[u32]) {
        let moves = matches!(given.call, Call::Step | Call::Run { .. });
        let record = &given.lent.record;
        if !moves || record[TIME] == before[TIME] {
            return;
        }
        let cell = parse(&given.layout.file).expect("it was answered");
        let circuit = Circuit::new(&cell);
        let (_, run, _) = read_run(&circuit, &given.lent).expect("it was answered");
        self.passed_by += u64::from(run.is_above_ceiling(&circuit));
    }

    /// Counts an answered or refused call of a run that was tried before.
    fn count(&mut self, given: &Given, answered: Answered, before: &[u32], trial: &Trial) {
        let (now, record) = (before[TIME], &given.lent.record);
        let length = given.lent.table.letter.len();
        match (given.call, answered) {
            (Call::Step | Call::Run { .. }, Ok(())) => {
                let steps = trial.between(now, record[TIME]) as u64;
                self.letters[usize::from(given.layout.file[3])] += steps;
                self.dense += u64::from(given.layout.file[0] > 16) * steps;
                if matches!(given.call, Call::Run { .. }) {
                    self.several += u64::from(steps > 1);
                    self.none += u64::from(steps == 0);
                }
                let fills = record[USED] as usize == length;
                self.exact += u64::from(fills && record[USED] > before[USED]);
            }
            (Call::Step, Err(Refusal::Full)) => {
                let next = trial.moments.iter().find(|moment| moment.time > now);
                let short = next.is_some_and(|moment| moment.used == length + 1);
                self.short += u64::from(short);
            }
            _ => {}
        }
    }

    fn print(&self, what: &str) {
        for (name, tally) in &self.answers {
            println!("{what}: {name}: {tally}");
        }
        println!("{what}: {}", self.all);
        println!("{what}: steps by letters {:?}", self.letters);
        println!("{what}: steps of dense cells {}", self.dense);
        println!(
            "{what}: runs of several steps {}, of none {}; cells that move together {}",
            self.several, self.none, self.together
        );
        println!(
            "{what}: exactly long enough {}, one entry too short {}",
            self.exact, self.short
        );
        println!(
            "{what}: earlier records {}, two working tables {}",
            self.earlier, self.twice
        );
        println!(
            "{what}: above the ceiling in a full table {}, passed by {}",
            self.ceiling_in_full_table, self.passed_by
        );
        if !self.faults.is_empty() {
            println!("{what}: faults alone, and refused {:?}", self.faults);
        }
    }
}

/// A call as it was made, to be printed where the two differ.
struct Made<'a> {
    call: Call,
    file: &'a [u8],
    lent: &'a Lent,
}

impl fmt::Display for Made<'_> {
    fn fmt(&self, out: &mut fmt::Formatter<'_>) -> fmt::Result {
        const MOST: usize = 300;
        let Lent {
            table,
            record,
            working,
            answer,
        } = self.lent;
        writeln!(out, "{:?}, file {}", self.call, hex(self.file))?;
        writeln!(
            out,
            "lengths {:?}, working {:?}, answer {}, record {record:?}",
            table.lengths(),
            working.lengths(),
            answer.len()
        )?;
        let used = match self.call {
            Call::Start { used } => used,
            _ => record.get(USED).copied().unwrap_or(0),
        };
        let least = table.lengths().into_iter().min().unwrap_or_default();
        write!(out, "entries")?;
        for Entry { letter, low, high } in table.entries(least.min(used as usize).min(MOST)) {
            write!(out, " {letter}/{low}/{high}")?;
        }
        Ok(())
    }
}

/// How many letters a cell has and how many states its trial may work out.
fn letters(random: &mut Random, size: Size) -> (u32, usize) {
    match size {
        _ if random.one_in(150) => {
            let letters = random.between(6, 10);
            (letters, 3 << letters)
        }
        Size::Dense => (random.between(0, 4), 500),
        _ => (random.between(0, 5), 2_000),
    }
}

/// One cell, one table, and calls one after the other.
struct Sequence {
    seed: u64,
    index: u64,
    random: Random,
    cell: Cell,
    layout: Layout,
    trial: Trial,
    table: Columns,
    used: u32,
    /// The records that came of the calls so far, the latest last.
    records: Vec<Vec<u32>>,
    /// The start is refused for the ceiling, and the first record was handed over.
    handed_over: bool,
}

impl Sequence {
    /// How many calls a sequence makes.
    const CALLS: usize = 16;

    fn draw(seed: u64, index: u64) -> Sequence {
        let mut random = Random::of_case(seed, index);
        let size = match random.below(8) {
            0 => Size::Dense,
            1 | 2 => Size::Middle,
            _ => Size::Small,
        };
        let (letters, states) = letters(&mut random, size);
        let cell = live::cell(&mut random, size, letters);
        let places = legal::places(&mut random, cell.records());
        let entries = match random.one_in(4) {
            true => {
                let count = random.spread(3, 80) as usize;
                tables::table(&mut random, letters, count)
            }
            false => FIRST.to_vec(),
        };
        let table = Columns::of(&entries, entries.len());
        let used = entries.len() as u32;
        let start = Table::read(&table, used, letters).expect("the table is sound");
        let trial = Trial::of(&Circuit::new(&cell), start, states);
        let length = length(&mut random, &trial, entries.len());
        Sequence {
            seed,
            index,
            layout: Layout::new(&cell, &places),
            cell,
            trial,
            table: Columns::of(&entries, length),
            used,
            records: Vec::new(),
            handed_over: false,
            random,
        }
    }

    fn run(mut self, seen: &mut Seen) {
        seen.together += u64::from(self.trial.together > 1);
        for number in 0..Self::CALLS {
            let case = format!("seed {} index {} call {number}", self.seed, self.index);
            let call = self.call();
            let mut given = self.given(call);
            let before = given.lent.record.clone();
            if self.random.one_in(3) {
                self.spoil(&mut given, seen, case);
                continue;
            }
            let latest = self.records.last().map(|record| record[TIME]);
            seen.earlier += u64::from(latest.is_some_and(|time| before[TIME] < time));
            let again = given.clone();
            let answered = seen.compare(&mut given, &case);
            seen.count(&given, answered, &before, &self.trial);
            if self.handed_over && answered.is_ok() {
                seen.count_passed_by(&given, &before);
            }
            if call.works() && self.random.one_in(20) {
                self.other_working(again, seen, &case);
            }
            self.take(given, answered);
            if self.random.one_in(12) {
                self.lengthen();
            }
        }
    }

    /// The next call: a start if there is no run, and else any.
    fn call(&mut self) -> Call {
        let random = &mut self.random;
        let Some(latest) = self.records.last() else {
            return Call::Start { used: self.used };
        };
        match random.below(16) {
            0 => Call::Start { used: self.used },
            1..=6 => Call::Step,
            7..=11 if self.handed_over => Call::Run {
                until: latest[TIME].saturating_add(random.between(0, 3)),
            },
            7..=11 => Call::Run {
                until: until(random, &self.trial, latest[TIME], self.cell.horizon),
            },
            _ => ask(random, &self.cell),
        }
    }

    /// All that a call is given: the latest record, or an earlier one.
    fn given(&mut self, call: Call) -> Given {
        let rarely = self.rarely_earlier();
        let random = &mut self.random;
        let length = records::working_length(random);
        let mut record = match self.records.len() {
            0 => (0..RECORD).map(|_| random.word()).collect(),
            count if random.one_in(rarely) => self.records[random.index(count)].clone(),
            count => self.records[count - 1].clone(),
        };
        if !self.records.is_empty() {
            record[USED] = self.used;
        }
        Given {
            call,
            layout: self.layout.clone(),
            lent: Lent {
                table: self.table.clone(),
                record,
                working: records::working(random, length),
                answer: (0..ANSWER).map(|_| random.word()).collect(),
            },
        }
    }

    /// Once in how many times an earlier record is taken: more often where the
    /// latest one is finished.
    fn rarely_earlier(&self) -> u64 {
        let last = self.trial.moments[self.trial.moments.len() - 1].time;
        let finished = |record: &Vec<u32>| record[TIME] >= last;
        match self.records.last().is_some_and(finished) {
            true => 2,
            false => 4,
        }
    }

    /// Makes a call with something wrong, which leaves the sequence as it is.
    fn spoil(&mut self, given: &mut Given, seen: &mut Seen, case: String) {
        let random = &mut self.random;
        let mut faults = Fault::ALL.to_vec();
        if self.records.is_empty() {
            faults.retain(|fault| ![Fault::OtherRecord, Fault::Question].contains(fault));
        }
        random.shuffle(&mut faults);
        faults.truncate(random.pick(&[1, 1, 1, 2, 3]));
        faults.sort();
        // What is not refused is to end soon.
        if let Call::Run { until } = &mut given.call {
            let now = given.lent.record[TIME];
            *until = now.saturating_add(random.between(0, 3));
        }
        for &fault in faults.iter().rev() {
            given.spoil(random, &self.cell, fault);
        }
        let before = given.lent.record.clone();
        let answered = seen.compare(given, format!("{case} with {faults:?}"));
        if answered.is_ok() {
            seen.count_passed_by(given, &before);
        }
        if let [fault] = faults[..] {
            *seen.faults.entry((fault, answered.is_err())).or_default() += 1;
        }
    }

    /// Makes a call again, with a working table of another length.
    fn other_working(&mut self, mut given: Given, seen: &mut Seen, case: &str) {
        let length = match given.lent.working.letter.len() == *WORKING.end() {
            true => *WORKING.start(),
            false => *WORKING.end(),
        };
        given.lent.working = records::working(&mut self.random, length);
        seen.twice += 1;
        let _ = seen.compare(&mut given, format!("{case} with working of {length}"));
    }

    /// Goes on with what a call left. A start that does not fit is made again in a
    /// longer table; where one is refused for the ceiling, a record is handed over.
    fn take(&mut self, given: Given, answered: Answered) {
        match (given.call, answered) {
            (Call::Ask { .. }, _) => {}
            (Call::Start { .. }, Err(Refusal::Full)) if self.records.is_empty() => {
                let need = self.trial.moments[0].used;
                let length = need + self.random.index(4);
                self.table = Columns::of(&self.table.entries(self.used as usize), length);
            }
            (Call::Start { .. }, Err(Refusal::Ceiling)) if self.records.is_empty() => {
                let entries = self.table.entries(self.used as usize);
                let record = records::sound(&mut self.random, &self.cell, &entries);
                self.records.push(record);
                self.handed_over = true;
            }
            (_, Ok(())) => {
                self.table = given.lent.table;
                self.used = given.lent.record[USED];
                self.records.push(given.lent.record);
            }
            (_, Err(_)) => {}
        }
    }

    /// Copies the table into a longer or a shorter one.
    fn lengthen(&mut self) {
        let entries = self.table.entries(self.used as usize);
        let length = length(&mut self.random, &self.trial, entries.len());
        self.table = Columns::of(&entries, length);
    }
}

/// A length for the table of a run, often about what one of its steps needs; it
/// holds at least so many entries.
fn length(random: &mut Random, trial: &Trial, least: usize) -> usize {
    let need = random.pick(&trial.moments).used;
    let length = match random.below(16) {
        0..=2 => need - 1,
        3..=5 => need,
        6 => need + 1,
        7 => least,
        8 => 4_096,
        9 if random.one_in(4) => *LENGTHS.end(),
        _ => trial.moments[trial.moments.len() - 1].used + random.index(20),
    };
    length.clamp(least, *LENGTHS.end())
}

/// How far a run goes: about the times of its steps, and not beyond what was tried.
fn until(random: &mut Random, trial: &Trial, now: u32, horizon: u32) -> u32 {
    let ahead = trial.between(0, now);
    let at = (ahead + random.index(4)).min(trial.moments.len() - 1);
    let time = trial.moments[at].time;
    let until = match random.below(12) {
        0 => 0,
        1 => now,
        2 => now.saturating_sub(1),
        3 => u32::MAX,
        4 => random.pick(&[horizon, horizon + 1]),
        5 => random.spread(0, horizon),
        6 => random.pick(&trial.moments).time,
        7 => time.saturating_sub(1),
        8 => time + 1,
        _ => time,
    };
    until.min(trial.last())
}

/// A question that there is; at times one that there is not.
fn ask(random: &mut Random, cell: &Cell) -> Call {
    let last = (FIRST_NODE + cell.nodes.len()) as u32 - 1;
    Call::Ask {
        node: match random.below(12) {
            0 => random.between(0, 1),
            1 => random.spread(last + 1, u32::MAX),
            _ => random.between(0, last),
        },
        pattern: calls::pattern(random, cell.letters),
    }
}

/// Sequences of calls on cells of all sizes: starts, steps, runs and questions,
/// with earlier records and with whatever can be wrong among them.
#[test]
fn sequences_of_calls() {
    let cases = Cases::first(6_000);
    let mut seen = Seen::default();
    cases.for_each_index(|seed, index| Sequence::draw(seed, index).run(&mut seen));
    seen.print("sequences");
    if cases.complete {
        expect_all(&seen);
    }
}

/// Every export gave every answer it has, every fault occurred alone, and there
/// were steps of all kinds.
fn expect_all(seen: &Seen) {
    for (name, answers) in [
        ("sts_start", &[0, 1, 2, 3, 4, 5, 6, 7, 8, 11][..]),
        ("sts_step", &[0, 1, 2, 3, 4, 5, 6, 7, 8, 10, 11]),
        ("sts_run", &[0, 1, 2, 3, 4, 5, 6, 7, 8, 11]),
        ("sts_ask", &[0, 1, 2, 3, 4, 5, 7, 8, 9]),
    ] {
        seen.answers[name].expect(10, answers);
    }
    seen.all.expect(100, &[5]);
    seen.all.expect(500, &[0, 1, 2, 3, 4, 6, 7, 8, 9, 10, 11]);
    for fault in Fault::ALL {
        let count = |refused| seen.faults.get(&(fault, refused)).copied().unwrap_or(0);
        assert!(count(true) + count(false) >= 500, "{fault:?} alone");
    }
    for (what, count, least) in [
        ("steps of dense cells", seen.dense, 1_000),
        ("runs of several steps", seen.several, 1_000),
        ("runs of no step", seen.none, 1_000),
        ("cells that move together", seen.together, 500),
        ("exactly long enough", seen.exact, 500),
        ("one entry too short", seen.short, 500),
        ("earlier records", seen.earlier, 500),
        ("two working tables", seen.twice, 500),
        (
            "above the ceiling in a full table",
            seen.ceiling_in_full_table,
            100,
        ),
        ("passed by", seen.passed_by, 50),
    ] {
        assert!(count >= least, "{what}: {count}");
    }
    let enough = seen.letters[..=5].iter().all(|&steps| steps >= 500);
    assert!(enough, "steps by letters {:?}", seen.letters);
}

/// A cell at its start: a fresh table of a length, and anything elsewhere.
fn fresh(random: &mut Random, layout: &Layout, length: usize, working: usize) -> Given {
    Given {
        call: Call::Start { used: 3 },
        layout: layout.clone(),
        lent: Lent {
            table: Columns::of(&FIRST, length),
            record: (0..RECORD).map(|_| random.word()).collect(),
            working: records::working(random, working),
            answer: (0..ANSWER).map(|_| random.word()).collect(),
        },
    }
}

/// Makes a call on what the last one left.
fn next(seen: &mut Seen, given: &mut Given, call: Call, trial: &Trial, case: &str) -> Answered {
    given.call = call;
    let before = given.lent.record.clone();
    let answered = seen.compare(given, case);
    seen.count(given, answered, &before, trial);
    answered
}

/// Every step of a run, in tables that are one entry too short for it, just long
/// enough and one entry longer; the shortest table of all among them.
#[test]
fn exact_lengths() {
    let mut random = Random::new(31);
    let mut seen = Seen::default();
    for round in 0..400 {
        let size = random.pick(&[Size::Small, Size::Small, Size::Middle, Size::Dense]);
        let letters = random.between(0, 4);
        let cell = live::cell(&mut random, size, letters);
        let layout = Layout::in_order(&cell);
        let trial = Trial::of(&Circuit::new(&cell), Table::fresh(letters), 300);
        let needs = trial.moments.iter().map(|moment| moment.used);
        let mut lengths: Vec<usize> = needs.flat_map(|need| need - 1..=need + 1).collect();
        lengths.push(*LENGTHS.start());
        lengths.sort();
        lengths.dedup();
        lengths.retain(|length| LENGTHS.contains(length));
        lengths.truncate(24);
        for length in lengths {
            let case = format!("round {round} length {length}");
            let mut given = fresh(&mut random, &layout, length, *WORKING.start());
            if next(
                &mut seen,
                &mut given,
                Call::Start { used: 3 },
                &trial,
                &case,
            )
            .is_err()
            {
                continue;
            }
            let started = given.clone();
            for _ in 0..trial.steps() {
                if next(&mut seen, &mut given, Call::Step, &trial, &case).is_err() {
                    break;
                }
            }
            let reached = given.lent.record[TIME];
            for until in [reached, reached + 1, trial.last()] {
                let mut given = started.clone();
                let _ = next(&mut seen, &mut given, Call::Run { until }, &trial, &case);
            }
        }
    }
    seen.print("exact lengths");
    seen.answers["sts_start"].expect(200, &[0, 6]);
    seen.answers["sts_step"].expect(200, &[0, 6]);
    seen.answers["sts_run"].expect(200, &[0, 6]);
    seen.answers["sts_start"].expect(10, &[11]);
    seen.answers["sts_step"].expect(10, &[11]);
    seen.answers["sts_run"].expect(10, &[11]);
    assert!(seen.exact >= 1_000, "exactly long enough {}", seen.exact);
    assert!(seen.short >= 500, "one entry too short {}", seen.short);
}

/// Cells of many letters, with the shortest working table and with the longest.
#[test]
fn many_letters() {
    let mut random = Random::new(32);
    let mut seen = Seen::default();
    for letters in [6, 7, 8, 9, 10, 11, 12] {
        for round in 0..12 {
            let size = [Size::Small, Size::Middle, Size::Dense][round % 3];
            let cell = live::cell(&mut random, size, letters);
            let trial = Trial::of(&Circuit::new(&cell), Table::fresh(letters), 3 << letters);
            let layout = Layout::in_order(&cell);
            let needs = trial.moments.iter().map(|moment| moment.used);
            let need = needs.max().unwrap_or_default();
            let length = match round / 3 {
                0 => need,
                1 => need - 1,
                _ => *LENGTHS.end(),
            };
            let length = length.clamp(*LENGTHS.start(), *LENGTHS.end());
            let case = format!("{letters} letters, round {round}");
            for working in [*WORKING.start(), *WORKING.end()] {
                let mut given = fresh(&mut random, &layout, length, working);
                let _ = next(
                    &mut seen,
                    &mut given,
                    Call::Start { used: 3 },
                    &trial,
                    &case,
                );
                for _ in 0..trial.steps() {
                    given.lent.working = records::working(&mut random, working);
                    let _ = next(&mut seen, &mut given, Call::Step, &trial, &case);
                }
            }
        }
    }
    seen.print("many letters");
    let enough = seen.letters[6..].iter().all(|&steps| steps >= 8);
    assert!(enough, "steps by letters {:?}", seen.letters);
}

/// How many entries the function of an entry has.
fn size(table: &Columns, entry: u32) -> usize {
    let mut met = BTreeSet::new();
    let mut left = vec![entry];
    while let Some(entry) = left.pop() {
        let at = entry as usize;
        if met.insert(entry) && table.letter[at] != TERMINAL {
            left.extend([table.low[at], table.high[at]]);
        }
    }
    met.len()
}

/// Functions of more entries than the tool has slots for results that it found
/// before: slots are taken again, and what stood there is worked out anew. With
/// working tables of both lengths.
#[test]
fn more_entries_than_slots() {
    // Those of an operation on functions, and those for a node's next change.
    const CACHE: usize = 128;
    const MEMO: usize = 352;
    let mut random = Random::new(34);
    let mut seen = Seen::default();
    for (name, cell, slots) in [
        ("carry chain", designs::carry_chain(12, 0), CACHE),
        (
            "carry chain, one after the other",
            designs::carry_chain(12, 30),
            CACHE,
        ),
        ("barrel column", designs::barrel_column(12, 0), CACHE),
        ("mux-tree", rows::mux_tree(), MEMO),
    ] {
        let trial = Trial::of(&Circuit::new(&cell), Table::fresh(cell.letters), 60 << 12);
        let layout = Layout::in_order(&cell);
        for working in [*WORKING.start(), *WORKING.end()] {
            let case = format!("{name}, working of {working}");
            let mut given = fresh(&mut random, &layout, *LENGTHS.end(), working);
            let _ = next(
                &mut seen,
                &mut given,
                Call::Start { used: 3 },
                &trial,
                &case,
            );
            let mut largest = 0;
            for _ in 0..trial.steps() {
                given.lent.working = records::working(&mut random, working);
                let _ = next(&mut seen, &mut given, Call::Step, &trial, &case);
                let entries = given.lent.record[VALUES..].iter();
                let sizes = entries.map(|&entry| size(&given.lent.table, entry));
                largest = largest.max(sizes.max().unwrap_or_default());
            }
            assert!(largest > slots, "{case}: {largest} entries at most");
        }
    }
    seen.print("more entries than slots");
    seen.answers["sts_step"].expect(20, &[0]);
}

/// The cells of the vectors and those that are drawn for a library, step by step
/// to their end, and in one run.
#[test]
fn drawn_cells() {
    let mut random = Random::new(33);
    let mut seen = Seen::default();
    let mut cells: Vec<(String, Cell)> = Vec::new();
    for path in files(CELLS, "cell") {
        let cell = parse(&bytes(&path));
        cells.extend(cell.map(|cell| (path.display().to_string(), cell)));
    }
    for letters in 0..=5 {
        let (chain, column) = ("carry chain", "barrel column");
        let skew = 10 * (letters % 3);
        for (name, cell) in [
            (chain, designs::carry_chain(letters, skew)),
            (column, designs::barrel_column(letters, skew)),
        ] {
            cells.push((format!("{name} of {letters} letters"), cell));
        }
    }
    for (case, cell) in cells {
        let trial = Trial::of(&Circuit::new(&cell), Table::fresh(cell.letters), 4 << 12);
        let layout = Layout::in_order(&cell);
        let mut given = fresh(&mut random, &layout, 4_096, 4_096);
        let call = Call::Start { used: 3 };
        if next(&mut seen, &mut given, call, &trial, &case).is_err() {
            continue;
        }
        let mut run = given.clone();
        let until = trial.last();
        let _ = next(&mut seen, &mut run, Call::Run { until }, &trial, &case);
        for _ in 0..=trial.moments.len() {
            let _ = next(&mut seen, &mut given, Call::Step, &trial, &case);
        }
    }
    seen.print("drawn cells");
    seen.answers["sts_step"].expect(20, &[0, 10]);
}
