//! The calls on a function table against the second implementation: answers,
//! results and every number of every column afterwards.

use comparison::functions::{self, Answer, Call, Columns, Condition, Entry, Operation};
use comparison::functions::{Table, LENGTHS, MOST_LETTERS, NEVER};
use comparison::generate::counted::{Counted, Skipped};
use comparison::generate::{calls, functions as tables, unsound};
use comparison::random::Random;
use comparison::refusal::Refusal;
use comparison::replay::Cases;
use comparison::sts;
use comparison::tally::Tally;
use std::collections::BTreeMap;
use std::fmt;
use std::mem;
use std::thread;

/// Numbers before, between and after the lent columns, which no call may touch.
const MARGIN: usize = 4;

/// Columns in memory, with margins. What follows the columns looks like one more
/// entry, so that a call that goes too far does not notice it.
struct Lent {
    memory: Vec<u32>,
    lengths: [usize; 3],
}

impl Lent {
    fn of(columns: &Columns, margin: u32) -> Lent {
        let mut memory = vec![margin; MARGIN];
        let Entry { letter, low, high } = Entry::terminal(margin);
        for (column, after) in [
            (&columns.letter, letter),
            (&columns.low, low),
            (&columns.high, high),
        ] {
            memory.extend(column);
            memory.extend([after; MARGIN]);
        }
        Lent {
            memory,
            lengths: columns.lengths(),
        }
    }

    fn columns(&mut self) -> [&mut [u32]; 3] {
        let mut rest = &mut self.memory[..];
        self.lengths.map(|length| {
            let (column, after) = mem::take(&mut rest)[MARGIN..].split_at_mut(length);
            rest = after;
            column
        })
    }

    /// Where the memory is not as expected.
    fn difference(&self, expected: &Lent) -> Result<(), String> {
        if self.memory == expected.memory {
            return Ok(());
        }
        let pairs = self.memory.iter().zip(&expected.memory);
        let (mut at, (is, should)) = pairs
            .enumerate()
            .find(|(_, (is, should))| is != should)
            .expect("two memories of one length differ somewhere");
        let mut column = 0;
        while column < 2 && at >= MARGIN + self.lengths[column] {
            at -= MARGIN + self.lengths[column];
            column += 1;
        }
        Err(format!(
            "{} {} is {is}, expected {should}",
            ["letter", "low", "high"][column],
            at as isize - MARGIN as isize
        ))
    }
}

type Answered = Result<Answer, Refusal>;

/// Makes a call both ways; `columns` then are what they are afterwards. An error
/// tells how the two differ.
fn compare(call: &Call, columns: &mut Columns, margin: u32) -> Result<Answered, String> {
    let mut lent = Lent::of(columns, margin);
    let mut beside = [margin, call.used, margin, !margin, margin];
    let [_, used, _, result, _] = &mut beside;
    let number = sts::call(call.operation, call.letters, lent.columns(), used, result);

    let answered = call.answer(columns);
    let expected = answered.map_or_else(Refusal::number, |_| 0);
    if number != expected {
        return Err(format!("answered {number}, expected {expected}"));
    }
    let Answer { used, result } = answered.unwrap_or(Answer {
        used: call.used,
        result: !margin,
    });
    let should = [margin, used, margin, result, margin];
    if beside != should {
        return Err(format!(
            "used count and result, with margins, are {beside:?}, expected {should:?}"
        ));
    }
    lent.difference(&Lent::of(columns, margin))?;
    Ok(answered)
}

/// A call as it was made, to be printed where the two differ.
struct Made<'a> {
    call: &'a Call,
    columns: &'a Columns,
}

impl fmt::Display for Made<'_> {
    fn fmt(&self, out: &mut fmt::Formatter<'_>) -> fmt::Result {
        const MOST: usize = 200;
        let lengths = self.columns.lengths();
        let least = lengths.into_iter().min().unwrap_or_default();
        let shown = least.min(self.call.used as usize).min(MOST);
        write!(out, "{:?}, lengths {lengths:?}, entries", self.call)?;
        for Entry { letter, low, high } in self.columns.entries(shown) {
            write!(out, " {letter}/{low}/{high}")?;
        }
        match shown == self.call.used as usize {
            true => Ok(()),
            false => write!(out, " ..."),
        }
    }
}

/// What was seen in some comparisons.
#[derive(Default)]
struct Seen {
    /// The answers of each export, and of all together.
    answers: BTreeMap<&'static str, Tally>,
    all: Tally,
    /// Answered calls by their number of letters.
    letters: [u64; MOST_LETTERS as usize + 1],
    /// Calls that added something and filled the table with it.
    exact: u64,
    /// In sequences: calls whose table was one entry too short, and how often each
    /// condition was the only one broken.
    short: u64,
    alone: BTreeMap<Condition, u64>,
}

impl Seen {
    /// Compares a call and counts it; a difference ends the test.
    fn compare(&mut self, call: &Call, columns: &mut Columns, case: impl fmt::Display) -> Answered {
        let margin = 0xfeed_0000 ^ call.used;
        let before = columns.clone();
        let answered = compare(call, columns, margin).unwrap_or_else(|why| {
            let columns = &before;
            panic!("{why}: {case}, {}", Made { call, columns })
        });
        let name = sts::name(call.operation);
        let number = answered.map_or_else(Refusal::number, |_| 0);
        self.answers.entry(name).or_default().count(number);
        self.all.count(number);
        if let Ok(answer) = answered {
            self.letters[call.letters as usize] += 1;
            let fills = answer.used as usize == columns.letter.len();
            self.exact += u64::from(fills && answer.used > call.used);
        }
        answered
    }

    fn print(&self, what: &str) {
        for (name, tally) in &self.answers {
            println!("{what}: {name}: {tally}");
        }
        println!("{what}: {}", self.all);
        println!("{what}: answered by letters {:?}", self.letters);
        println!("{what}: exactly long enough {}", self.exact);
        if !self.alone.is_empty() {
            println!("{what}: one entry too short {}", self.short);
            println!("{what}: one condition alone {:?}", self.alone);
        }
    }
}

/// One table, and calls on it one after the other.
struct Sequence {
    seed: u64,
    index: u64,
    random: Random,
    letters: u32,
    /// The length that the table mostly has.
    usual: usize,
    entries: Vec<Entry>,
}

impl Sequence {
    /// How many calls a sequence makes.
    const CALLS: usize = 24;

    fn draw(seed: u64, index: u64) -> Sequence {
        let mut random = Random::of_case(seed, index);
        let letters = random.between(0, MOST_LETTERS);
        let count = match random.below(400) {
            0 => random.spread(10_000, 65_536),
            1..=20 => random.between(200, 4_000),
            _ => random.spread(3, 200),
        };
        let entries = tables::table(&mut random, letters, count as usize);
        let usual = entries.len() + random.spread(0, 400) as usize;
        Sequence {
            seed,
            index,
            random,
            letters,
            usual: usual.min(*LENGTHS.end()),
            entries,
        }
    }

    /// Makes all calls. The table goes on with what was answered; what was damaged
    /// is set aside.
    fn run(mut self, seen: &mut Seen) {
        for number in 0..Self::CALLS {
            // Few calls on long tables: each takes its time.
            if self.entries.len() > 5_000 && number > 8 {
                break;
            }
            self.make_call(number, seen);
        }
    }

    fn make_call(&mut self, number: usize, seen: &mut Seen) {
        let random = &mut self.random;
        let mut call = calls::call(random, &self.entries, self.letters);
        let length = calls::length(random, &self.entries, &call, self.usual);
        let mut columns = Columns::of(&self.entries, length);
        let mut alone = None;
        let mut whole = true;
        match random.below(16) {
            0..=2 => {
                let condition = random.pick(&Condition::ALL);
                if unsound::break_alone(random, condition, &mut columns, &mut call) {
                    alone = Some(condition);
                    whole = false;
                }
            }
            3 => {
                unsound::disturb(random, &mut columns, &mut call);
                whole = false;
            }
            4 => {
                unsound::misfit(random, &mut columns);
                whole = false;
            }
            _ => {}
        }
        let case = format!("seed {} index {} call {number}", self.seed, self.index);
        let answered = seen.compare(&call, &mut columns, case);
        if let Some(condition) = alone {
            assert_eq!(answered, Err(Refusal::Unsound), "{condition:?} alone");
            *seen.alone.entry(condition).or_default() += 1;
        }
        if whole {
            self.take(&call, answered, &columns, seen);
        }
    }

    /// Goes on with the table after a call that was given a whole one.
    fn take(&mut self, call: &Call, answered: Answered, columns: &Columns, seen: &mut Seen) {
        match answered {
            Ok(answer) => self.entries = columns.entries(answer.used as usize),
            Err(Refusal::Full) => {
                let mut longer = Columns::of(&self.entries, columns.letter.len() + 1);
                seen.short += u64::from(call.answer(&mut longer).is_ok());
            }
            Err(_) => {}
        }
    }
}

/// Long sequences of calls on tables of every number of letters, whole, damaged
/// or lent with wrong lengths.
#[test]
fn sequences_of_calls() {
    let cases = Cases::first(8_000);
    let mut seen = Seen::default();
    cases.for_each_index(|seed, index| Sequence::draw(seed, index).run(&mut seen));
    seen.print("sequences");
    if cases.complete {
        expect_all(&seen);
    }
}

/// Every export gave every answer it has, every condition was broken alone, and
/// every number of letters occurred.
fn expect_all(seen: &Seen) {
    assert_eq!(seen.answers.len(), 6, "exports that were called");
    seen.all.expect(10_000, &[0, 6, 7, 8, 9]);
    for (name, tally) in &seen.answers {
        tally.expect(500, &[0, 7, 8, 9]);
        if !["sts_number", "sts_count"].contains(name) {
            tally.expect(500, &[6]);
        }
    }
    for condition in Condition::ALL {
        let count = seen.alone.get(&condition);
        assert!(count >= Some(&1_000), "{condition:?} alone {count:?} times");
    }
    let Seen {
        letters,
        short,
        exact,
        ..
    } = seen;
    assert!(letters.iter().all(|&count| count >= 5_000), "{letters:?}");
    assert!(*short >= 5_000, "one entry too short {short} times");
    assert!(*exact >= 5_000, "exactly long enough {exact} times");
}

/// Tables of the greatest length, full or with little room left; some of them
/// with one condition broken.
#[test]
fn the_longest_tables() {
    let mut random = Random::new(11);
    let mut seen = Seen::default();
    for round in 0..24 {
        let letters = random.pick(&[0, 1, 5, 9, 11, 12, 12]);
        let room = random.pick(&[0, 0, 1, 2, 30, 1_000]);
        let entries = tables::table(&mut random, letters, LENGTHS.end() - room);
        for number in 0..12 {
            let mut call = calls::call(&mut random, &entries, letters);
            let mut columns = Columns::of(&entries, *LENGTHS.end());
            if random.one_in(3) {
                let condition = random.pick(&Condition::ALL);
                unsound::break_alone(&mut random, condition, &mut columns, &mut call);
            }
            let case = format!("round {round} call {number}");
            _ = seen.compare(&call, &mut columns, case);
        }
    }
    seen.print("longest");
}

/// All functions of few letters and few numbers: each in a table of its own, at
/// every length from what is used to one more than is needed.
#[test]
fn all_small_functions() {
    let mut seen = Seen::default();
    let ends = [
        0,
        1,
        2,
        NEVER / 2,
        NEVER / 2 + 1,
        NEVER - 2,
        NEVER - 1,
        NEVER,
    ];
    small_functions(&mut seen, 0, &ends);
    small_functions(&mut seen, 1, &[0, 1, 7, NEVER]);
    small_functions(&mut seen, 2, &[0, 1]);
    seen.print("small");
}

/// All functions of so many letters that take only these numbers, in every
/// operation.
fn small_functions(seen: &mut Seen, letters: u32, numbers: &[u32]) {
    let mut functions: Vec<Vec<u32>> = vec![vec![]];
    for _ in 0..1 << letters {
        let longer = |function: &Vec<u32>| {
            let with = |&number| [&function[..], &[number]].concat();
            numbers.iter().map(with).collect::<Vec<_>>()
        };
        functions = functions.iter().flat_map(longer).collect();
    }
    for one in &functions {
        each_length(seen, letters, &[one], |at| Operation::Count {
            function: at[0],
        });
        for pattern in 0..=1 << letters {
            each_length(seen, letters, &[one], |at| Operation::Number {
                function: at[0],
                pattern,
            });
        }
        for (letter, bit) in (0..=letters).flat_map(|letter| (0..3).map(move |bit| (letter, bit))) {
            let fix = |at: &[u32]| Operation::Fix {
                function: at[0],
                letter,
                bit,
            };
            each_length(seen, letters, &[one], fix);
        }
        for two in &functions {
            let smaller = |at: &[u32]| Operation::Smaller {
                first: at[0],
                second: at[1],
            };
            let sum = |at: &[u32]| Operation::Sum {
                first: at[0],
                second: at[1],
            };
            each_length(seen, letters, &[one, two], smaller);
            each_length(seen, letters, &[one, two], sum);
            for three in &functions {
                let choose = |at: &[u32]| Operation::Choose {
                    selector: at[0],
                    first: at[1],
                    second: at[2],
                };
                each_length(seen, letters, &[one, two, three], choose);
            }
        }
    }
}

/// Stores functions and makes a call on them at every length up to one more than
/// is needed.
fn each_length(
    seen: &mut Seen,
    letters: u32,
    functions: &[&Vec<u32>],
    operation: impl Fn(&[u32]) -> Operation,
) {
    let mut table = Table::fresh(letters);
    let at: Vec<u32> = functions
        .iter()
        .map(|function| table.store(function))
        .collect();
    let used = table.entries().len();
    let call = Call {
        letters,
        used: used as u32,
        operation: operation(&at),
    };
    for length in used.. {
        let mut columns = Columns::of(table.entries(), length);
        let answered = seen.compare(&call, &mut columns, "small");
        let spare = answered.is_ok_and(|answer| length > answer.used as usize);
        if spare || !matches!(answered, Ok(_) | Err(Refusal::Full)) {
            break;
        }
    }
}

/// Counts with every number of letters, of functions that leave letters out at
/// the top, in the middle and at the end: as they are counted pattern by pattern,
/// by the rule of wish 4, and without counting.
#[test]
fn counts_of_skipped_letters() {
    let mut seen = Seen::default();
    let mut skipped = [0; 3];
    for letters in 0..=MOST_LETTERS {
        for counted in Counted::all(letters) {
            let (table, function) = counted.stored();
            let call = Call {
                letters,
                used: table.entries().len() as u32,
                operation: Operation::Count { function },
            };
            let mut columns = Columns::of(table.entries(), table.entries().len());
            let answer = seen.compare(&call, &mut columns, "counted");
            let count = answer.map(|answer| answer.result);
            assert_eq!(count, Ok(counted.count()), "{counted:?}");
            assert_eq!(count, Ok(table.count_by_shifts(function)), "{counted:?}");
            let Skipped { top, middle, end } = counted.skipped();
            for (place, times) in [top, middle, end].into_iter().zip(&mut skipped) {
                *times += u32::from(place);
            }
        }
    }
    seen.print("counts");
    println!("counts: skipped at the top, in the middle, at the end {skipped:?}");
    let by_letters = (0..=MOST_LETTERS).map(|letters| 3 << letters);
    assert!(by_letters.eq(seen.letters), "{:?}", seen.letters);
    assert!(
        skipped.iter().all(|&times| times >= 10_000),
        "skipped {skipped:?}"
    );
}

/// Each letter is read at patterns of every number of letters, and so is the one
/// behind the last, which is 0 at all of them; what is no pattern is refused.
#[test]
fn letters_of_patterns() {
    let mut seen = Seen::default();
    for letters in 0..=MOST_LETTERS {
        let patterns: u32 = 1 << letters;
        let bits = (0..letters).map(|letter| 1 << letter);
        let inside = bits.flat_map(|bit| [bit, patterns - 1 - bit]);
        let outside = [patterns, patterns + 1, 2 * patterns, 1 << 31, u32::MAX];
        let asked: Vec<u32> = inside.chain([0, patterns - 1]).chain(outside).collect();
        for letter in 0..=letters {
            let numbers: Vec<u32> = (0..patterns).map(|pattern| pattern >> letter & 1).collect();
            let mut table = Table::fresh(letters);
            let function = table.store(&numbers);
            for &pattern in &asked {
                let call = Call {
                    letters,
                    used: table.entries().len() as u32,
                    operation: Operation::Number { function, pattern },
                };
                let mut columns = Columns::of(table.entries(), table.entries().len());
                let answered = seen.compare(&call, &mut columns, "letter");
                assert_eq!(answered.is_ok(), pattern < patterns, "{call:?}");
            }
        }
    }
    seen.print("letters");
    seen.all.expect(350, &[0, 9]);
}

/// Columns of any content and lengths become a fresh table or stay as they are.
#[test]
fn fresh_tables() {
    let mut random = Random::new(12);
    let mut tally = Tally::default();
    for round in 0..20_000 {
        let length = match random.below(100) {
            0 => random.spread(65_000, 65_600),
            _ => random.spread(0, 300),
        };
        let mut columns = Columns::default();
        for column in columns.each_mut() {
            column.resize_with(length as usize, || random.word());
        }
        if length >= 3 && random.one_in(3) {
            unsound::misfit(&mut random, &mut columns);
        }
        let mut lent = Lent::of(&columns, random.word());
        let margin = lent.memory[0];
        let number = sts::fresh(lent.columns());
        let expected = functions::fresh(&mut columns).map_or_else(Refusal::number, |()| 0);
        let case = format!("round {round}, lengths {:?}", columns.lengths());
        assert_eq!(number, expected, "{case}");
        let difference = lent.difference(&Lent::of(&columns, margin));
        difference.unwrap_or_else(|why| panic!("{why}: {case}"));
        tally.count(number);
    }
    println!("sts_fresh: {tally}");
    tally.expect(5_000, &[0, 8]);
}

/// The stack that the calls need at most, as `include/sts.h` says.
const STACK: usize = 1 << 20;

/// Every call on the longest table and with the most letters, in a thread with
/// no more stack than a caller has to have.
#[test]
fn little_stack() {
    let calls = || {
        let mut random = Random::new(13);
        let letters = MOST_LETTERS;
        let mut table = Table::fresh(letters);
        let numbers: Vec<u32> = (0..1 << letters).collect();
        let bits: Vec<u32> = numbers.iter().map(|_| random.between(0, 1)).collect();
        let [first, selector] = [numbers, bits].map(|function| table.store(&function));
        let second = table.store(&tables::function(&mut random, letters));
        let operations = [
            Operation::Choose {
                selector,
                first,
                second,
            },
            Operation::Smaller { first, second },
            Operation::Sum {
                first,
                second: first,
            },
            Operation::Fix {
                function: first,
                letter: letters - 1,
                bit: 1,
            },
            Operation::Number {
                function: first,
                pattern: (1 << letters) - 1,
            },
            Operation::Count { function: selector },
        ];
        let columns = Columns::of(table.entries(), *LENGTHS.end());
        let used = table.entries().len() as u32;
        for operation in operations {
            let call = Call {
                letters,
                used,
                operation,
            };
            let answered = compare(&call, &mut columns.clone(), 0);
            assert!(matches!(answered, Ok(Ok(_))), "{call:?}: {answered:?}");
        }
        let mut columns = columns.clone();
        let [letter, low, high] = columns.each_mut();
        assert_eq!(sts::fresh([letter, low, high]), 0);
    };
    let thread = thread::Builder::new().stack_size(STACK).spawn(calls);
    thread
        .expect("a thread starts")
        .join()
        .expect("all calls agree");
}
