//! Prints how long the calls on a function table take, also beside BuDDy.

mod buddy;

use bench::table::{operations, pairs, Lent, CHECK, NUMBERS, PAIRED};
use buddy::Buddy;
use comparison::functions::{Columns, Operation, Table, FIRST, LENGTHS, MOST_LETTERS};
use comparison::generate::functions::table;
use comparison::random::Random;
use std::time::{Duration, Instant};

/// How often each call is timed; the fastest counts.
const ROUNDS: usize = 25;

/// Makes a call, hands its result over and takes out what it has added, so that
/// every call finds the table as it was made. Gives the call's own time.
fn time(lent: &mut Lent, operation: Operation, look: impl FnOnce(&mut Lent, u32)) -> Duration {
    let before = lent.used as usize;
    let start = Instant::now();
    let result = lent.call(operation);
    let time = start.elapsed();
    look(lent, result);
    for column in lent.columns.each_mut() {
        column[before..lent.used as usize].fill(0);
    }
    lent.used = before as u32;
    time
}

/// The time of a call.
fn least(lent: &mut Lent, operation: Operation) -> Duration {
    let round = |_| time(lent, operation, |_, _| ());
    (0..ROUNDS).map(round).min().unwrap_or_default()
}

fn micros(time: Duration) -> f64 {
    time.as_secs_f64() * 1e6
}

fn line(what: &str, time: Duration) {
    println!("{what:<66} {:>9.2} us", micros(time));
}

fn checks(random: &mut Random) {
    for letters in [0, 6, MOST_LETTERS] {
        for used in [4_096, *LENGTHS.end()] {
            let entries = table(random, letters, used);
            let mut lent = Lent {
                letters,
                columns: Columns::of(&entries, used),
                used: used as u32,
            };
            line(
                &format!("check: {used} entries, {letters} letters"),
                least(&mut lent, CHECK),
            );
        }
    }
    let mut lent = Lent::new(MOST_LETTERS, &Table::fresh(MOST_LETTERS), *LENGTHS.end());
    line("check: 3 entries used of 65536", least(&mut lent, CHECK));
}

/// Operations on functions of 12 letters, in a table of two functions.
fn operations_beyond_check(random: &mut Random, what: &str, most: u32) {
    let (mut lent, operations) = operations(random, most);
    let used = lent.used;
    let check = least(&mut lent, CHECK);
    line(
        &format!("operation: {what}: check of {used} entries"),
        check,
    );
    for (name, operation) in operations {
        let mut added = 0;
        time(&mut lent, operation, |lent, _| added = lent.used - used);
        let beyond = least(&mut lent, operation).saturating_sub(check);
        line(
            &format!("operation: {what}: {name}, {added} added, beyond check"),
            beyond,
        );
    }
}

fn small_table() {
    let mut lent = Lent::new(MOST_LETTERS, &Table::fresh(MOST_LETTERS), FIRST.len());
    for (name, operation) in [
        (
            "number",
            Operation::Number {
                function: 2,
                pattern: 0,
            },
        ),
        ("count", Operation::Count { function: 1 }),
        (
            "smaller",
            Operation::Smaller {
                first: 0,
                second: 2,
            },
        ),
        (
            "choose",
            Operation::Choose {
                selector: 1,
                first: 0,
                second: 2,
            },
        ),
        (
            "sum",
            Operation::Sum {
                first: 0,
                second: 1,
            },
        ),
        (
            "fix",
            Operation::Fix {
                function: 1,
                letter: 0,
                bit: 1,
            },
        ),
    ] {
        line(&format!("small table: {name}"), least(&mut lent, operation));
    }
}

/// "And" and "or" of pairs of random functions, beside BuDDy.
fn beside_buddy(random: &mut Random, count: usize, length: usize) {
    let (functions, mut lent, pairs) = pairs(random, count, length);
    let mut buddy = Buddy::start(MOST_LETTERS);
    let kept: Vec<_> = functions
        .iter()
        .map(|function| buddy.keep(function))
        .collect();
    buddy.forget();

    let mut ours = Duration::ZERO;
    let mut theirs = Duration::ZERO;
    for pair in pairs {
        let (first, second) = (kept[pair.first], kept[pair.second]);
        let their_and = |buddy: &mut Buddy| buddy.and(first, second);
        let their_or = |buddy: &mut Buddy| buddy.or(first, second);
        let (our_and, their_and) = both(&mut lent, pair.and, &mut buddy, their_and);
        let (our_or, their_or) = both(&mut lent, pair.or, &mut buddy, their_or);
        ours += our_and + our_or;
        theirs += their_and + their_or;
    }
    let calls = 2 * count as u32;
    print_ratio(&mut lent, ours / calls, theirs / calls);
}

/// The times of one operation of both engines, which take turns.
fn both(
    lent: &mut Lent,
    ours: Operation,
    buddy: &mut Buddy,
    theirs: impl Fn(&mut Buddy) -> buddy::Function,
) -> (Duration, Duration) {
    let mut least = (Duration::MAX, Duration::MAX);
    for _ in 0..ROUNDS {
        let mut ones = 0;
        let our_time = time(lent, ours, |lent, result| {
            ones = lent.call(Operation::Count { function: result });
        });
        let start = Instant::now();
        let result = theirs(buddy);
        let their_time = start.elapsed();
        assert_eq!(buddy.count(result), ones, "ones of {ours:?}");
        buddy.forget();
        least = (least.0.min(our_time), least.1.min(their_time));
    }
    least
}

fn print_ratio(lent: &mut Lent, ours: Duration, theirs: Duration) {
    let check = least(lent, CHECK);
    let what = format!(
        "ratio: {} entries used of {}",
        lent.used,
        lent.columns.low.len()
    );
    line(&format!("{what}: and, or"), ours);
    line(&format!("{what}: check of that"), check);
    line(&format!("{what}: BuDDy's"), theirs);
    let ratio = |time: Duration| time.as_secs_f64() / theirs.as_secs_f64();
    let beyond = ours.saturating_sub(check);
    println!(
        "{what}: {:.2} times BuDDy, {:.2} beyond the check",
        ratio(ours),
        ratio(beyond)
    );
}

fn main() {
    let mut random = Random::new(1);
    checks(&mut random);
    for (what, most) in NUMBERS {
        operations_beyond_check(&mut random, what, most);
    }
    small_table();
    for (count, length) in PAIRED {
        beside_buddy(&mut random, count, length);
    }
}
