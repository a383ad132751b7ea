//! Prints how long whole runs take, beside a plain program that runs one pattern
//! after the other.

use bench::cells::{self, Named};
use bench::plain::{AboveCeiling, Plain, Work, REFUSED};
use bench::run::Tool;
use comparison::cell_file::{Cell, FIRST_NODE};
use comparison::functions::Table;
use comparison::simulator::calls::{NEXT, USED, VALUES, WORKING};
use std::time::{Duration, Instant};

/// How often each run is timed at most; the fastest counts. One that takes longer
/// than a second is timed once.
const ROUNDS: usize = 5;

/// What the tool answers is above the ceiling at no pattern.
const ANSWERED: &str = "the tool answers";

/// The fastest of some rounds.
fn least(mut round: impl FnMut() -> Duration) -> Duration {
    let mut least = round();
    for _ in 1..ROUNDS {
        if least > Duration::from_secs(1) {
            break;
        }
        least = least.min(round());
    }
    least
}

/// The time that the plain program takes for all patterns, up to one that is refused.
fn time_plain<const REMEMBER: bool>(plain: &Plain) -> Duration {
    let mut work = Work::new();
    least(|| {
        let start = Instant::now();
        let _ = std::hint::black_box(plain.run_all::<REMEMBER>(&mut work));
        start.elapsed()
    })
}

/// Fails unless both programs refuse alike or end with the same values and next changes.
/// The plain program has no table that could be full.
fn check(cell: &Cell, tool: &Tool, plain: &Plain, answer: u32) {
    match answer {
        0 => check_ends(cell, tool, plain),
        REFUSED => {
            let plain = plain.run_all::<true>(&mut Work::new());
            assert_eq!(plain, Err(AboveCeiling), "the tool refuses {answer}");
        }
        _ => {}
    }
}

fn check_ends(cell: &Cell, tool: &Tool, plain: &Plain) {
    let used = tool.record[USED];
    let table = Table::read(&tool.table, used, cell.letters).expect("the table is sound");
    let function = |at: usize| table.function(tool.record[at]).expect("an entry");
    let nodes = 0..cell.nodes.len();
    let values: Vec<_> = nodes.clone().map(|node| function(VALUES + node)).collect();
    let next: Vec<_> = nodes.map(|node| function(NEXT + node)).collect();
    let mut work = Work::new();
    for pattern in 0..1 << cell.letters {
        let ended = plain.run::<true>(pattern, &mut work).expect(ANSWERED);
        let walked = plain.run::<false>(pattern, &mut work).expect(ANSWERED);
        assert_eq!(ended.values, walked.values, "pattern {pattern}");
        for (node, (value, next)) in (FIRST_NODE..).zip(values.iter().zip(&next)) {
            let is = (ended.values >> node & 1, ended.next[node]);
            let should = (value[pattern], next[pattern]);
            assert_eq!(is, should, "node {node} at pattern {pattern}");
        }
    }
}

fn millis(time: Duration) -> String {
    format!("{:.3}", time.as_secs_f64() * 1e3)
}

/// One line: the tool and the plain program on a cell.
fn line(Named { name, cell }: &Named) {
    let plain = Plain::new(cell);
    let mut tool = Tool::new(cell, *WORKING.end());
    let mut answer = 0;
    let ours = least(|| {
        tool.renew();
        let start = Instant::now();
        answer = tool.run();
        start.elapsed()
    });
    check(cell, &tool, &plain, answer);
    let theirs = time_plain::<true>(&plain);
    let walked = time_plain::<false>(&plain);
    let ratio = |other: Duration| match answer {
        0 => format!("{:.3}", ours.as_secs_f64() / other.as_secs_f64()),
        _ => String::from("-"),
    };
    let (answered, entries) = match answer {
        0 => (String::from("answered"), tool.record[USED].to_string()),
        number => (format!("refused {number}"), String::from("-")),
    };
    println!(
        "{name:<34} {:>7} {answered:>10} {entries:>7} {:>11} {:>11} {:>8} {:>11} {:>8}",
        cell.letters,
        millis(ours),
        millis(theirs),
        ratio(theirs),
        millis(walked),
        ratio(walked),
    );
}

fn main() {
    println!(
        "{:<34} {:>7} {:>10} {:>7} {:>11} {:>11} {:>8} {:>11} {:>8}",
        "cell",
        "letters",
        "answer",
        "entries",
        "tool ms",
        "plain ms",
        "ratio",
        "walked ms",
        "ratio"
    );
    for cell in cells::all() {
        line(&cell);
    }
}
