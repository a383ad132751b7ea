//! The sample cell `two-wires-at-once`: what a tool lists that flips the wires of a
//! picosecond one by one, and how it differs from the rules.

use comparison::functions::NEVER;
use comparison::other_tool::{self, Sample};
use comparison::refusal::Refusal;
use comparison::simulator::circuit::Circuit;
use comparison::simulator::pattern::State;
use comparison::simulator::reach::Reach;
use comparison::simulator::run::Run;

const SAMPLE: Sample = Sample("two-wires-at-once");

/// The order in which the wires of a picosecond are flipped.
#[derive(Clone, Copy, PartialEq, Eq)]
enum Order {
    Rising,
    Falling,
}

/// A step of the tool that is wrong: each wire is flipped, and what it reaches is read,
/// before the next one is.
fn step(
    state: &mut State,
    circuit: &Circuit,
    pattern: usize,
    time: u32,
    order: Order,
) -> Result<(), Refusal> {
    let entries = circuit.cell.schedule.iter();
    let now = entries.filter(|entry| entry.time == time);
    let sources = now.map(|entry| (usize::from(entry.node), entry.source.at(pattern)));
    let inputs = sources.filter(|&(node, value)| state.values[node] != value);
    let due = circuit.records().filter(|&node| state.next[node] == time);
    let mut wires: Vec<usize> = inputs.map(|(node, _)| node).chain(due).collect();
    wires.sort();
    if order == Order::Falling {
        wires.reverse();
    }
    for wire in wires {
        let before = state.values.clone();
        state.values[wire] = !state.values[wire];
        state.next[wire] = NEVER;
        let reach = Reach {
            circuit,
            before: &before,
            after: &state.values,
        };
        let reconsidered = reach.reconsidered();
        state.consider(circuit, time, &reconsidered)?;
    }
    Ok(())
}

/// Runs a cell one by one to its end; gives also its listing after the start.
fn one_by_one(circuit: &Circuit, order: Order) -> (Run, Vec<String>) {
    other_tool::run(circuit, |state, pattern, time| {
        step(state, circuit, pattern, time, order)
    })
}

/// The table has what both tools list from 220 ps on.
#[test]
fn side_by_side() {
    let (_, wrong) = one_by_one(&Circuit::new(&SAMPLE.cell()), Order::Rising);
    for (column, listing) in [(1, SAMPLE.listing()), (2, wrong)] {
        let first = listing.iter().position(|line| line.starts_with("220 "));
        let from = &listing[first.expect("a change at 220 ps")..];
        assert_eq!(SAMPLE.told(column), from, "column {column}");
    }
}

/// Whichever wire is taken first, one by one a precharged node keeps its charge in
/// pattern 1 and the release does not come; the other patterns tell nothing.
#[test]
fn told_apart_by_one_pattern() {
    let cell = SAMPLE.cell();
    let circuit = Circuit::new(&cell);
    let mut by_the_rules = Run::start(&circuit).expect("a start");
    while let Some(time) = by_the_rules.next_time(&circuit) {
        by_the_rules.step(&circuit, time).expect("a step");
    }
    // The nodes p0, p1 and r.
    let ends = |run: &Run| [8, 13, 15].map(|node| run.states[1].values[node]);
    assert_eq!(ends(&by_the_rules), [false, false, true]);
    for (order, expected) in [
        (Order::Rising, [false, true, false]),
        (Order::Falling, [true, false, false]),
    ] {
        let (wrong, _) = one_by_one(&circuit, order);
        assert_eq!(ends(&wrong), expected);
        for pattern in [0, 2, 3] {
            assert_eq!(wrong.states[pattern], by_the_rules.states[pattern]);
        }
    }
}
