//! The sample cell `barrel-two-columns`: what a tool lists that reconsiders all nodes
//! that channels link, conducting or not, and how it differs from the rules (document 02,
//! wish 2).

use comparison::functions::NEVER;
use comparison::other_tool::{self, Sample};
use comparison::refusal::Refusal;
use comparison::simulator::circuit::Circuit;
use comparison::simulator::pattern::State;
use comparison::simulator::reach::Reach;
use comparison::simulator::run::Run;

const SAMPLE: Sample = Sample("barrel-two-columns");

/// Column w0, and when column w1 goes over to another data wire.
const W0: usize = 12;
const OVER: u32 = 1110;

/// A step of the other tool.
fn step(state: &mut State, circuit: &Circuit, pattern: usize, time: u32) -> Result<(), Refusal> {
    let before = state.arrive(circuit, pattern, time);
    let reach = Reach {
        circuit,
        before: &before,
        after: &state.values,
    };
    let linked = reach.along(|_| true);
    state.consider(circuit, time, &linked)
}

/// What both tools list after the start: the rules, then the other.
fn listings() -> [Vec<String>; 2] {
    let cell = SAMPLE.cell();
    let circuit = Circuit::new(&cell);
    let step = |state: &mut State, pattern, time| step(state, &circuit, pattern, time);
    let (_, other) = other_tool::run(&circuit, step);
    [SAMPLE.listing(), other]
}

/// The table in `cells/README.md` has what both tools list from 1110 ps on.
#[test]
fn side_by_side() {
    for (column, listing) in (1..).zip(listings()) {
        let first = listing.iter().position(|line| line.starts_with("1110 "));
        let from = &listing[first.expect("a change at 1110 ps")..];
        assert_eq!(SAMPLE.told(column), from, "column {column}");
    }
}

/// Two lines differ: those of w0 at 1150 ps and of its output at 1170 ps.
#[test]
fn differing_lines() {
    let [rules, other] = listings();
    assert_eq!(rules.len(), other.len());
    let pairs = rules.iter().zip(&other);
    let differing: Vec<_> = pairs.filter(|(one, other)| one != other).collect();
    let [first, second] = differing[..] else {
        panic!("other lines differ: {differing:?}");
    };
    assert_eq!(first, (&"1150 12 28".to_owned(), &"1150 12 24".to_owned()));
    assert_eq!(second, (&"1170 14 4".to_owned(), &"1170 14 8".to_owned()));
}

/// When w0 is due to fall at each pattern, as a step leaves it when w1 goes over.
fn due(
    circuit: &Circuit,
    step: impl Fn(&mut State, usize, u32) -> Result<(), Refusal>,
) -> Vec<u32> {
    let mut run = Run::start(circuit).expect("a start");
    while run.now < OVER {
        run.now = run.next_time(circuit).expect("another step");
        for (pattern, state) in run.states.iter_mut().enumerate() {
            step(state, pattern, run.now).expect("a step");
        }
    }
    run.states.iter().map(|state| state.next[W0]).collect()
}

/// A select line of w1 brings the fall of w0 forward where w0 takes the wire that w1
/// leaves; in the other tool it does so too where w0 takes a wire that it cannot reach.
#[test]
fn told_apart_by_patterns() {
    let cell = SAMPLE.cell();
    let circuit = Circuit::new(&cell);
    let by_the_rules = due(&circuit, |state, pattern, time| {
        state.step(&circuit, pattern, time)
    });
    let by_links = due(&circuit, |state, pattern, time| {
        step(state, &circuit, pattern, time)
    });
    for pattern in 0..circuit.patterns() {
        let letter = |number: usize| pattern >> number & 1 == 1;
        let [takes_e1, goes_over] = [0, 1].map(letter);
        let falls = if takes_e1 { letter(3) } else { letter(2) };
        let [rules, links] = match (takes_e1, goes_over) {
            _ if !falls => [NEVER; 2],
            (true, true) => [1150, 1150],
            (true, false) => [1200, 1200],
            (false, true) => [1180, 1150],
            (false, false) => [1180, 1180],
        };
        assert_eq!(by_the_rules[pattern], rules, "pattern {pattern}");
        assert_eq!(by_links[pattern], links, "pattern {pattern}");
    }
}
