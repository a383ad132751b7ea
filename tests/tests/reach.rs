//! Rule 2 as document 02, wish 2 amends it, on cells made by hand: which nodes a step
//! reconsiders, and which keep their next change.

use comparison::cell_file::Source;
use comparison::draft::{Draft, GROUND, SUPPLY};
use comparison::functions::NEVER;
use comparison::simulator::circuit::Circuit;
use comparison::simulator::pattern::State;

/// The time of the step, and the far time at which all changes pend before it.
const T: u32 = 10;
const FAR: u32 = 900;

/// A cell that is drawn so that a step tells which nodes it reconsiders: every inner
/// node is low and pulled up, and its change pends at a far time. Worked out anew, it
/// comes earlier.
struct Drawing(Draft);

impl Drawing {
    fn new() -> Drawing {
        Drawing(Draft::new(0, 1_000))
    }

    fn inner(&mut self) -> u8 {
        let node = self.0.inner(10, Source::Low);
        self.0.p(GROUND, [SUPPLY, node], 1_000);
        node
    }

    /// An input that has a value and changes it at T.
    fn moving(&mut self, high: bool) -> u8 {
        let [from, to] = [high, !high].map(source);
        let input = self.0.input(from);
        self.0.at(T, input, to);
        input
    }

    fn still(&mut self, high: bool) -> u8 {
        self.0.input(source(high))
    }

    fn n(&mut self, gate: u8, ends: [u8; 2]) {
        self.0.n(gate, ends, 1_000);
    }

    fn p(&mut self, gate: u8, ends: [u8; 2]) {
        self.0.p(gate, ends, 1_000);
    }

    /// The next changes of these nodes after the step to T, at which others flip.
    fn next(&self, nodes: &[u8], flipping: &[u8]) -> Vec<u32> {
        let cell = self.0.clone().finish();
        let circuit = Circuit::new(&cell);
        let mut state = State::start(&circuit, 0).expect("a start");
        for node in circuit.records().filter(|&node| circuit.is_inner(node)) {
            let flips = flipping.iter().any(|&flips| usize::from(flips) == node);
            state.next[node] = if flips { T } else { FAR };
        }
        state.step(&circuit, 0, T).expect("a step");
        nodes
            .iter()
            .map(|&node| state.next[usize::from(node)])
            .collect()
    }

    /// Whether each of these nodes is reconsidered in the step to T, at which others flip.
    fn reconsiders(&self, nodes: &[u8], flipping: &[u8]) -> Vec<bool> {
        let next = self.next(nodes, flipping);
        next.into_iter().map(|time| time < FAR).collect()
    }
}

fn source(high: bool) -> Source {
    match high {
        true => Source::High,
        false => Source::Low,
    }
}

/// Nodes in a row, and the channels between them: how the row is drawn, and which of its
/// nodes are reconsidered.
fn in_a_row(channels: &[fn(&mut Drawing, [u8; 2])]) -> Vec<bool> {
    let mut drawing = Drawing::new();
    let row: Vec<u8> = (0..=channels.len()).map(|_| drawing.inner()).collect();
    for (channel, ends) in channels.iter().zip(row.windows(2)) {
        channel(&mut drawing, [ends[0], ends[1]]);
    }
    drawing.reconsiders(&row, &[])
}

fn on(drawing: &mut Drawing, ends: [u8; 2]) {
    drawing.n(SUPPLY, ends);
}

fn off(drawing: &mut Drawing, ends: [u8; 2]) {
    drawing.n(GROUND, ends);
}

/// Conducts just before T.
fn before(drawing: &mut Drawing, ends: [u8; 2]) {
    let gate = drawing.moving(true);
    drawing.n(gate, ends);
}

/// Conducts just after T.
fn after(drawing: &mut Drawing, ends: [u8; 2]) {
    let gate = drawing.moving(true);
    drawing.p(gate, ends);
}

/// A gate changes: both ends are reconsidered, and what conducting channels lead to,
/// whether they conduct just before, just after, or both, one kind after the other.
#[test]
fn conducting_before_or_after() {
    for channel in [before, after] {
        assert_eq!(in_a_row(&[channel]), [true; 2]);
        assert_eq!(in_a_row(&[on, on, channel, on]), [true; 5]);
    }
    assert_eq!(in_a_row(&[on, before, on, after, on]), [true; 6]);
    assert_eq!(in_a_row(&[before, after, before]), [true; 4]);
}

/// A node that is cut off keeps its next change, though channels lead on that do not
/// conduct; without a change all do.
#[test]
fn cut_off() {
    let mut expected = vec![true, true, true, false, false];
    assert_eq!(in_a_row(&[before, on, off, on]), expected);
    expected.reverse();
    assert_eq!(in_a_row(&[on, off, on, after]), expected);
    assert_eq!(in_a_row(&[on, off, on]), [false; 4]);
}

/// A transistor that closes a loop conducts too; here it is broken and leads where the
/// kept ones lead.
#[test]
fn round_a_loop() {
    let mut drawing = Drawing::new();
    let [a, b, c, d] = [(); 4].map(|()| drawing.inner());
    let gate = drawing.moving(false);
    drawing.n(gate, [GROUND, a]);
    for ends in [[a, b], [b, c], [a, c]] {
        drawing.n(SUPPLY, ends);
    }
    drawing.n(GROUND, [c, d]);
    let reconsidered = drawing.reconsiders(&[a, b, c, d], &[]);
    assert_eq!(reconsidered, [true, true, true, false]);
}

/// Nothing leads across an input or a rail.
#[test]
fn not_across_driven_nodes() {
    let mut drawing = Drawing::new();
    let [a, b, c] = [(); 3].map(|()| drawing.inner());
    let between = drawing.still(true);
    let gate = drawing.moving(false);
    drawing.n(gate, [GROUND, a]);
    drawing.n(SUPPLY, [a, between]);
    drawing.n(SUPPLY, [between, b]);
    drawing.n(SUPPLY, [a, SUPPLY]);
    drawing.n(SUPPLY, [SUPPLY, c]);
    let reconsidered = drawing.reconsiders(&[a, b, c], &[]);
    assert_eq!(reconsidered, [true, false, false]);
}

/// An input moves at an end of a transistor that is on or off: the inner node at the other
/// end is reconsidered, with what is joined to it. An input that stands still does nothing.
#[test]
fn input_at_an_end() {
    for (gate, moves) in [
        (SUPPLY, true),
        (GROUND, true),
        (SUPPLY, false),
        (GROUND, false),
    ] {
        let mut drawing = Drawing::new();
        let [a, b, c] = [(); 3].map(|()| drawing.inner());
        let input = match moves {
            true => drawing.moving(true),
            false => drawing.still(true),
        };
        drawing.n(gate, [a, input]);
        drawing.n(SUPPLY, [a, b]);
        drawing.n(GROUND, [b, c]);
        let reconsidered = drawing.reconsiders(&[a, b, c], &[]);
        assert_eq!(reconsidered, [moves, moves, false], "gate {gate}");
    }
}

/// A schedule entry that repeats the value is a step that reconsiders nothing.
#[test]
fn repeated_value() {
    let mut drawing = Drawing::new();
    let [a, b] = [(); 2].map(|()| drawing.inner());
    let input = drawing.still(true);
    drawing.0.at(T, input, Source::High);
    drawing.n(input, [GROUND, a]);
    drawing.n(SUPPLY, [input, b]);
    assert_eq!(drawing.next(&[a, b], &[]), [FAR, FAR]);
}

/// An inner node flips: what it gates is disturbed, and nothing at its own channels is. It
/// is reconsidered where it is joined to an end of what it gates; else it has no next
/// change, although it is pulled back.
#[test]
fn flip_of_an_inner_node() {
    for joined in [false, true] {
        let mut drawing = Drawing::new();
        let [flips, neighbour, end] = [(); 3].map(|()| drawing.inner());
        drawing.n(SUPPLY, [flips, neighbour]);
        drawing.n(flips, [GROUND, end]);
        // Stronger than the pull-ups.
        drawing.0.n(SUPPLY, [GROUND, flips], 100);
        let gate = if joined { SUPPLY } else { GROUND };
        drawing.n(gate, [neighbour, end]);
        let next = drawing.next(&[flips, neighbour, end], &[flips]);
        let changed = next.iter().map(|&time| time != FAR).collect::<Vec<_>>();
        assert_eq!(changed, [true, joined, true]);
        assert_eq!(next[0] == NEVER, !joined, "{next:?}");
    }
}

/// A start considers every inner node, also where no channel is and none changes.
#[test]
fn start() {
    let mut drawing = Drawing::new();
    let driven = drawing.inner();
    let [lone, high, low] = [(10, Source::High), (30, Source::High), (20, Source::Low)]
        .map(|(capacitance, start)| drawing.0.inner(capacitance, start));
    drawing.n(SUPPLY, [high, low]);
    let cell = drawing.0.finish();
    let state = State::start(&Circuit::new(&cell), 0).expect("a start");
    let next = [driven, lone, high, low].map(|node| state.next[usize::from(node)]);
    assert_eq!(next, [10, NEVER, NEVER, 20]);
}
