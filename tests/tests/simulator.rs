//! The second implementation's simulator by itself: cells made by hand, with the
//! numbers that the requirements give.

use comparison::cell_file::{Cell, Channel, Entry, Layout, Node, Role, Source, Transistor};
use comparison::functions::{Columns, FIRST, NEVER};
use comparison::refusal::Refusal;
use comparison::simulator::arithmetic::{Load, Ohms, Sum, CEILING};
use comparison::simulator::calls::{Call, Lent, ANSWER, NEXT, RECORD, TIME, USED, VALUES};
use comparison::simulator::circuit::Circuit;
use comparison::simulator::pattern::State;
use comparison::simulator::walk::{Ends, Walk};

fn input(start: Source) -> Node {
    let role = Role::Input;
    Node { role, start }
}

fn inner(capacitance: u16, start: Source) -> Node {
    let role = Role::Inner { capacitance };
    Node { role, start }
}

fn n(gate: u8, ends: [u8; 2], resistance: u32) -> Transistor {
    let channel = Channel::N;
    Transistor {
        channel,
        gate,
        ends,
        resistance,
    }
}

fn p(gate: u8, ends: [u8; 2], resistance: u32) -> Transistor {
    Transistor {
        channel: Channel::P,
        ..n(gate, ends, resistance)
    }
}

fn cell(letters: u32, nodes: &[Node], transistors: &[Transistor], schedule: &[Entry]) -> Cell {
    Cell {
        letters,
        horizon: 1000,
        nodes: nodes.to_vec(),
        transistors: transistors.to_vec(),
        schedule: schedule.to_vec(),
    }
}

/// The inverter of the requirements.
fn inverter() -> Cell {
    cell(
        2,
        &[input(Source::Letter(0)), inner(50, Source::NotLetter(0))],
        &[p(2, [1, 3], 2000), n(2, [0, 3], 1000)],
        &[Entry {
            time: 200,
            node: 2,
            source: Source::Letter(1),
        }],
    )
}

/// A cell's file with a fresh table and all that a call is lent.
fn lent(cell: &Cell, length: usize) -> (Vec<u8>, Lent) {
    let lent = Lent {
        table: Columns::of(&FIRST, length),
        record: vec![7; RECORD],
        working: Columns::of(&FIRST, 4_096),
        answer: vec![7; ANSWER],
    };
    (Layout::in_order(cell).file, lent)
}

const START: Call = Call::Start { used: 3 };

/// Cases (a) and (b): resistances in parallel.
#[test]
fn parallel() {
    let one = Ohms::Finite(1);
    assert_eq!(one.parallel(one), one);
    let thousand = Ohms::Finite(1000);
    let two = Ohms::Infinite.parallel(thousand).parallel(thousand);
    assert_eq!(two, Ohms::Finite(500));
    assert_eq!(two.parallel(thousand), Ohms::Finite(334));
    assert_eq!(Ohms::Infinite.parallel(Ohms::Infinite), Ohms::Infinite);
}

/// Both sides of an arm come from the old sides.
#[test]
fn arms() {
    let tied = |high, low| Sum {
        high,
        low,
        charge_high: 3,
        charge_low: 4,
    };
    let finite = Ohms::Finite;
    let both = tied(finite(300), finite(700)).arm(100);
    assert_eq!(both, Ok(tied(finite(443), finite(1034))));
    let high = tied(finite(300), Ohms::Infinite).arm(100);
    assert_eq!(high, Ok(tied(finite(400), Ohms::Infinite)));
    let none = tied(Ohms::Infinite, Ohms::Infinite).arm(100);
    assert_eq!(none, Ok(tied(Ohms::Infinite, Ohms::Infinite)));
}

/// Exactly the ceiling is answered, on either side, and is no tie; one ohm more is
/// refused.
#[test]
fn arms_about_the_ceiling() {
    let tied = |high, low| Sum {
        high: Ohms::Finite(high),
        low: Ohms::Finite(low),
        charge_high: 0,
        charge_low: 0,
    };
    let at = tied(52_578, 1).arm(19_018);
    assert_eq!(at, Ok(tied(CEILING, 19_020)));
    assert_eq!(at.map(|sum| sum.value(true)), Ok(false), "no tie");
    assert_eq!(tied(1, 52_578).arm(19_018), Ok(tied(19_020, CEILING)));
    assert_eq!(tied(42_268, 1).arm(23_657), Err(Refusal::Ceiling));
    assert_eq!(tied(1, 42_268).arm(23_657), Err(Refusal::Ceiling));
    let alone = |high| Sum {
        low: Ohms::Infinite,
        ..tied(high, 0)
    };
    assert_eq!(alone(CEILING - 1).arm(1), Ok(alone(CEILING)));
    assert_eq!(alone(CEILING).arm(1), Err(Refusal::Ceiling));
}

/// Case (c), and the charges of cases (d) and (e).
#[test]
fn values() {
    let drive = |high, low| Sum {
        high,
        low,
        charge_high: 1,
        charge_low: 9,
    };
    let finite = Ohms::Finite;
    for present in [false, true] {
        assert_eq!(drive(finite(5), finite(5)).value(present), present);
        assert!(drive(finite(4), finite(5)).value(present));
        assert!(!drive(finite(5), finite(4)).value(present));
        assert!(drive(finite(CEILING), Ohms::Infinite).value(present));
        assert!(!drive(Ohms::Infinite, finite(CEILING)).value(present));
        assert!(!drive(Ohms::Infinite, Ohms::Infinite).value(present));
        let joined = |low| Sum::inner(true, 30).join(Sum::inner(false, low));
        assert!(joined(20).value(present));
        assert_eq!(joined(30).value(present), present);
    }
}

/// Case (f): two series transistors of 1,000 ohm, 20 fF between them and 50 fF at
/// the output.
#[test]
fn series() {
    let cell = cell(
        0,
        &[inner(20, Source::High), inner(50, Source::High)],
        &[n(1, [0, 2], 1000), n(1, [2, 3], 1000)],
        &[],
    );
    let circuit = Circuit::new(&cell);
    let values = [false, true, true, true];
    let kept = circuit.kept(&values);
    let walk = Walk {
        circuit: &circuit,
        values: &values,
        kept: &kept,
    };
    let load = walk.load(3, None, false, Ends::Driven);
    let expected = Load {
        resistance: Ohms::Finite(2000),
        capacitance: 60,
    };
    assert_eq!(load, expected);
    assert_eq!(load.delay(), 120);
    let (file, mut lent) = lent(&cell, 10);
    assert_eq!(START.answer(&file, &mut lent), Ok(()));
    assert_eq!(ask(&file, &mut lent, 3, 0), Ok((1, 120)));
}

fn ask(file: &[u8], lent: &mut Lent, node: u32, pattern: u32) -> Result<(u32, u32), Refusal> {
    Call::Ask { node, pattern }.answer(file, lent)?;
    Ok((lent.answer[0], lent.answer[1]))
}

/// The next changes at the start of inner nodes with these capacitances and values,
/// numbered from 2, and channels that conduct.
fn changes(nodes: &[(u16, bool)], channels: &[([u8; 2], u32)]) -> Vec<u32> {
    let source = |high| if high { Source::High } else { Source::Low };
    let node = |&(capacitance, high)| inner(capacitance, source(high));
    let nodes: Vec<Node> = nodes.iter().map(node).collect();
    let channel = |&(ends, resistance)| n(1, ends, resistance);
    let transistors: Vec<Transistor> = channels.iter().map(channel).collect();
    let cell = cell(0, &nodes, &transistors, &[]);
    let state = State::start(&Circuit::new(&cell), 0).expect("a start");
    state.next[2..].to_vec()
}

/// Case (d), either way round, with the delay of document 02, wish 6; equal charges
/// keep; the least delay, and rounding up.
#[test]
fn shared_charge() {
    for (one, other, resistance, expected) in [
        ((30, true), (20, false), 1000, [NEVER, 20]),
        ((20, true), (30, false), 1500, [30, NEVER]),
        ((20, true), (20, false), 1000, [NEVER, NEVER]),
        ((2, true), (1, false), 1, [NEVER, 1]),
        ((2, true), (1, false), 1000, [NEVER, 1]),
        ((2, true), (1, false), 1001, [NEVER, 2]),
    ] {
        let changes = changes(&[one, other], &[([2, 3], resistance)]);
        assert_eq!(changes, expected, "{one:?} and {other:?}");
    }
}

/// Holders of the new value stand in parallel; what lies behind one is not seen; a
/// node that has yet to change is no end, and its charge counts, also where its arm
/// is infinite.
#[test]
fn holders_of_the_new_value() {
    let (low, high) = ((40, false), (30, true));
    let chain = [([2, 3], 1000), ([3, 4], 1000)];
    let fork = [([2, 3], 1000), ([2, 4], 1000)];
    assert_eq!(changes(&[low, high, high], &fork), [20, NEVER, NEVER]);
    assert_eq!(changes(&[low, high, high], &chain), [40, NEVER, NEVER]);
    assert_eq!(changes(&[low, (60, true)], &chain[..1]), [40, NEVER]);
    let between = [(20, false), (10, false), (50, true)];
    assert_eq!(changes(&between, &chain), [50, 30, NEVER]);
}

/// Where a side drives, beside a holder or behind it, a holder is no end.
#[test]
fn holders_in_a_driven_tree() {
    let nodes = [(20, false), (50, true)];
    let beside = [([1, 2], 2000), ([2, 3], 1000)];
    assert_eq!(changes(&nodes, &beside), [40, NEVER]);
    let behind = [([1, 3], 1000), ([2, 3], 1000)];
    assert_eq!(changes(&nodes, &behind), [40, NEVER]);
}

/// There is no delay where nothing holds the new value.
#[test]
#[should_panic(expected = "nothing holds its new value")]
fn no_holder() {
    Load::inner(false, 1).delay();
}

/// A loop is broken at its last transistor, two parallel ones between inner nodes
/// are such a loop, and meeting at a rail is none.
#[test]
fn loops() {
    let node = inner(1, Source::High);
    let ring = [n(1, [2, 3], 1), n(1, [3, 4], 1), n(1, [2, 4], 1)];
    let rail = [
        n(1, [0, 2], 1),
        n(1, [0, 2], 1),
        n(1, [2, 3], 1),
        n(1, [0, 3], 1),
    ];
    let twice = [n(1, [2, 3], 1), p(0, [3, 2], 1)];
    let off = [n(0, [2, 3], 1), p(0, [2, 3], 1)];
    for (transistors, kept) in [
        (&ring[..], &[true, true, false][..]),
        (&rail, &[true; 4]),
        (&twice, &[true, false]),
        (&off, &[false, true]),
    ] {
        let cell = cell(0, &[node; 3], transistors, &[]);
        let values = [false, true, true, true, true];
        assert_eq!(Circuit::new(&cell).kept(&values), kept, "{transistors:?}");
    }
}

/// Case (g): the used counts of the inverter, step by step and in one run.
#[test]
fn used_counts() {
    let (file, mut lent) = lent(&inverter(), 14);
    assert_eq!(START.answer(&file, &mut lent), Ok(()));
    assert_eq!(lent.record[..2], [0, 5]);
    let started = lent.clone();
    for (time, used) in [(200, 11), (250, 14), (300, 14)] {
        assert_eq!(Call::Step.answer(&file, &mut lent), Ok(()));
        assert_eq!([lent.record[TIME], lent.record[USED]], [time, used]);
    }
    let finished = lent.clone();
    assert_eq!(Call::Step.answer(&file, &mut lent), Err(Refusal::Finished));
    assert_eq!(lent, finished);
    let mut run = started.clone();
    assert_eq!(Call::Run { until: 1000 }.answer(&file, &mut run), Ok(()));
    assert_eq!(run, finished);
    for until in [299, 250] {
        run = started.clone();
        assert_eq!(Call::Run { until }.answer(&file, &mut run), Ok(()));
        assert_eq!(run.record[TIME], 250);
    }
}

/// With 13 entries the step to 250 is refused, and with 4 the start.
#[test]
fn too_short() {
    let (file, mut short) = lent(&inverter(), 4);
    let before = short.clone();
    assert_eq!(START.answer(&file, &mut short), Err(Refusal::Full));
    assert_eq!(
        (&short.table, &short.record),
        (&before.table, &before.record)
    );
    assert_eq!(short.working, Columns::of(&[], 4_096));
    let (file, mut short) = lent(&inverter(), 13);
    assert_eq!(START.answer(&file, &mut short), Ok(()));
    let started = short.clone();
    assert_eq!(
        Call::Run { until: 250 }.answer(&file, &mut short),
        Err(Refusal::Full)
    );
    assert_eq!(short, started);
    assert_eq!(Call::Step.answer(&file, &mut short), Ok(()));
    assert_eq!(Call::Step.answer(&file, &mut short), Err(Refusal::Full));
}

/// Questions at all nodes, rails among them, and those that there are not.
#[test]
fn questions() {
    let (file, mut lent) = lent(&inverter(), 14);
    assert_eq!(START.answer(&file, &mut lent), Ok(()));
    assert_eq!(Call::Step.answer(&file, &mut lent), Ok(()));
    for pattern in 0..4 {
        assert_eq!(ask(&file, &mut lent, 0, pattern), Ok((0, NEVER)));
        assert_eq!(ask(&file, &mut lent, 1, pattern), Ok((1, NEVER)));
        assert_eq!(ask(&file, &mut lent, 2, pattern), Ok((pattern >> 1, NEVER)));
    }
    for (pattern, value, next) in [(0, 1, NEVER), (1, 0, 300), (2, 1, 250), (3, 0, NEVER)] {
        assert_eq!(ask(&file, &mut lent, 3, pattern), Ok((value, next)));
    }
    for (node, pattern) in [(4, 0), (3, 4), (u32::MAX, 0), (0, 4), (2, u32::MAX)] {
        let asked = ask(&file, &mut lent, node, pattern);
        assert_eq!(
            asked,
            Err(Refusal::Question),
            "node {node}, pattern {pattern}"
        );
    }
}

/// Each way in which a record is unsound, and places that are not looked at.
#[test]
fn unsound_records() {
    let (file, mut lent) = lent(&inverter(), 20);
    assert_eq!(START.answer(&file, &mut lent), Ok(()));
    assert_eq!(Call::Step.answer(&file, &mut lent), Ok(()));
    let pending = lent.record[NEXT + 1];
    let used = lent.record[USED];
    let value = lent.record[VALUES];
    for (at, number, answer) in [
        (TIME, 0, Ok(())),
        (TIME, 249, Ok(())),
        (TIME, 250, Err(Refusal::Unsound)),
        (TIME, 1001, Err(Refusal::Unsound)),
        (USED, used - 1, Err(Refusal::Unsound)),
        (USED, used + 1, Err(Refusal::Unsound)),
        (VALUES, 0, Ok(())),
        (VALUES, 2, Err(Refusal::Unsound)),
        (VALUES, pending, Err(Refusal::Unsound)),
        (VALUES + 1, used, Err(Refusal::Unsound)),
        (VALUES + 1, u32::MAX, Err(Refusal::Unsound)),
        (VALUES + 2, u32::MAX, Ok(())),
        (NEXT, pending, Err(Refusal::Unsound)),
        (NEXT, 0, Err(Refusal::Unsound)),
        (NEXT + 1, value, Err(Refusal::Unsound)),
        (NEXT + 1, 2, Ok(())),
        (NEXT + 1, used, Err(Refusal::Unsound)),
        (NEXT + 2, u32::MAX, Ok(())),
        (RECORD - 1, 1, Ok(())),
    ] {
        let mut damaged = lent.clone();
        damaged.record[at] = number;
        let answered = ask(&file, &mut damaged, 2, 1).map(|_| ());
        assert_eq!(answered, answer, "{number} at {at}");
        let ran = Call::Run { until: 0 }.answer(&file, &mut damaged);
        assert_eq!(ran, answer, "{number} at {at}");
        let beyond = damaged.record[VALUES + 2..NEXT].iter();
        let beyond = beyond.chain(&damaged.record[NEXT + 2..]);
        assert!(answer.is_err() || beyond.into_iter().all(|&number| number == 0));
    }
}
