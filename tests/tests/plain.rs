//! The plain program of `bench` against the simulator: the values and next changes of all
//! nodes at all patterns, at the end of a run and at steps on the way, and at which patterns
//! the ceiling is exceeded.

#[path = "../../bench/src/plain.rs"]
mod plain;

use comparison::cell_file::{parse, Cell};
use comparison::functions::NEVER;
use comparison::generate::live::{self, Size};
use comparison::random::Random;
use comparison::refusal::Refusal;
use comparison::simulator::circuit::Circuit;
use comparison::simulator::pattern::State;
use comparison::simulator::run::Run;
use comparison::vectors;
use plain::{AboveCeiling, Plain, Work};

/// What was compared.
#[derive(Debug, Default)]
struct Seen {
    cells: u64,
    runs: u64,
    /// Patterns of these runs, and those that are refused.
    patterns: u64,
    refused: u64,
}

/// The times of the first steps of a run, the one that is refused among them.
fn times(cell: &Cell) -> Vec<u32> {
    let circuit = Circuit::new(cell);
    let mut run = Run::start(&circuit).ok();
    let step = || {
        let mut stepped = run.take()?;
        let time = stepped.next_time(&circuit)?;
        let answered = stepped.step(&circuit, time);
        run = answered.is_ok().then_some(stepped);
        Some(time)
    };
    std::iter::from_fn(step).take(60).collect()
}

/// Runs one pattern to its end by the simulator.
fn simulate(circuit: &Circuit, pattern: usize) -> Result<State, Refusal> {
    let mut run = Run {
        now: 0,
        states: vec![State::start(circuit, pattern)?],
    };
    while let Some(time) = run.next_time(circuit) {
        run.states[0].step(circuit, pattern, time)?;
        run.now = time;
    }
    Ok(run.states.remove(0))
}

/// The cell as if time ended here.
fn until(cell: &Cell, horizon: u32) -> Cell {
    let mut cell = cell.clone();
    cell.horizon = horizon;
    cell.schedule.retain(|entry| entry.time <= horizon);
    cell
}

/// Runs a cell to its end by both programs.
fn compare(seen: &mut Seen, cell: &Cell, work: &mut Work) {
    let circuit = Circuit::new(cell);
    let plain = Plain::new(cell);
    let mut high = Ok(0);
    for pattern in 0..circuit.patterns() {
        let ended = simulate(&circuit, pattern);
        let remembered = plain.run::<true>(pattern, work);
        let walked = plain.run::<false>(pattern, work);
        for plain in [remembered, walked] {
            let state = match (&plain, &ended) {
                (Ok(_), Ok(state)) => state,
                (Err(AboveCeiling), Err(Refusal::Ceiling)) => continue,
                _ => panic!("{plain:?} is not {ended:?}, pattern {pattern}, {cell:?}"),
            };
            let plain = plain.expect("it is answered");
            for node in circuit.records() {
                let is = (plain.values >> node & 1 == 1, plain.next[node]);
                let should = (state.values[node], state.next[node]);
                assert_eq!(is, should, "node {node}, pattern {pattern}, {cell:?}");
            }
        }
        seen.patterns += 1;
        seen.refused += u64::from(ended.is_err());
        high = match (high, ended) {
            (Ok(high), Ok(State { values, .. })) => {
                Ok(high + values.into_iter().filter(|&high| high).count() as u32)
            }
            _ => Err(AboveCeiling),
        };
    }
    assert_eq!(plain.run_all::<true>(work), high, "{cell:?}");
    seen.runs += 1;
}

/// Compares the run of a cell up to some of its first steps.
fn compare_steps(seen: &mut Seen, cell: &Cell, most: usize) {
    let mut work = Work::new();
    let times = times(cell);
    let apart = times.len().div_ceil(most).max(1);
    seen.cells += 1;
    // The last of them is among them.
    for &time in times.iter().rev().step_by(apart) {
        compare(seen, &until(cell, time), &mut work);
    }
    if times.is_empty() {
        compare(seen, cell, &mut work);
    }
}

/// The cells that are kept.
#[test]
fn kept_cells() {
    let mut seen = Seen::default();
    for vector in [vectors::given(), vectors::samples()].concat() {
        if let Ok(cell) = parse(&vector.file) {
            compare_steps(&mut seen, &cell, 6);
        }
    }
    println!("{seen:?}");
    assert!(seen.cells > 60, "{seen:?}");
}

/// Cells in which much happens.
#[test]
fn live_cells() {
    let mut random = Random::new(33);
    let mut seen = Seen::default();
    for _ in 0..2_000 {
        let size = random.pick(&[Size::Small, Size::Small, Size::Middle, Size::Dense]);
        let letters = random.between(0, 3);
        let cell = live::cell(&mut random, size, letters);
        compare_steps(&mut seen, &cell, 4);
    }
    println!("{seen:?}");
    assert!(seen.patterns > 10_000, "{seen:?}");
    assert!(seen.refused > 300, "{seen:?}");
    assert!(2 * seen.refused < seen.patterns, "{seen:?}");
}

/// Both programs mean the same by never, and refuse with the same number.
#[test]
fn numbers() {
    assert_eq!(plain::NEVER, NEVER);
    assert_eq!(plain::REFUSED, Refusal::Ceiling.number());
}
