//! Every small cell in its order (document 02, wish 12), found by trying: files with
//! more numbers in their transistors than are legal are read, and the cells that come
//! of it are sorted.

use crate::cell_file::{parse, record_at, Cell, Channel, Node, Role, Source, Transistor};
use crate::refusal::Refusal;
use crate::saved;
use crate::simulator::circuit::Circuit;
use crate::simulator::pattern::State;
use crate::simulator::run::Run;
use std::collections::BTreeMap;
use std::fmt;

/// A cell of the list.
#[derive(Clone, Debug, PartialEq, Eq)]
pub struct Small {
    pub cell: Cell,
    /// Its saved form.
    pub file: Vec<u8>,
}

/// What a transistor is compared by: type, gate, first end and second end, as they
/// stand in its record.
pub type Fields = [u8; 4];

/// Where they stand in it.
const FIELDS_AT: usize = 4;

/// Types below this one are tried, and gates and ends below that one.
const TYPES: u8 = 3;
const NODES: u8 = 5;

/// All small cells in their order.
pub fn list() -> Vec<Small> {
    let tried = tried();
    let pairs = tried
        .iter()
        .flat_map(|&one| tried.iter().map(move |&other| vec![other, one]));
    let files = pairs.chain(tried.iter().map(|&one| vec![one]));
    let mut cells: Vec<Cell> = files
        .filter_map(|transistors| parse(&file_of(&transistors)).ok())
        .collect();
    cells.sort_by_cached_key(key);
    let small = |cell| Small {
        file: saved::of_cell(&cell),
        cell,
    };
    cells.into_iter().map(small).collect()
}

/// The file at a place of the list, if there is one and it fits into so many bytes.
pub fn file_in(list: &[Small], place: u32, room: usize) -> Result<Vec<u8>, Refusal> {
    let small = list.get(place as usize).ok_or(Refusal::Question)?;
    saved::fitting(small.file.clone(), room)
}

/// What cells are compared by: the number of transistors, then these one by one.
pub fn key(cell: &Cell) -> (usize, Vec<Fields>) {
    let fields = cell.transistors.iter().map(fields);
    (cell.transistors.len(), fields.collect())
}

fn fields(transistor: &Transistor) -> Fields {
    let channel = match transistor.channel {
        Channel::N => 0,
        Channel::P => 1,
    };
    let [first, second] = transistor.ends;
    [channel, transistor.gate, first, second]
}

/// All fields that are tried, legal or not. The first of them moves fastest, so that
/// this is not yet the list's order.
fn tried() -> Vec<Fields> {
    let limits = [TYPES, NODES, NODES, NODES].map(u32::from);
    let fields = |mut number: u32| {
        limits.map(|limit| {
            let digit = number % limit;
            number /= limit;
            digit as u8
        })
    };
    (0..limits.iter().product()).map(fields).collect()
}

/// A file whose transistors have these fields, and all else as every small cell.
fn file_of(transistors: &[Fields]) -> Vec<u8> {
    let cell = with_transistors(transistors.len());
    let mut file = saved::of_cell(&cell);
    let first = 1 + cell.nodes.len();
    for (record, fields) in (first..).zip(transistors) {
        let at = record_at(record) + FIELDS_AT;
        file[at..at + fields.len()].copy_from_slice(fields);
    }
    file
}

/// What all small cells have, and so many transistors.
fn with_transistors(count: usize) -> Cell {
    let input = Node {
        role: Role::Input,
        start: Source::Letter(0),
    };
    let inner = Node {
        role: Role::Inner { capacitance: 1 },
        start: Source::Low,
    };
    let transistor = Transistor {
        channel: Channel::N,
        gate: 0,
        ends: [0, 1],
        resistance: 1,
    };
    Cell {
        letters: 1,
        horizon: 10,
        nodes: vec![input, inner],
        transistors: vec![transistor; count],
        schedule: Vec::new(),
    }
}

/// A run after its start or a step: the time, and at each of the two patterns the value
/// and the next change of node 2 and of node 3.
#[derive(Clone, Debug, PartialEq, Eq)]
pub struct Moment {
    pub time: u32,
    pub patterns: [[[u32; 2]; 2]; 2],
}

/// All moments of the run of a small cell, up to its end: with transistors of 1 ohm no
/// arm comes near the ceiling.
pub fn run(cell: &Cell) -> Vec<Moment> {
    const BELOW: &str = "no arm of 1 ohm is above the ceiling";
    let circuit = Circuit::new(cell);
    let mut run = Run::start(&circuit).expect(BELOW);
    let mut moments = vec![moment(&run)];
    while let Some(time) = run.next_time(&circuit) {
        run.step(&circuit, time).expect(BELOW);
        moments.push(moment(&run));
    }
    moments
}

fn moment(run: &Run) -> Moment {
    let told = |pattern: usize, node: usize| {
        let State { values, next } = &run.states[pattern];
        [u32::from(values[node]), next[node]]
    };
    Moment {
        time: run.now,
        patterns: [0, 1].map(|pattern| [2, 3].map(|node| told(pattern, node))),
    }
}

/// What is seen of a run: each time, and at each pattern the values.
type Wave = Vec<(u32, [[u32; 2]; 2])>;

fn wave(run: &[Moment]) -> Wave {
    let values = |pattern: [[u32; 2]; 2]| pattern.map(|[value, _]| value);
    run.iter()
        .map(|moment| (moment.time, moment.patterns.map(values)))
        .collect()
}

/// How many cells have each wave.
#[derive(Debug, Default, PartialEq, Eq)]
pub struct Waves(BTreeMap<Wave, u64>);

/// The distinct waves of all small cells, and how many cells take so many steps: 10 are
/// as many as there can be up to the horizon. The rules as they stand give these counts;
/// other rules give others.
const WAVES: usize = 7;
const BY_STEPS: [(usize, u64); 3] = [(0, 6_434), (1, 2_854), (10, 24)];

impl Waves {
    /// The waves of these runs.
    pub fn of<'a>(runs: impl IntoIterator<Item = &'a Vec<Moment>>) -> Waves {
        let mut waves = Waves::default();
        for run in runs {
            *waves.0.entry(wave(run)).or_default() += 1;
        }
        waves
    }

    /// How many cells take so many steps.
    fn by_steps(&self) -> BTreeMap<usize, u64> {
        let mut cells = BTreeMap::new();
        for (wave, count) in &self.0 {
            *cells.entry(wave.len() - 1).or_default() += count;
        }
        cells
    }

    /// Fails unless these are the waves of all small cells.
    pub fn expect(&self) {
        assert_eq!(self.0.len(), WAVES, "{self}");
        assert_eq!(self.by_steps(), BTreeMap::from(BY_STEPS), "{self}");
    }
}

impl fmt::Display for Waves {
    fn fmt(&self, out: &mut fmt::Formatter<'_>) -> fmt::Result {
        let by_steps = self.by_steps();
        let cells: u64 = by_steps.values().sum();
        let steps: u64 = by_steps
            .iter()
            .map(|(&steps, cells)| steps as u64 * cells)
            .sum();
        let waves = self.0.len();
        write!(
            out,
            "{cells} cells, {waves} distinct waves, {steps} steps, cells by steps {by_steps:?}"
        )
    }
}
