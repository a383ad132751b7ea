//! The cell file: what a cell is, how it is read and refused, and how it is
//! laid out as a file.

use crate::refusal::Refusal;
use std::fmt;
use std::ops::RangeInclusive;

/// Bytes of the header and of each record.
pub const RECORD: usize = 16;

/// The counts of node records that a file may have.
pub const NODES: RangeInclusive<u32> = 1..=24;
/// The counts of transistors.
pub const TRANSISTORS: RangeInclusive<u32> = 1..=64;
/// The counts of schedule entries.
pub const ENTRIES: RangeInclusive<u32> = 0..=64;
/// The counts of letters.
pub const LETTERS: RangeInclusive<u32> = 0..=12;
/// The horizons, in ps.
pub const HORIZONS: RangeInclusive<u32> = 1..=1_000_000;
/// The capacitances of an inner node, in fF.
pub const CAPACITANCES: RangeInclusive<u32> = 1..=65_535;
/// The resistances of a transistor, in ohm.
pub const RESISTANCES: RangeInclusive<u32> = 1..=240_000;

/// The number of the first node record: 0 is ground, 1 is supply.
pub const FIRST_NODE: usize = 2;

/// What a node starts with or an input becomes.
#[derive(Clone, Copy, Debug, PartialEq, Eq)]
pub enum Source {
    Low,
    High,
    Letter(u8),
    NotLetter(u8),
}

impl Source {
    /// The source of a byte in a cell of so many letters.
    pub fn from_byte(byte: u8, letters: u32) -> Option<Source> {
        match byte {
            0 => Some(Source::Low),
            1 => Some(Source::High),
            _ => {
                let letter = (byte - 2) / 2;
                let source = match byte % 2 {
                    0 => Source::Letter(letter),
                    _ => Source::NotLetter(letter),
                };
                (u32::from(letter) < letters).then_some(source)
            }
        }
    }

    /// The source that is always of the other value.
    pub fn turned(self) -> Source {
        match self {
            Source::Low => Source::High,
            Source::High => Source::Low,
            Source::Letter(k) => Source::NotLetter(k),
            Source::NotLetter(k) => Source::Letter(k),
        }
    }

    /// Its value at a pattern, whose bit k is letter k.
    pub fn at(self, pattern: usize) -> bool {
        match self {
            Source::Low => false,
            Source::High => true,
            Source::Letter(k) => pattern >> k & 1 == 1,
            Source::NotLetter(k) => pattern >> k & 1 == 0,
        }
    }

    /// What is left of it where a letter is fixed.
    fn fixed(self, letter: u8, bit: bool) -> Source {
        let constant = |value| if value { Source::High } else { Source::Low };
        match self {
            Source::Letter(k) if k == letter => constant(bit),
            Source::NotLetter(k) if k == letter => constant(!bit),
            other => other,
        }
    }

    /// The byte that stands for this source.
    pub fn to_byte(self) -> u8 {
        match self {
            Source::Low => 0,
            Source::High => 1,
            Source::Letter(k) => 2 + 2 * k,
            Source::NotLetter(k) => 3 + 2 * k,
        }
    }
}

impl fmt::Display for Source {
    fn fmt(&self, out: &mut fmt::Formatter<'_>) -> fmt::Result {
        match self {
            Source::Low => write!(out, "low"),
            Source::High => write!(out, "high"),
            Source::Letter(k) => write!(out, "letter {k}"),
            Source::NotLetter(k) => write!(out, "not letter {k}"),
        }
    }
}

/// What a node record is for.
#[derive(Clone, Copy, Debug, PartialEq, Eq)]
pub enum Role {
    /// A wire of the cell, with its capacitance in fF.
    Inner { capacitance: u16 },
    /// A wire that the schedule drives.
    Input,
}

/// A node record.
#[derive(Clone, Copy, Debug, PartialEq, Eq)]
pub struct Node {
    pub role: Role,
    pub start: Source,
}

/// The two types of transistor.
#[derive(Clone, Copy, Debug, PartialEq, Eq)]
pub enum Channel {
    N,
    P,
}

/// A transistor; its gate and ends are node numbers.
#[derive(Clone, Copy, Debug, PartialEq, Eq)]
pub struct Transistor {
    pub channel: Channel,
    pub gate: u8,
    pub ends: [u8; 2],
    /// In ohm.
    pub resistance: u32,
}

/// A schedule entry: at `time` ps the input `node` takes `source`.
#[derive(Clone, Copy, Debug, PartialEq, Eq)]
pub struct Entry {
    pub time: u32,
    pub node: u8,
    pub source: Source,
}

/// A cell. Its lists are in chain order, so the place in a list is the number
/// (for node records, the number less [`FIRST_NODE`]).
#[derive(Clone, Debug, PartialEq, Eq)]
pub struct Cell {
    pub letters: u32,
    /// In ps.
    pub horizon: u32,
    pub nodes: Vec<Node>,
    pub transistors: Vec<Transistor>,
    pub schedule: Vec<Entry>,
}

impl Cell {
    /// The five numbers of the header: nodes, transistors, entries, letters and
    /// horizon.
    pub fn header(&self) -> [u32; 5] {
        [
            self.nodes.len() as u32,
            self.transistors.len() as u32,
            self.schedule.len() as u32,
            self.letters,
            self.horizon,
        ]
    }

    /// The cell with a letter fixed; the number of letters stays.
    pub fn fixed(mut self, letter: u8, bit: bool) -> Cell {
        let starts = self.nodes.iter_mut().map(|node| &mut node.start);
        let entries = self.schedule.iter_mut().map(|entry| &mut entry.source);
        for source in starts.chain(entries) {
            *source = source.fixed(letter, bit);
        }
        self
    }

    /// How many records its file has.
    pub fn records(&self) -> usize {
        self.nodes.len() + self.transistors.len() + self.schedule.len()
    }
}

/// The kinds of record. Each kind has a chain of its own.
#[derive(Clone, Copy, Debug, PartialEq, Eq)]
pub enum Kind {
    Node = 1,
    Transistor = 2,
    Entry = 3,
}

/// All kinds, in the order in which their chains are read.
pub const KINDS: [Kind; 3] = [Kind::Node, Kind::Transistor, Kind::Entry];

impl Kind {
    /// The kind's byte.
    pub fn byte(self) -> u8 {
        self as u8
    }

    /// Where the header has the first record of this kind's chain.
    pub fn first_at(self) -> usize {
        6 + 2 * self as usize
    }
}

/// The byte at which a record starts.
pub fn record_at(record: usize) -> usize {
    RECORD * record
}

fn u16_at(bytes: &[u8], at: usize) -> u16 {
    u16::from_le_bytes([bytes[at], bytes[at + 1]])
}

fn u32_at(bytes: &[u8], at: usize) -> u32 {
    u32::from_le_bytes([bytes[at], bytes[at + 1], bytes[at + 2], bytes[at + 3]])
}

fn all_zero(bytes: &[u8]) -> bool {
    bytes.iter().all(|&byte| byte == 0)
}

/// Reads a cell file, or tells why it is refused.
pub fn parse(file: &[u8]) -> Result<Cell, Refusal> {
    let [nodes, transistors, entries, letters, horizon] = header(file)?;
    let records = (nodes + transistors + entries) as usize;
    if file.len() != RECORD * (1 + records) {
        return Err(Refusal::Length);
    }
    let node_chain = chain(file, Kind::Node, nodes)?;
    let transistor_chain = chain(file, Kind::Transistor, transistors)?;
    let schedule_chain = chain(file, Kind::Entry, entries)?;

    let nodes = fields(&node_chain, |record| node(record, letters))?;
    let transistors = fields(&transistor_chain, |record| transistor(record, nodes.len()))?;
    let schedule = fields(&schedule_chain, |record| {
        entry(record, &nodes, letters, horizon)
    })?;
    if !rises(&schedule) {
        return Err(Refusal::Order);
    }
    Ok(Cell {
        letters,
        horizon,
        nodes,
        transistors,
        schedule,
    })
}

/// The header's five numbers: its own bytes are right, whatever follows them.
fn header(file: &[u8]) -> Result<[u32; 5], Refusal> {
    if file.len() < RECORD {
        return Err(Refusal::Length);
    }
    let numbers = [
        u32::from(file[0]),
        u32::from(file[1]),
        u32::from(file[2]),
        u32::from(file[3]),
        u32_at(file, 4),
    ];
    let ranges = [NODES, TRANSISTORS, ENTRIES, LETTERS, HORIZONS];
    let in_range = ranges
        .iter()
        .zip(&numbers)
        .all(|(range, n)| range.contains(n));
    if in_range && all_zero(&file[14..16]) {
        Ok(numbers)
    } else {
        Err(Refusal::Header)
    }
}

/// The records of a chain, in its order. The file has its full length.
fn chain(file: &[u8], kind: Kind, count: u32) -> Result<Vec<&[u8]>, Refusal> {
    let mut found = Vec::with_capacity(count as usize);
    let mut next = usize::from(u16_at(file, kind.first_at()));
    while next != 0 {
        let start = record_at(next);
        let record = file.get(start..start + RECORD).ok_or(Refusal::Chain)?;
        if record[0] != kind.byte() || found.len() == count as usize {
            return Err(Refusal::Chain);
        }
        found.push(record);
        next = usize::from(u16_at(record, 2));
    }
    if found.len() == count as usize {
        Ok(found)
    } else {
        Err(Refusal::Chain)
    }
}

/// Reads the fields of each record of a chain.
fn fields<T>(chain: &[&[u8]], read: impl Fn(&[u8]) -> Option<T>) -> Result<Vec<T>, Refusal> {
    chain
        .iter()
        .map(|record| read(record).ok_or(Refusal::Record))
        .collect()
}

fn node(record: &[u8], letters: u32) -> Option<Node> {
    if record[1] != 0 || !all_zero(&record[8..16]) {
        return None;
    }
    let start = Source::from_byte(record[5], letters)?;
    let role = match (record[4], u16_at(record, 6)) {
        (0, capacitance) if capacitance != 0 => Role::Inner { capacitance },
        (1, 0) => Role::Input,
        _ => return None,
    };
    Some(Node { role, start })
}

fn transistor(record: &[u8], nodes: usize) -> Option<Transistor> {
    if record[1] != 0 || !all_zero(&record[12..16]) {
        return None;
    }
    let channel = match record[4] {
        0 => Channel::N,
        1 => Channel::P,
        _ => return None,
    };
    let [gate, one, other] = [record[5], record[6], record[7]];
    let exists = |number: u8| usize::from(number) < FIRST_NODE + nodes;
    let resistance = u32_at(record, 8);
    let legal = exists(gate)
        && exists(one)
        && exists(other)
        && one != other
        && RESISTANCES.contains(&resistance);
    legal.then_some(Transistor {
        channel,
        gate,
        ends: [one, other],
        resistance,
    })
}

fn entry(record: &[u8], nodes: &[Node], letters: u32, horizon: u32) -> Option<Entry> {
    if record[1] != 0 || !all_zero(&record[6..8]) || !all_zero(&record[12..16]) {
        return None;
    }
    let number = record[4];
    let named = nodes.get(usize::from(number).checked_sub(FIRST_NODE)?)?;
    let source = Source::from_byte(record[5], letters)?;
    let time = u32_at(record, 8);
    let legal = named.role == Role::Input && (1..=horizon).contains(&time);
    legal.then_some(Entry {
        time,
        node: number,
        source,
    })
}

/// Strictly rising by time, then node.
fn rises(schedule: &[Entry]) -> bool {
    schedule
        .windows(2)
        .all(|pair| (pair[0].time, pair[0].node) < (pair[1].time, pair[1].node))
}

/// A cell as a file, and where its records are.
#[derive(Clone, Debug)]
pub struct Layout {
    pub file: Vec<u8>,
    /// The records of the three chains, in chain order.
    chains: [Vec<usize>; 3],
}

impl Layout {
    /// Lays a cell out. `places` has the numbers from 1 to the count of records,
    /// each once: where the node records go, then the transistors, then the
    /// entries.
    pub fn new(cell: &Cell, places: &[usize]) -> Layout {
        assert_eq!(places.len(), cell.records(), "one place for each record");
        let (nodes, rest) = places.split_at(cell.nodes.len());
        let (transistors, entries) = rest.split_at(cell.transistors.len());
        let mut layout = Layout {
            file: vec![0; RECORD * (1 + places.len())],
            chains: [nodes.to_vec(), transistors.to_vec(), entries.to_vec()],
        };
        layout.write_header(cell);
        KINDS.into_iter().for_each(|kind| layout.link(kind));
        for (node, &place) in cell.nodes.iter().zip(nodes) {
            layout.write_node(place, node);
        }
        for (transistor, &place) in cell.transistors.iter().zip(transistors) {
            layout.write_transistor(place, transistor);
        }
        for (entry, &place) in cell.schedule.iter().zip(entries) {
            layout.write_entry(place, entry);
        }
        layout
    }

    /// Lays a cell out with its records in the order of their chains.
    pub fn in_order(cell: &Cell) -> Layout {
        Layout::new(cell, &(1..=cell.records()).collect::<Vec<_>>())
    }

    /// The records of a kind, in chain order.
    pub fn chain(&self, kind: Kind) -> &[usize] {
        &self.chains[kind as usize - 1]
    }

    /// How many records there are.
    pub fn records(&self) -> usize {
        self.chains.iter().map(Vec::len).sum()
    }

    /// Where the bytes of each link of a chain are: in the header, then in each
    /// record.
    pub fn link_at(&self, kind: Kind, position: usize) -> usize {
        match position {
            0 => kind.first_at(),
            _ => record_at(self.chain(kind)[position - 1]) + 2,
        }
    }

    /// The number of two bytes.
    pub fn get_u16(&self, at: usize) -> u16 {
        u16_at(&self.file, at)
    }

    /// The number of four bytes.
    pub fn get_u32(&self, at: usize) -> u32 {
        u32_at(&self.file, at)
    }

    /// Writes bytes over those that stand there.
    pub fn put(&mut self, at: usize, bytes: &[u8]) {
        self.file[at..at + bytes.len()].copy_from_slice(bytes);
    }

    fn write_header(&mut self, cell: &Cell) {
        let [nodes, transistors, entries, letters, horizon] = cell.header();
        let counts = [nodes, transistors, entries, letters].map(|count| count as u8);
        self.put(0, &counts);
        self.put(4, &horizon.to_le_bytes());
    }

    fn link(&mut self, kind: Kind) {
        let links = self.chain(kind).len();
        for position in 0..=links {
            let next = self.chain(kind).get(position).copied().unwrap_or(0);
            self.put(self.link_at(kind, position), &(next as u16).to_le_bytes());
        }
    }

    fn write_node(&mut self, place: usize, node: &Node) {
        let at = record_at(place);
        let (role, capacitance) = match node.role {
            Role::Inner { capacitance } => (0, capacitance),
            Role::Input => (1, 0),
        };
        self.file[at] = Kind::Node.byte();
        self.put(at + 4, &[role, node.start.to_byte()]);
        self.put(at + 6, &capacitance.to_le_bytes());
    }

    fn write_transistor(&mut self, place: usize, transistor: &Transistor) {
        let at = record_at(place);
        let channel = match transistor.channel {
            Channel::N => 0,
            Channel::P => 1,
        };
        let [one, other] = transistor.ends;
        self.file[at] = Kind::Transistor.byte();
        self.put(at + 4, &[channel, transistor.gate, one, other]);
        self.put(at + 8, &transistor.resistance.to_le_bytes());
    }

    fn write_entry(&mut self, place: usize, entry: &Entry) {
        let at = record_at(place);
        self.file[at] = Kind::Entry.byte();
        self.put(at + 4, &[entry.node, entry.source.to_byte()]);
        self.put(at + 8, &entry.time.to_le_bytes());
    }
}
