//! The saved form of a cell: the header, then the node records, the transistors
//! and the schedule, each chain in its order.

use crate::cell_file::{parse, Cell, Channel, Entry, Node, Role, Transistor, RECORD};
use crate::refusal::Refusal;

/// The bytes of a header or a record.
type Record = [u8; RECORD];

/// A cell in its saved form.
pub fn of_cell(cell: &Cell) -> Vec<u8> {
    let nodes = cell.nodes.len();
    let transistors = cell.transistors.len();
    let entries = cell.schedule.len();
    let records = chain(&cell.nodes, 1, node)
        .chain(chain(&cell.transistors, 1 + nodes, transistor))
        .chain(chain(&cell.schedule, 1 + nodes + transistors, entry));
    let mut file = Vec::with_capacity(RECORD * (1 + nodes + transistors + entries));
    file.extend(header(cell));
    file.extend(records.flatten());
    file
}

/// The saved form of the cell in a file, or why the file is refused.
pub fn of_file(file: &[u8]) -> Result<Vec<u8>, Refusal> {
    parse(file).map(|cell| of_cell(&cell))
}

/// The same where the saved form has to fit into so many bytes. That is looked at
/// last.
pub fn in_buffer(file: &[u8], length: usize) -> Result<Vec<u8>, Refusal> {
    fitting(of_file(file)?, length)
}

/// A saved form that has to fit into so many bytes.
pub fn fitting(saved: Vec<u8>, length: usize) -> Result<Vec<u8>, Refusal> {
    if length < saved.len() {
        return Err(Refusal::Buffer);
    }
    Ok(saved)
}

/// The records of a chain, the first of them with this number. Each is given the
/// number of the next one, the last 0.
fn chain<T>(
    items: &[T],
    first: usize,
    record: fn(&T, [u8; 2]) -> Record,
) -> impl Iterator<Item = Record> + '_ {
    items.iter().enumerate().map(move |(place, item)| {
        let is_last = place + 1 == items.len();
        let next = if is_last { 0 } else { first + place + 1 };
        record(item, (next as u16).to_le_bytes())
    })
}

/// The first record of the schedule is 0 where there is none.
fn header(cell: &Cell) -> Record {
    let [nodes, transistors, entries, letters, horizon] = cell.header();
    let [n, m, e, k] = [nodes, transistors, entries, letters].map(|count| count as u8);
    let [h0, h1, h2, h3] = horizon.to_le_bytes();
    let t = 1 + n;
    let s = if e == 0 { 0 } else { 1 + n + m };
    [n, m, e, k, h0, h1, h2, h3, 1, 0, t, 0, s, 0, 0, 0]
}

fn node(node: &Node, [n0, n1]: [u8; 2]) -> Record {
    let start = node.start.to_byte();
    let (role, capacitance) = match node.role {
        Role::Inner { capacitance } => (0, capacitance),
        Role::Input => (1, 0),
    };
    let [c0, c1] = capacitance.to_le_bytes();
    [1, 0, n0, n1, role, start, c0, c1, 0, 0, 0, 0, 0, 0, 0, 0]
}

fn transistor(transistor: &Transistor, [n0, n1]: [u8; 2]) -> Record {
    let channel = match transistor.channel {
        Channel::N => 0,
        Channel::P => 1,
    };
    let gate = transistor.gate;
    let [one, other] = transistor.ends;
    let [r0, r1, r2, r3] = transistor.resistance.to_le_bytes();
    [
        2, 0, n0, n1, channel, gate, one, other, r0, r1, r2, r3, 0, 0, 0, 0,
    ]
}

fn entry(entry: &Entry, [n0, n1]: [u8; 2]) -> Record {
    let source = entry.source.to_byte();
    let [t0, t1, t2, t3] = entry.time.to_le_bytes();
    [
        3, 0, n0, n1, entry.node, source, 0, 0, t0, t1, t2, t3, 0, 0, 0, 0,
    ]
}
