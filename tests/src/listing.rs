//! What the program `show` prints of a file.

use crate::cell_file::{parse, Cell, Channel, Entry, Node, Role, Transistor, FIRST_NODE};

/// The whole output for a file.
pub fn of_file(file: &[u8]) -> String {
    match parse(file) {
        Ok(cell) => of_cell(&cell),
        Err(refusal) => format!("{refusal}\n"),
    }
}

/// The lines of a cell.
pub fn of_cell(cell: &Cell) -> String {
    let nodes = (FIRST_NODE..).zip(&cell.nodes).map(node_line);
    let transistors = (0..).zip(&cell.transistors).map(transistor_line);
    let entries = (0..).zip(&cell.schedule).map(entry_line);
    std::iter::once(cell_line(cell))
        .chain(nodes)
        .chain(transistors)
        .chain(entries)
        .collect()
}

/// The first line, which the header gives.
pub fn cell_line(cell: &Cell) -> String {
    let [nodes, transistors, entries, letters, horizon] = cell.header();
    format!("cell {nodes} {transistors} {entries} {letters} {horizon}\n")
}

fn node_line((number, node): (usize, &Node)) -> String {
    let (role, capacitance) = match node.role {
        Role::Inner { capacitance } => ("inner", capacitance),
        Role::Input => ("input", 0),
    };
    let start = node.start;
    format!("node {number} {role} {capacitance} fF start {start}\n")
}

fn transistor_line((number, transistor): (usize, &Transistor)) -> String {
    let channel = match transistor.channel {
        Channel::N => "n",
        Channel::P => "p",
    };
    let Transistor {
        gate,
        ends: [one, other],
        resistance,
        ..
    } = transistor;
    format!("transistor {number} {channel} gate {gate} ends {one} {other} {resistance} ohm\n")
}

fn entry_line((number, entry): (usize, &Entry)) -> String {
    let Entry { time, node, source } = entry;
    format!("entry {number} time {time} ps node {node} becomes {source}\n")
}
