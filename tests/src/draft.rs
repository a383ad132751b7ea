//! Drawing a cell: nodes and transistors one by one.

use crate::cell_file::{
    Cell, Channel, Entry, Node, Role, Source, Transistor, ENTRIES, FIRST_NODE, NODES, TRANSISTORS,
};

/// Ground and supply.
pub const GROUND: u8 = 0;
pub const SUPPLY: u8 = 1;

/// A cell that is being drawn.
#[derive(Clone, Debug)]
pub struct Draft {
    cell: Cell,
}

impl Draft {
    pub fn new(letters: u32, horizon: u32) -> Draft {
        Draft {
            cell: Cell {
                letters,
                horizon,
                nodes: Vec::new(),
                transistors: Vec::new(),
                schedule: Vec::new(),
            },
        }
    }

    /// More is drawn into a cell that is there.
    pub fn of(cell: Cell) -> Draft {
        Draft { cell }
    }

    /// There is room for so many more nodes and transistors.
    pub fn has_room(&self, nodes: usize, transistors: usize) -> bool {
        self.cell.nodes.len() + nodes <= *NODES.end() as usize
            && self.cell.transistors.len() + transistors <= *TRANSISTORS.end() as usize
    }

    fn node(&mut self, role: Role, start: Source) -> u8 {
        self.cell.nodes.push(Node { role, start });
        (FIRST_NODE + self.cell.nodes.len() - 1) as u8
    }

    /// A new input; gives its number.
    pub fn input(&mut self, start: Source) -> u8 {
        self.node(Role::Input, start)
    }

    /// A new inner node; gives its number.
    pub fn inner(&mut self, capacitance: u16, start: Source) -> u8 {
        self.node(Role::Inner { capacitance }, start)
    }

    /// A transistor of either type.
    pub fn channel(&mut self, channel: Channel, gate: u8, ends: [u8; 2], resistance: u32) {
        self.cell.transistors.push(Transistor {
            channel,
            gate,
            ends,
            resistance,
        });
    }

    pub fn n(&mut self, gate: u8, ends: [u8; 2], resistance: u32) {
        self.channel(Channel::N, gate, ends, resistance);
    }

    pub fn p(&mut self, gate: u8, ends: [u8; 2], resistance: u32) {
        self.channel(Channel::P, gate, ends, resistance);
    }

    /// An inverter between two nodes.
    pub fn inverter(&mut self, from: u8, to: u8, resistance: u32) {
        self.p(from, [SUPPLY, to], 2 * resistance);
        self.n(from, [GROUND, to], resistance);
    }

    /// An input takes a source at a time.
    pub fn at(&mut self, time: u32, node: u8, source: Source) {
        self.cell.schedule.push(Entry { time, node, source });
    }

    /// The cell. Its schedule is put into order; of two entries for one time and
    /// node the first counts, and those that are too many are dropped.
    pub fn finish(mut self) -> Cell {
        let key = |entry: &Entry| (entry.time, entry.node);
        self.cell.schedule.sort_by_key(key);
        self.cell.schedule.dedup_by_key(|entry| key(entry));
        self.cell.schedule.truncate(*ENTRIES.end() as usize);
        self.cell
    }
}
