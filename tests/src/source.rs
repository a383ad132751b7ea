//! The text form in which sample cells are drawn; `cells/README.md` tells it.

use crate::cell_file::{Cell, Channel, Entry, Node, Role, Source, Transistor, FIRST_NODE};
use crate::draft::{GROUND, SUPPLY};
use std::collections::HashMap;

/// The cell of a source; an error gives the first line that cannot be read. That
/// the cell is legal is for its file to show.
pub fn read(text: &str) -> Result<Cell, String> {
    let mut reader = Reader {
        cell: Cell {
            letters: 0,
            horizon: 0,
            nodes: Vec::new(),
            transistors: Vec::new(),
            schedule: Vec::new(),
        },
        numbers: HashMap::from([("ground", GROUND), ("supply", SUPPLY)]),
    };
    for line in text.lines() {
        let told = line.split('#').next().unwrap_or_default();
        let words: Vec<&str> = told.split_whitespace().collect();
        reader.line(&words).ok_or_else(|| line.to_owned())?;
    }
    Ok(reader.cell)
}

/// What was read so far.
struct Reader<'a> {
    cell: Cell,
    /// The nodes' numbers by their names.
    numbers: HashMap<&'a str, u8>,
}

impl<'a> Reader<'a> {
    fn line(&mut self, words: &[&'a str]) -> Option<()> {
        match *words {
            [] => {}
            ["letters", letters] => self.cell.letters = letters.parse().ok()?,
            ["horizon", horizon, "ps"] => self.cell.horizon = horizon.parse().ok()?,
            ["input", name, "start", ref start @ ..] => self.node(name, Role::Input, start)?,
            ["inner", name, capacitance, "fF", "start", ref start @ ..] => {
                let capacitance = capacitance.parse().ok()?;
                self.node(name, Role::Inner { capacitance }, start)?;
            }
            [channel, "gate", gate, "from", one, "to", other, resistance, "ohm"] => {
                let transistor = Transistor {
                    channel: self::channel(channel)?,
                    gate: self.number(gate)?,
                    ends: [self.number(one)?, self.number(other)?],
                    resistance: resistance.parse().ok()?,
                };
                self.cell.transistors.push(transistor);
            }
            ["at", time, "ps", input, "becomes", ref source @ ..] => {
                let entry = Entry {
                    time: time.parse().ok()?,
                    node: self.number(input)?,
                    source: self::source(source)?,
                };
                self.cell.schedule.push(entry);
            }
            _ => return None,
        }
        Some(())
    }

    /// A new node. A name stands for one node only.
    fn node(&mut self, name: &'a str, role: Role, start: &[&str]) -> Option<()> {
        let number = (FIRST_NODE + self.cell.nodes.len()) as u8;
        let start = source(start)?;
        self.cell.nodes.push(Node { role, start });
        self.numbers.insert(name, number).is_none().then_some(())
    }

    fn number(&self, name: &str) -> Option<u8> {
        self.numbers.get(name).copied()
    }
}

fn channel(word: &str) -> Option<Channel> {
    match word {
        "n" => Some(Channel::N),
        "p" => Some(Channel::P),
        _ => None,
    }
}

fn source(words: &[&str]) -> Option<Source> {
    match *words {
        ["low"] => Some(Source::Low),
        ["high"] => Some(Source::High),
        ["letter", letter] => letter.parse().ok().map(Source::Letter),
        ["not", "letter", letter] => letter.parse().ok().map(Source::NotLetter),
        _ => None,
    }
}
