//! What can be wrong with a call on a run: the lengths that are lent, the file,
//! the table, the record, the question.

use super::{calls, damage, legal, live, records, unsound};
use crate::cell_file::{Cell, Kind, Layout};
use crate::functions::{Call as Operate, Columns, Condition, Operation};
use crate::random::Random;
use crate::simulator::calls::{Call, Lent, USED};

/// What is made wrong. Of several, the last of this list is made wrong first.
#[derive(Clone, Copy, Debug, PartialEq, Eq, PartialOrd, Ord)]
pub enum Fault {
    TableLengths,
    WorkingLengths,
    RecordLength,
    AnswerLength,
    /// The file is damaged for one refusal, or for two, or cut.
    File,
    /// The file is another cell's.
    OtherCell,
    /// The record is unsound, or was changed a little.
    Record,
    /// The table or the used count is unsound, or was changed a little.
    Table,
    /// The record is sound, but no run's.
    OtherRecord,
    /// There is no such node or pattern.
    Question,
}

impl Fault {
    pub const ALL: [Fault; 10] = [
        Fault::TableLengths,
        Fault::WorkingLengths,
        Fault::RecordLength,
        Fault::AnswerLength,
        Fault::File,
        Fault::OtherCell,
        Fault::Record,
        Fault::Table,
        Fault::OtherRecord,
        Fault::Question,
    ];
}

/// A call, and all that it is given.
#[derive(Clone, Debug)]
pub struct Given {
    pub call: Call,
    pub layout: Layout,
    pub lent: Lent,
}

impl Given {
    /// Makes something wrong with a call that was right, for a cell.
    pub fn spoil(&mut self, random: &mut Random, cell: &Cell, fault: Fault) {
        let lent = &mut self.lent;
        match fault {
            Fault::TableLengths => unsound::misfit(random, &mut lent.table),
            Fault::WorkingLengths => records::misfit_working(random, &mut lent.working),
            Fault::RecordLength => records::misfit(random, &mut lent.record),
            Fault::AnswerLength => records::misfit(random, &mut lent.answer),
            Fault::File => file(random, &mut self.layout),
            Fault::OtherCell => self.layout = other_cell(random, cell),
            Fault::Table => self.table(random, cell),
            Fault::Record => {
                let used = lent.record[USED].max(1);
                records::damage(random, &mut lent.record, cell, used);
            }
            Fault::OtherRecord => {
                let entries = lent.table.entries(lent.record[USED] as usize);
                lent.record = records::sound(random, cell, &entries);
            }
            Fault::Question => {
                let pattern = calls::pattern(random, cell.letters);
                let beyond = 2 + cell.nodes.len() as u32;
                let node = random.spread(beyond, u32::MAX);
                self.call = Call::Ask { node, pattern };
            }
        }
    }

    /// Damages the table, the used count that the call is given among it.
    fn table(&mut self, random: &mut Random, cell: &Cell) {
        let used = match &mut self.call {
            Call::Start { used } => used,
            _ => &mut self.lent.record[USED],
        };
        let mut operate = Operate {
            letters: cell.letters,
            used: *used,
            operation: Operation::Count { function: 0 },
        };
        let table: &mut Columns = &mut self.lent.table;
        match random.one_in(3) {
            true => unsound::disturb(random, table, &mut operate),
            false => {
                let condition = random.pick(&Condition::ALL);
                unsound::break_alone(random, condition, table, &mut operate);
            }
        }
        *used = operate.used;
    }
}

fn file(random: &mut Random, layout: &mut Layout) {
    let entries = layout.chain(Kind::Entry).len();
    let refusals = match entries {
        0 | 1 => &damage::REFUSALS[..4],
        _ => &damage::REFUSALS[..],
    };
    let [one, other] = [(); 2].map(|()| random.pick(refusals));
    // The smaller number is applied last: a wrong length leaves fewer records.
    if random.one_in(4) && one != other {
        damage::apply(random, layout, one.max(other));
        damage::apply(random, layout, one.min(other));
    } else {
        damage::apply(random, layout, one);
    }
}

/// A legal file of a cell that is this one changed, or another one of hardly more
/// letters.
fn other_cell(random: &mut Random, cell: &Cell) -> Layout {
    let mut other = cell.clone();
    match random.below(4) {
        0 => other.letters = random.between(cell.letters.min(11), cell.letters.min(11) + 1),
        1 => {
            let last = other.schedule.last().map_or(1, |entry| entry.time);
            other.horizon = random.spread(last, 1_000_000);
        }
        _ => {
            let size = random.pick(&[live::Size::Small, live::Size::Middle]);
            other = live::cell(random, size, cell.letters);
        }
    }
    let places = legal::places(random, other.records());
    Layout::new(&other, &places)
}
