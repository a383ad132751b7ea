//! What the programs of this benchmark share: the cells, a run by the tool and by a
//! plain program, and calls on a table.

pub mod cells;
pub mod plain;
pub mod run;
pub mod table;
