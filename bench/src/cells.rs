//! The cells that are run, each with its name.

use comparison::cell_file::Cell;
use comparison::{designs, rows};

/// A cell and what it is called in the figures.
pub struct Named {
    pub name: String,
    pub cell: Cell,
}

fn named(name: &str, cell: Cell) -> Named {
    Named {
        name: name.to_owned(),
        cell,
    }
}

/// All of them; those that take long come last.
pub fn all() -> Vec<Named> {
    let mut cells = designs();
    cells.extend(small());
    cells.extend(dense());
    cells
}

/// Carry chains and barrel columns with several numbers of letters.
fn designs() -> Vec<Named> {
    let mut cells = Vec::new();
    for letters in [0, 8, 10, 12] {
        let cell = designs::carry_chain(letters, 30);
        cells.push(named("carry chain, inputs 30 ps apart", cell));
    }
    let apart = designs::carry_chain(12, 100);
    cells.push(named("carry chain, inputs 100 ps apart", apart));
    let together = designs::carry_chain(12, 0);
    cells.push(named("carry chain, inputs together", together));
    for (first, second) in [(5, 3), (6, 4), (8, 4), (9, 3), (7, 5), (6, 6)] {
        let name = format!("carry chain, additions {first} + {second}");
        cells.push(named(&name, designs::carry_additions(first, second, 30)));
    }
    for letters in [8, 10, 12] {
        let cell = designs::barrel_column(letters, 30);
        cells.push(named("barrel column, inputs 30 ps apart", cell));
    }
    let together = designs::barrel_column(12, 0);
    cells.push(named("barrel column, inputs together", together));
    cells
}

fn dense() -> Vec<Named> {
    let cell = |(seed, inputs)| {
        let name = format!("dense random cell {seed}, {inputs} inputs");
        named(&name, designs::dense(seed, inputs, 12))
    };
    [(1, 4), (2, 8), (3, 12)].map(cell).into()
}

/// Five smaller cells with 12 letters.
fn small() -> Vec<Named> {
    vec![
        named("chain", rows::chain()),
        named("mux-tree", rows::mux_tree()),
        named("nand-ripple", rows::nand_ripple()),
        named("pass-xor", rows::pass_xor()),
        named("ring", rows::ring()),
    ]
}
