//! What a child makes ready, and the work that it does then.

use crate::buddy::Buddy;
use crate::valgrind::Error;
use bench::plain::{Plain, Work};
use bench::run::Tool;
use bench::table::{self, operations, pairs, Lent};
use comparison::cell_file::{parse, Cell};
use comparison::functions::{Operation, MOST_LETTERS};
use comparison::random::Random;
use std::hint::black_box;
use std::io::Read;

/// Work: none, a run of a cell, a check of a table, and two operations on functions.
/// Other operations go by the names that `operations` gives them.
pub const NOTHING: &str = "nothing";
pub const RUN: &str = "run";
pub const CHECK: &str = "check";
pub const AND: &str = "and";
pub const OR: &str = "or";

/// The stack on which the work is done.
const STACK: usize = 16 << 20;

/// Does the work of a child on a stack of its own, which begins at the same place of
/// a page whatever arguments and environment the child was given: the C library
/// fills memory in steps that depend on where it lies.
pub fn run(ready: &str, work: &str) -> Result<(), Error> {
    std::thread::scope(|scope| {
        let child = || start(ready, work);
        let thread = std::thread::Builder::new()
            .stack_size(STACK)
            .spawn_scoped(scope, child);
        let thread = thread.map_err(|error| Error(error.to_string()))?;
        thread
            .join()
            .map_err(|_| Error(format!("the child fails: {ready}, {work}")))?
    })
}

fn start(ready: &str, work: &str) -> Result<(), Error> {
    let words: Vec<&str> = ready.split(' ').collect();
    match words[..] {
        ["tool", working] => tool(number(working)?, work),
        ["plain"] => plain(work),
        ["table", most] => table(number(most)?, work),
        ["pairs", functions, length] => both(number(functions)?, number(length)?, work),
        ["buddy", functions, length] => buddy(number(functions)?, number(length)?, work),
        _ => Err(Error(format!("no child makes {ready} ready"))),
    }
}

fn number<T: std::str::FromStr>(word: &str) -> Result<T, Error> {
    word.parse()
        .map_err(|_| Error(format!("{word} is not a number")))
}

/// The cell on standard input.
fn cell() -> Result<Cell, Error> {
    let mut file = Vec::new();
    let read = std::io::stdin().read_to_end(&mut file);
    read.map_err(|error| Error(error.to_string()))?;
    parse(&file).map_err(|refusal| Error(format!("refused {refusal:?}")))
}

/// A start and a run to the horizon; says the answer.
fn tool(working: usize, work: &str) -> Result<(), Error> {
    let mut tool = Tool::new(&cell()?, working);
    tool.renew();
    let answer = match work {
        RUN => tool.run(),
        _ => 0,
    };
    print!("{answer}");
    Ok(())
}

/// All patterns by the plain program, up to one that is refused.
fn plain(work: &str) -> Result<(), Error> {
    let plain = Plain::new(&cell()?);
    let mut room = Work::new();
    if work == RUN {
        let _ = black_box(plain.run_all::<true>(&mut room));
    }
    Ok(())
}

/// A call on a table of two functions and a selector.
fn table(most: u32, work: &str) -> Result<(), Error> {
    let (mut lent, operations) = operations(&mut Random::new(1), most);
    let operation = match work {
        NOTHING => None,
        CHECK => Some(table::CHECK),
        _ => {
            let named = operations.into_iter().find(|(name, _)| *name == work);
            let (_, operation) = named.ok_or(Error(format!("no operation is called {work}")))?;
            Some(operation)
        }
    };
    call(&mut lent, operation);
    Ok(())
}

fn call(lent: &mut Lent, operation: Option<Operation>) {
    black_box(operation.map(|operation| lent.call(operation)));
}

/// A call for each pair of functions, each on a copy of the table.
fn both(functions: usize, length: usize, work: &str) -> Result<(), Error> {
    let (_, lent, pairs) = pairs(&mut Random::new(1), functions, length);
    for pair in pairs {
        let operation = match work {
            CHECK => Some(table::CHECK),
            AND => Some(pair.and),
            OR => Some(pair.or),
            _ => None,
        };
        call(&mut lent.clone(), operation);
    }
    Ok(())
}

/// The same by BuDDy, which is started anew for each pair and holds only the two.
fn buddy(functions: usize, length: usize, work: &str) -> Result<(), Error> {
    let (functions, _, pairs) = pairs(&mut Random::new(1), functions, length);
    for pair in pairs {
        let mut buddy = Buddy::start(MOST_LETTERS);
        let first = buddy.keep(&functions[pair.first]);
        let second = buddy.keep(&functions[pair.second]);
        buddy.forget();
        match work {
            AND => drop(black_box(buddy.and(first, second))),
            OR => drop(black_box(buddy.or(first, second))),
            _ => {}
        }
    }
    Ok(())
}
