//! Calls on a table that holds random functions of 12 letters.

use comparison::functions::{Columns, Operation, Table, LENGTHS, MOST_LETTERS};
use comparison::random::Random;
use comparison::sts;

/// A table to call on.
#[derive(Clone)]
pub struct Lent {
    pub letters: u32,
    pub columns: Columns,
    pub used: u32,
}

/// The call that does little more than check the table.
pub const CHECK: Operation = Operation::Number {
    function: 0,
    pattern: 0,
};

impl Lent {
    pub fn new(letters: u32, table: &Table, length: usize) -> Lent {
        Lent {
            letters,
            columns: Columns::of(table.entries(), length),
            used: table.entries().len() as u32,
        }
    }

    /// Makes a call, which has to be answered; gives its result.
    pub fn call(&mut self, operation: Operation) -> u32 {
        let mut result = 0;
        let columns = self.columns.each_mut().map(Vec::as_mut_slice);
        let answer = sts::call(
            operation,
            self.letters,
            columns,
            &mut self.used,
            &mut result,
        );
        assert_eq!(answer, 0, "{operation:?} is answered");
        result
    }
}

/// A function of 12 letters with a random number from 0 to `most` at each pattern.
fn random_function(random: &mut Random, most: u32) -> Vec<u32> {
    (0..1 << MOST_LETTERS)
        .map(|_| random.between(0, most))
        .collect()
}

/// The numbers that the functions of a table take, and the largest.
pub const NUMBERS: [(&str, u32); 3] =
    [("0 and 1", 1), ("20 numbers", 19), ("any number", u32::MAX)];

/// A table of two functions and a selector, and the operations that are made on them.
pub fn operations(random: &mut Random, most: u32) -> (Lent, [(&'static str, Operation); 5]) {
    let mut table = Table::fresh(MOST_LETTERS);
    let [first, second] = [(); 2].map(|()| table.store(&random_function(random, most)));
    let selector = table.store(&random_function(random, 1));
    let choose = Operation::Choose {
        selector,
        first,
        second,
    };
    let fix = Operation::Fix {
        function: first,
        letter: MOST_LETTERS - 1,
        bit: 1,
    };
    let operations = [
        ("choose", choose),
        ("smaller", Operation::Smaller { first, second }),
        ("sum", Operation::Sum { first, second }),
        ("fix the last letter", fix),
        ("count", Operation::Count { function: selector }),
    ];
    (Lent::new(MOST_LETTERS, &table, *LENGTHS.end()), operations)
}

/// Two functions, one after the other, and the calls that are their "and" and "or".
pub struct Pair {
    pub first: usize,
    pub second: usize,
    pub and: Operation,
    pub or: Operation,
}

/// Random functions of 0 and 1, a table that holds them, and each of them with the
/// next.
pub fn pairs(random: &mut Random, count: usize, length: usize) -> (Vec<Vec<u32>>, Lent, Vec<Pair>) {
    let functions: Vec<_> = (0..count).map(|_| random_function(random, 1)).collect();
    let mut table = Table::fresh(MOST_LETTERS);
    let entries: Vec<u32> = functions
        .iter()
        .map(|function| table.store(function))
        .collect();
    let pair = |first: usize| {
        let second = (first + 1) % count;
        Pair {
            first,
            second,
            and: Operation::Choose {
                selector: entries[first],
                first: entries[second],
                second: 0,
            },
            or: Operation::Choose {
                selector: entries[first],
                first: 1,
                second: entries[second],
            },
        }
    };
    let pairs = (0..count).map(pair).collect();
    (functions, Lent::new(MOST_LETTERS, &table, length), pairs)
}

/// How many functions are paired, in tables of these lengths.
pub const PAIRED: [(usize, usize); 2] = [(2, 4_096), (20, *LENGTHS.end())];
