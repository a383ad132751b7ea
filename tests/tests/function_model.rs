//! The second implementation of the functions by itself: tables made by hand for
//! each sentence of the requirements, laws on random functions, and the makers of
//! tables.

use comparison::functions::{fresh, Answer, Call, Columns, Condition, Entry, Operation};
use comparison::functions::{Table, FIRST, MOST_LETTERS, NEVER};
use comparison::generate::{counted::Counted, functions as tables, unsound};
use comparison::random::Random;
use comparison::refusal::Refusal;

/// Letter 0, its complement, and 0, 1, 5 and never in the order of the patterns;
/// two letters.
const TABLE: [Entry; 9] = [
    FIRST[0],
    FIRST[1],
    FIRST[2],
    Entry::branch(0, 0, 1),
    Entry::branch(0, 1, 0),
    Entry::terminal(5),
    Entry::branch(1, 0, 5),
    Entry::branch(1, 1, 2),
    Entry::branch(0, 6, 7),
];

/// The number of letters that it is made for.
const LETTERS: u32 = 2;

const LETTER: u32 = 3;
const COMPLEMENT: u32 = 4;
const FOUR: u32 = 8;

fn call(operation: Operation) -> Call {
    Call {
        letters: LETTERS,
        used: TABLE.len() as u32,
        operation,
    }
}

fn number(function: u32, pattern: u32) -> Operation {
    Operation::Number { function, pattern }
}

/// Calls on the table in columns of this length, and gives what was added.
fn added(operation: Operation, length: usize) -> Result<(Vec<Entry>, u32), Refusal> {
    let mut columns = Columns::of(&TABLE, length);
    let Answer { used, result } = call(operation).answer(&mut columns)?;
    let entries = columns.entries(used as usize);
    assert_eq!(columns, Columns::of(&entries, length), "zeros follow");
    assert_eq!(entries[..TABLE.len()], TABLE, "what was there stays");
    Ok((entries[TABLE.len()..].to_vec(), result))
}

#[test]
fn numbers() {
    let at = |function| [0, 1, 2, 3].map(|pattern| added(number(function, pattern), 9));
    let ok = |number| Ok((vec![], number));
    assert_eq!(at(2), [NEVER; 4].map(ok));
    assert_eq!(at(LETTER), [0, 1, 0, 1].map(ok));
    assert_eq!(at(COMPLEMENT), [1, 0, 1, 0].map(ok));
    assert_eq!(at(FOUR), [0, 1, 5, NEVER].map(ok));
    assert_eq!(added(number(FOUR, 4), 9), Err(Refusal::Question));
    assert_eq!(added(number(9, 0), 9), Err(Refusal::Question));
}

#[test]
fn counts() {
    let count = |function| Operation::Count { function };
    for (function, ones) in [(0, 0), (1, 4), (LETTER, 2), (COMPLEMENT, 2)] {
        assert_eq!(added(count(function), 9), Ok((vec![], ones)));
    }
    for function in [2, FOUR, 9, u32::MAX] {
        assert_eq!(added(count(function), 9), Err(Refusal::Question));
    }
    let wider = Call {
        letters: MOST_LETTERS,
        ..call(count(LETTER))
    };
    let answer = wider.answer(&mut Columns::of(&TABLE, 9));
    assert_eq!(answer.map(|answer| answer.result), Ok(2048));
}

/// The rule of wish 4 gives the count, and where it is known without counting,
/// that number.
#[test]
fn counts_by_shifts() {
    for letters in 0..=MOST_LETTERS {
        for function in Counted::all(letters) {
            let (table, entry) = function.stored();
            let count = table.count_by_shifts(entry);
            assert_eq!(count, function.count(), "{function:?}");
        }
    }
    let mut random = Random::new(16);
    for round in 0..2_000 {
        let letters = random.between(0, MOST_LETTERS);
        let numbers = tables::function(&mut random, letters);
        let bits: Vec<u32> = numbers.iter().map(|number| number % 2).collect();
        let mut table = Table::fresh(letters);
        let entry = table.store(&bits);
        let count = table.count_by_shifts(entry);
        assert_eq!(count, bits.iter().sum(), "round {round}");
    }
}

/// Low part first, then high part, then the root, and only what is missing.
#[test]
fn storing_order() {
    let mut table = Table::fresh(2);
    assert_eq!(table.store(&[5, 6, 7, 8]), 9);
    let expected = [
        Entry::terminal(5),
        Entry::terminal(7),
        Entry::branch(1, 3, 4),
        Entry::terminal(6),
        Entry::terminal(8),
        Entry::branch(1, 6, 7),
        Entry::branch(0, 5, 8),
    ];
    assert_eq!(table.entries(), [&FIRST[..], &expected].concat());
    assert_eq!(table.store(&[5, 6, 7, 8]), 9);
    assert_eq!(table.store(&[7; 4]), 4);
    assert_eq!(table.store(&[6, 6, 8, 8]), 8);
    assert_eq!(table.store(&[5, 5, 5, NEVER]), 11);
    assert_eq!(
        table.entries()[10..],
        [Entry::branch(1, 3, 2), Entry::branch(0, 3, 10)]
    );
}

#[test]
fn sums() {
    let sum = |first, second| added(Operation::Sum { first, second }, 20);
    let doubled = vec![
        Entry::terminal(10),
        Entry::branch(1, 0, 9),
        Entry::terminal(2),
        Entry::branch(1, 11, 2),
        Entry::branch(0, 10, 12),
    ];
    assert_eq!(sum(FOUR, FOUR), Ok((doubled, 13)));
    assert_eq!(sum(FOUR, 0), Ok((vec![], FOUR)));
    assert_eq!(sum(2, FOUR), Ok((vec![], 2)));
    assert_eq!(sum(LETTER, COMPLEMENT), Ok((vec![], 1)));
}

#[test]
fn the_largest_sum() {
    for (one, other, expected) in [
        (NEVER - 1, 0, NEVER - 1),
        (NEVER - 1, 1, NEVER - 1),
        (NEVER - 2, 1, NEVER - 1),
        (NEVER - 3, 1, NEVER - 2),
        (NEVER - 1, NEVER - 1, NEVER - 1),
        (NEVER, 0, NEVER),
        (NEVER, NEVER, NEVER),
        (1 << 31, 1 << 31, NEVER - 1),
    ] {
        for [one, other] in [[one, other], [other, one]] {
            let mut table = Table::fresh(0);
            let [first, second] = [one, other].map(|number| table.store(&[number]));
            let call = Call {
                letters: 0,
                used: table.entries().len() as u32,
                operation: Operation::Sum { first, second },
            };
            let mut columns = Columns::of(table.entries(), 9);
            let answer = call.answer(&mut columns).expect("a sum");
            let entry = columns.entry(answer.result as usize);
            assert_eq!(entry, Entry::terminal(expected), "{one} + {other}");
        }
    }
}

#[test]
fn the_smaller() {
    let smaller = |first, second| added(Operation::Smaller { first, second }, 20);
    let cut = vec![Entry::branch(1, 0, 1), Entry::branch(0, 9, 1)];
    assert_eq!(smaller(FOUR, 1), Ok((cut, 10)));
    assert_eq!(smaller(2, FOUR), Ok((vec![], FOUR)));
    assert_eq!(smaller(LETTER, COMPLEMENT), Ok((vec![], 0)));
}

#[test]
fn choosing() {
    let choose = |selector, first, second| {
        let operation = Operation::Choose {
            selector,
            first,
            second,
        };
        added(operation, 20)
    };
    assert_eq!(choose(1, FOUR, 0), Ok((vec![], FOUR)));
    assert_eq!(choose(0, FOUR, 2), Ok((vec![], 2)));
    assert_eq!(choose(LETTER, 0, 1), Ok((vec![], COMPLEMENT)));
    let one_half = vec![Entry::branch(0, 2, 7)];
    assert_eq!(choose(LETTER, FOUR, 2), Ok((one_half, 9)));
    for selector in [2, 5, 7, FOUR, 9] {
        assert_eq!(choose(selector, 0, 1), Err(Refusal::Question));
    }
}

#[test]
fn fixing() {
    let fix = |function, letter, bit| {
        let operation = Operation::Fix {
            function,
            letter,
            bit,
        };
        added(operation, 20)
    };
    assert_eq!(fix(FOUR, 0, 0), Ok((vec![], 6)));
    assert_eq!(fix(FOUR, 0, 1), Ok((vec![], 7)));
    assert_eq!(fix(FOUR, 1, 0), Ok((vec![], LETTER)));
    assert_eq!(fix(FOUR, 1, 1), Ok((vec![Entry::branch(0, 5, 2)], 9)));
    assert_eq!(fix(LETTER, 1, 1), Ok((vec![], LETTER)));
    assert_eq!(fix(FOUR, 2, 0), Err(Refusal::Question));
    assert_eq!(fix(FOUR, 0, 2), Err(Refusal::Question));
}

/// The sum adds five entries: with room for four it is refused.
#[test]
fn full() {
    let operation = Operation::Sum {
        first: FOUR,
        second: FOUR,
    };
    for length in 9..14 {
        assert_eq!(added(operation, length), Err(Refusal::Full));
    }
    assert!(added(operation, 14).is_ok());
    assert!(added(number(FOUR, 0), 9).is_ok());
}

#[test]
fn lengths() {
    let question = call(number(0, 0));
    let answer = |mut columns: Columns| question.answer(&mut columns).map(|answer| answer.result);
    for (length, expected) in [
        (9, Ok(0)),
        (65_536, Ok(0)),
        (65_537, Err(Refusal::Buffer)),
        (8, Err(Refusal::Unsound)),
        (3, Err(Refusal::Unsound)),
        (2, Err(Refusal::Buffer)),
        (0, Err(Refusal::Buffer)),
    ] {
        let mut columns = Columns::of(&TABLE, 65_537);
        for column in columns.each_mut() {
            column.truncate(length);
        }
        assert_eq!(answer(columns), expected, "length {length}");
    }
    for at in 0..3 {
        let mut columns = Columns::of(&TABLE, 10);
        columns.each_mut()[at].push(0);
        assert_eq!(answer(columns), Err(Refusal::Buffer));
    }
}

/// Each change alone breaks this condition and no other.
#[test]
fn conditions() {
    let entry = Entry::branch;
    for (at, bad, condition) in [
        (0, Entry::terminal(9), Condition::First),
        (2, Entry::terminal(8), Condition::First),
        (1, Entry::terminal(4), Condition::First),
        (5, entry(NEVER, 5, 1), Condition::Terminal),
        (9, entry(2, 0, 1), Condition::Letter),
        (9, entry(NEVER - 1, 0, 1), Condition::Letter),
        (9, entry(0, 9, 1), Condition::Earlier),
        (9, entry(0, 1, 10), Condition::Earlier),
        (9, entry(0, 1, NEVER), Condition::Earlier),
        (8, entry(0, 6, 6), Condition::Different),
        (9, entry(1, 7, 0), Condition::Larger),
        (9, entry(1, 0, LETTER), Condition::Larger),
        (9, entry(1, 0, 5), Condition::Once),
        (9, Entry::terminal(NEVER), Condition::Once),
        (10, entry(0, 0, 1), Condition::Rest),
        (11, entry(0, 1, 0), Condition::Rest),
        (11, entry(1, 0, 0), Condition::Rest),
    ] {
        // Ten entries, the last a function of letter 1.
        let mut columns = Columns::of(&TABLE, 12);
        columns.put(9, entry(1, 5, 0));
        assert!(Table::read(&columns, 10, LETTERS).is_ok());
        columns.put(at, bad);
        let broken = Table::read(&columns, 10, LETTERS).expect_err("a damaged table");
        assert!(broken.into_iter().eq([condition]), "{bad:?} at {at}");
    }
    for used in [0, 1, 2, 13, u32::MAX] {
        let broken = Table::read(&Columns::of(&TABLE, 12), used, LETTERS).map(|_| ());
        assert_eq!(broken, Err([Condition::Used].into()), "used {used}");
    }
}

/// 8 before 7 before 9 before 6.
#[test]
fn order_of_refusals() {
    let full = Operation::Sum {
        first: FOUR,
        second: FOUR,
    };
    let mut columns = Columns::of(&TABLE, 9);
    assert_eq!(call(full).answer(&mut columns), Err(Refusal::Full));
    let many = Call {
        letters: 13,
        ..call(full)
    };
    assert_eq!(many.answer(&mut columns), Err(Refusal::Question));
    let few = Call {
        letters: 1,
        ..call(number(9, 9))
    };
    assert_eq!(few.answer(&mut columns), Err(Refusal::Unsound));
    columns.low[2] = 8;
    assert_eq!(many.answer(&mut columns), Err(Refusal::Unsound));
    columns.high.pop();
    assert_eq!(many.answer(&mut columns), Err(Refusal::Buffer));
}

/// A letter above 12 is sound with more letters still, and those are refused.
#[test]
fn too_many_letters() {
    let mut columns = Columns::of(&TABLE, 10);
    columns.put(9, Entry::branch(14, 0, 1));
    for (letters, expected) in [
        (12, Refusal::Unsound),
        (14, Refusal::Unsound),
        (15, Refusal::Question),
        (u32::MAX, Refusal::Question),
    ] {
        let call = Call {
            letters,
            used: 10,
            operation: number(0, 0),
        };
        assert_eq!(call.answer(&mut columns), Err(expected), "{letters}");
    }
}

#[test]
fn fresh_columns() {
    let mut columns = Columns::of(&TABLE, 12);
    columns.low[11] = 7;
    assert_eq!(fresh(&mut columns), Ok(()));
    assert_eq!(columns, Columns::of(&FIRST, 12));
    let short = Columns::of(&[], 2);
    let mut columns = short.clone();
    assert_eq!(fresh(&mut columns), Err(Refusal::Buffer));
    assert_eq!(columns, short);
}

/// What is stored is read again, equal functions have one entry and different
/// ones two, and the table stays sound.
#[test]
fn stored_functions() {
    let mut random = Random::new(14);
    for letters in 0..=9 {
        let mut table = Table::fresh(letters);
        let mut stored: Vec<(u32, Vec<u32>)> = Vec::new();
        for _ in 0..40 {
            let function = tables::function(&mut random, letters);
            let entry = table.store(&function);
            for (other, numbers) in &stored {
                assert_eq!(*other == entry, *numbers == function);
            }
            stored.push((entry, function));
        }
        for (entry, function) in stored {
            assert_eq!(table.function(entry), Ok(function));
        }
        let used = table.entries().len();
        let columns = Columns::of(table.entries(), used + 1);
        assert!(Table::read(&columns, used as u32, letters).is_ok());
    }
}

/// The makers give sound tables of the count that was asked for, and can break
/// each condition alone.
#[test]
fn made_tables() {
    let mut random = Random::new(15);
    let mut broken = [0; Condition::ALL.len()];
    for round in 0..1_000 {
        let letters = random.between(0, MOST_LETTERS);
        let count = random.spread(3, 300) as usize;
        let entries = tables::table(&mut random, letters, count);
        assert_eq!(entries.len(), count, "round {round}");
        let columns = Columns::of(&entries, count + 3);
        let sound = Table::read(&columns, count as u32, letters);
        assert!(sound.is_ok(), "round {round}: {sound:?}");
        for (condition, times) in Condition::ALL.into_iter().zip(&mut broken) {
            let mut call = Call {
                letters,
                used: count as u32,
                operation: number(0, 0),
            };
            let mut damaged = columns.clone();
            if unsound::break_alone(&mut random, condition, &mut damaged, &mut call) {
                *times += 1;
                assert_eq!(call.answer(&mut damaged), Err(Refusal::Unsound));
            }
        }
    }
    assert!(broken.iter().all(|&times| times > 500), "{broken:?}");
}
