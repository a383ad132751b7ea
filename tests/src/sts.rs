//! The tool's calls, as `include/sts.h` declares them. Each gives 0, or a
//! refusal's number.

use crate::functions::Operation;
use crate::simulator::calls::Call;

mod raw {
    /// Declares calls on a table: their first parameters are the same.
    macro_rules! calls_on_a_table {
        ($($name:ident($column:ty, $($parameter:ident: $kind:ty),*);)*) => {
            extern "C" {
                $(pub fn $name(
                    letters: u32,
                    letter: $column,
                    letter_length: usize,
                    low: $column,
                    low_length: usize,
                    high: $column,
                    high_length: usize,
                    $($parameter: $kind),*
                ) -> u32;)*
            }
        };
    }

    calls_on_a_table! {
        sts_choose(*mut u32, used: *mut u32, selector: u32, first: u32, second: u32, entry: *mut u32);
        sts_smaller(*mut u32, used: *mut u32, first: u32, second: u32, entry: *mut u32);
        sts_sum(*mut u32, used: *mut u32, first: u32, second: u32, entry: *mut u32);
        sts_fix(*mut u32, used: *mut u32, function: u32, letter_number: u32, bit: u32, entry: *mut u32);
        sts_number(*const u32, used: u32, function: u32, pattern: u32, number: *mut u32);
        sts_count(*const u32, used: u32, function: u32, count: *mut u32);
    }

    extern "C" {
        pub fn sts_read(
            file: *const u8,
            file_length: usize,
            header: *mut u32,
            header_length: usize,
        ) -> u32;

        pub fn sts_save(
            file: *const u8,
            file_length: usize,
            out: *mut u8,
            out_length: usize,
            length: *mut u32,
        ) -> u32;

        pub fn sts_small(place: u32, out: *mut u8, out_length: usize, length: *mut u32) -> u32;

        pub fn sts_fresh(
            letter: *mut u32,
            letter_length: usize,
            low: *mut u32,
            low_length: usize,
            high: *mut u32,
            high_length: usize,
        ) -> u32;
    }

    /// Declares calls that advance a run. Parameters that differ come first and
    /// last; `used` stands between the table and the record.
    macro_rules! calls_on_a_run {
        ($($name:ident($($first:ident: $first_kind:ty)?; $($used:ident: $used_kind:ty)?);)*) => {
            extern "C" {
                $(pub fn $name(
                    file: *const u8,
                    file_length: usize,
                    $($first: $first_kind,)?
                    letter: *mut u32,
                    letter_length: usize,
                    low: *mut u32,
                    low_length: usize,
                    high: *mut u32,
                    high_length: usize,
                    $($used: $used_kind,)?
                    record: *mut u32,
                    record_length: usize,
                    work_letter: *mut u32,
                    work_letter_length: usize,
                    work_low: *mut u32,
                    work_low_length: usize,
                    work_high: *mut u32,
                    work_high_length: usize,
                ) -> u32;)*
            }
        };
    }

    calls_on_a_run! {
        sts_start(; used: u32);
        sts_step(;);
        sts_run(until: u32;);
    }

    extern "C" {
        pub fn sts_advance(
            file: *const u8,
            file_length: usize,
            letter: *mut u32,
            letter_length: usize,
            low: *mut u32,
            low_length: usize,
            high: *mut u32,
            high_length: usize,
            moment: *mut super::Moment,
            work_letter: *mut u32,
            work_letter_length: usize,
            work_low: *mut u32,
            work_low_length: usize,
            work_high: *mut u32,
            work_high_length: usize,
        ) -> u32;

        pub fn sts_ask(
            file: *const u8,
            file_length: usize,
            letter: *const u32,
            letter_length: usize,
            low: *const u32,
            low_length: usize,
            high: *const u32,
            high_length: usize,
            record: *const u32,
            record_length: usize,
            node: u32,
            pattern: u32,
            answer: *mut u32,
            answer_length: usize,
        ) -> u32;
    }
}

/// Reads a cell file and gives its header's numbers.
pub fn read(file: &[u8], header: &mut [u32]) -> u32 {
    // SAFETY: both pointers are valid for their lengths, only the second is
    // written to, and the two borrows do not overlap.
    unsafe { raw::sts_read(file.as_ptr(), file.len(), header.as_mut_ptr(), header.len()) }
}

/// Writes the saved form of a cell file to the front of `out`, and its length to
/// `length`.
pub fn save(file: &[u8], out: &mut [u8], length: &mut u32) -> u32 {
    // SAFETY: the pointers are valid for their lengths, only the last two are
    // written to, and the borrows do not overlap.
    unsafe {
        raw::sts_save(
            file.as_ptr(),
            file.len(),
            out.as_mut_ptr(),
            out.len(),
            length,
        )
    }
}

/// Writes the small cell at a place of their list to the front of `out`, and its
/// length to `length`.
pub fn small(place: u32, out: &mut [u8], length: &mut u32) -> u32 {
    // SAFETY: the pointers are valid for their lengths, and the borrows do not
    // overlap.
    unsafe { raw::sts_small(place, out.as_mut_ptr(), out.len(), length) }
}

/// Makes the three columns a fresh table.
pub fn fresh([letter, low, high]: [&mut [u32]; 3]) -> u32 {
    // SAFETY: the pointers are valid for their lengths, and the borrows do not
    // overlap.
    unsafe {
        raw::sts_fresh(
            letter.as_mut_ptr(),
            letter.len(),
            low.as_mut_ptr(),
            low.len(),
            high.as_mut_ptr(),
            high.len(),
        )
    }
}

/// Calls the export of an operation on a table of so many letters. `result`
/// receives the entry or the number.
pub fn call(
    operation: Operation,
    letters: u32,
    [letter, low, high]: [&mut [u32]; 3],
    used: &mut u32,
    result: &mut u32,
) -> u32 {
    macro_rules! on_the_table {
        ($name:ident, $($argument:expr),*) => {
            // SAFETY: the pointers are valid for their lengths, and the borrows
            // do not overlap.
            unsafe {
                raw::$name(
                    letters,
                    letter.as_mut_ptr(),
                    letter.len(),
                    low.as_mut_ptr(),
                    low.len(),
                    high.as_mut_ptr(),
                    high.len(),
                    $($argument),*
                )
            }
        };
    }
    match operation {
        Operation::Choose {
            selector,
            first,
            second,
        } => on_the_table!(sts_choose, used, selector, first, second, result),
        Operation::Smaller { first, second } => {
            on_the_table!(sts_smaller, used, first, second, result)
        }
        Operation::Sum { first, second } => on_the_table!(sts_sum, used, first, second, result),
        Operation::Fix {
            function,
            letter,
            bit,
        } => on_the_table!(sts_fix, used, function, letter, bit, result),
        Operation::Number { function, pattern } => {
            on_the_table!(sts_number, *used, function, pattern, result)
        }
        Operation::Count { function } => on_the_table!(sts_count, *used, function, result),
    }
}

/// What is lent to a call on a run. The calls take what concerns them.
pub struct Lent<'a> {
    pub table: [&'a mut [u32]; 3],
    pub record: &'a mut [u32],
    pub working: [&'a mut [u32]; 3],
    pub answer: &'a mut [u32],
}

/// Calls the export of a call on a run.
#[inline]
pub fn call_on_run(call: Call, file: &[u8], lent: Lent) -> u32 {
    let [letter, low, high] = lent.table;
    let [work_letter, work_low, work_high] = lent.working;
    let (record, answer) = (lent.record, lent.answer);
    macro_rules! on_the_run {
        ($name:ident, $($first:expr)?, $($used:expr)?) => {
            // SAFETY: the pointers are valid for their lengths, and the borrows
            // do not overlap.
            unsafe {
                raw::$name(
                    file.as_ptr(),
                    file.len(),
                    $($first,)?
                    letter.as_mut_ptr(),
                    letter.len(),
                    low.as_mut_ptr(),
                    low.len(),
                    high.as_mut_ptr(),
                    high.len(),
                    $($used,)?
                    record.as_mut_ptr(),
                    record.len(),
                    work_letter.as_mut_ptr(),
                    work_letter.len(),
                    work_low.as_mut_ptr(),
                    work_low.len(),
                    work_high.as_mut_ptr(),
                    work_high.len(),
                )
            }
        };
    }
    match call {
        Call::Start { used } => on_the_run!(sts_start, , used),
        Call::Step => on_the_run!(sts_step, ,),
        Call::Run { until } => on_the_run!(sts_run, until,),
        // SAFETY: the pointers are valid for their lengths, and the borrows do not
        // overlap.
        Call::Ask { node, pattern } => unsafe {
            raw::sts_ask(
                file.as_ptr(),
                file.len(),
                letter.as_ptr(),
                letter.len(),
                low.as_ptr(),
                low.len(),
                high.as_ptr(),
                high.len(),
                record.as_ptr(),
                record.len(),
                node,
                pattern,
                answer.as_mut_ptr(),
                answer.len(),
            )
        },
    }
}

/// The record of a run as a struct, `struct sts_moment` in C.
#[derive(Clone, Debug, PartialEq)]
#[repr(C)]
pub struct Moment {
    pub time: u32,
    pub used: u32,
    pub values: [u32; 24],
    pub changes: [u32; 24],
}

impl Moment {
    /// The record in a column.
    pub fn of(record: &[u32]) -> Moment {
        let entries = |from: usize| {
            let places = &record[from..from + 24];
            places.try_into().expect("a record has 24 places for nodes")
        };
        Moment {
            time: record[0],
            used: record[1],
            values: entries(2),
            changes: entries(26),
        }
    }
}

/// Takes one step on a record in a struct.
pub fn advance(
    file: &[u8],
    table: [&mut [u32]; 3],
    moment: &mut Moment,
    working: [&mut [u32]; 3],
) -> u32 {
    let [letter, low, high] = table;
    let [work_letter, work_low, work_high] = working;
    // SAFETY: the pointers are valid for their lengths, the struct is laid out as in
    // C, and the borrows do not overlap.
    unsafe {
        raw::sts_advance(
            file.as_ptr(),
            file.len(),
            letter.as_mut_ptr(),
            letter.len(),
            low.as_mut_ptr(),
            low.len(),
            high.as_mut_ptr(),
            high.len(),
            moment,
            work_letter.as_mut_ptr(),
            work_letter.len(),
            work_low.as_mut_ptr(),
            work_low.len(),
            work_high.as_mut_ptr(),
            work_high.len(),
        )
    }
}

/// The name of the export of a call on a run.
pub fn name_on_run(call: Call) -> &'static str {
    match call {
        Call::Start { .. } => "sts_start",
        Call::Step => "sts_step",
        Call::Run { .. } => "sts_run",
        Call::Ask { .. } => "sts_ask",
    }
}

/// The name of the export of an operation.
pub fn name(operation: Operation) -> &'static str {
    match operation {
        Operation::Choose { .. } => "sts_choose",
        Operation::Smaller { .. } => "sts_smaller",
        Operation::Sum { .. } => "sts_sum",
        Operation::Fix { .. } => "sts_fix",
        Operation::Number { .. } => "sts_number",
        Operation::Count { .. } => "sts_count",
    }
}
