//! The refusal 11 (document 02, wish 3), on cells that are made so that an arm is about the
//! ceiling of resistances: the tool against the second implementation, and both against
//! numbers that are worked out here.

use comparison::cell_file::{Cell, Layout, Source, FIRST_NODE};
use comparison::draft::{Draft, GROUND, SUPPLY};
use comparison::fights::{self, Fight, ABOVE, BELOW, EXACTLY, FIRST, HORIZON, OPENS};
use comparison::functions::{Columns, Table, FIRST as TERMINALS, LENGTHS, NEVER};
use comparison::generate::records;
use comparison::random::Random;
use comparison::refusal::Refusal;
use comparison::replay::hex;
use comparison::side_by_side;
use comparison::simulator::calls::{
    read_run, Call, Lent, ANSWER, NEXT, RECORD, TIME, USED, VALUES, WORKING,
};
use comparison::simulator::circuit::Circuit;
use comparison::simulator::run::Run;
use comparison::sts;

/// The largest finite resistance, and what a number above it is refused with.
const CEILING: u64 = 1_000_000_000;
const ABOVE_CEILING: u32 = 11;
const FULL: u32 = 6;

const START: Call = Call::Start { used: 3 };

/// A cell that is run, with all that its calls are lent.
#[derive(Clone)]
struct Tried {
    cell: Cell,
    file: Vec<u8>,
    lent: Lent,
    random: Random,
    /// The length of the working table.
    working: usize,
}

impl Tried {
    /// In a fresh table of a length.
    fn new(cell: &Cell, length: usize) -> Tried {
        Tried {
            cell: cell.clone(),
            file: Layout::in_order(cell).file,
            lent: Lent {
                table: Columns::of(&TERMINALS, length),
                record: vec![7; RECORD],
                working: Columns::default(),
                answer: vec![7; ANSWER],
            },
            random: Random::new(61),
            working: *WORKING.start(),
        }
    }

    /// Started in a long table.
    fn started(cell: &Cell) -> Tried {
        let mut tried = Tried::new(cell, 4_096);
        assert_eq!(tried.call(START), 0, "the start");
        tried
    }

    /// Makes a call both ways and gives its number. A refused one leaves the table and
    /// the record as they were, and working is zero after all but 8.
    fn call(&mut self, call: Call) -> u32 {
        self.lent.working = records::working(&mut self.random, self.working);
        let before = self.lent.clone();
        let answered = side_by_side::call(call, &self.file, &mut self.lent);
        let answered =
            answered.unwrap_or_else(|why| panic!("{why}: {call:?}, file {}", hex(&self.file)));
        let number = answered.map_or_else(Refusal::number, |()| 0);
        if number != 0 {
            assert_eq!(self.lent.table, before.table, "the table after {number}");
            assert_eq!(self.lent.record, before.record, "the record after {number}");
        }
        if call.works() && number != Refusal::Buffer.number() {
            assert_eq!(self.lent.working, Columns::of(&[], self.working));
        }
        number
    }

    /// A step is refused, on the record in its column and in a struct, and so is a run
    /// that takes it; the run before it is not.
    fn expect_step_refused(&mut self, time: u32) {
        assert_eq!(self.call(Call::Step), ABOVE_CEILING);
        let before = self.lent.record.clone();
        let advanced = side_by_side::advance(&self.file, &mut self.lent);
        assert_eq!(advanced, Ok(ABOVE_CEILING), "sts_advance");
        assert_eq!(self.lent.record, before, "sts_advance");
        for until in [time, time + 1, HORIZON, u32::MAX] {
            assert_eq!(self.call(Call::Run { until }), ABOVE_CEILING, "{until}");
        }
        assert_eq!(self.call(Call::Run { until: time - 1 }), 0);
        assert_eq!(
            self.lent.record[TIME], before[TIME],
            "no step before {time}"
        );
    }

    fn set(&mut self, node: u8, entry: u32) {
        self.lent.record[VALUES + usize::from(node) - FIRST_NODE] = entry;
    }

    /// The entry of a node's value.
    fn value(&self, node: u8) -> u32 {
        self.lent.record[VALUES + usize::from(node) - FIRST_NODE]
    }
}

/// One side of an arm, where both sides of the far node are finite (document 01, rule 4).
fn side(own: u64, other: u64, r: u64) -> u64 {
    own + r + (r * own).div_ceil(other)
}

/// The high side of the near node's arm in a fight.
fn high(fight: Fight) -> u64 {
    let Fight {
        supply,
        ground,
        weak,
    } = fight;
    let [supply, ground, weak] = [supply, ground, weak].map(u64::from);
    side(supply, ground, weak)
}

/// The fights about the ceiling, each with its number and turned.
fn about_the_ceiling() -> Vec<(Fight, u32)> {
    let mut fights = Vec::new();
    for (set, ohms, number) in [
        (&BELOW[..], CEILING - 1, 0),
        (&EXACTLY, CEILING, 0),
        (&ABOVE, CEILING + 1, ABOVE_CEILING),
    ] {
        for &fight in set {
            assert_eq!(high(fight), ohms, "{fight:?}");
            fights.extend([(fight, number), (fight.turned(), number)]);
        }
    }
    fights
}

/// Exactly the ceiling is answered and one ohm more is refused, on either side. With the
/// strong side at ground no node has to change.
#[test]
fn at_a_start() {
    for (fight, number) in about_the_ceiling() {
        let cell = fights::at_start(fight);
        let mut tried = Tried::new(&cell, 4_096);
        assert_eq!(tried.call(START), number, "{fight:?}");
        if number == 0 && fight.ground < fight.supply {
            let never = tried.lent.record[NEXT..][..2].iter();
            assert!(never.into_iter().all(|&entry| entry == 2), "{fight:?}");
        }
        assert_eq!(sts::read(&tried.file, &mut [0; 5]), 0, "the file is legal");
    }
}

/// Another arm of the near node decides its value, to either side, and the side that is
/// above the ceiling still counts.
#[test]
fn another_arm_decides() {
    for (fight, number) in about_the_ceiling() {
        for rail in [SUPPLY, GROUND] {
            let mut draft = Draft::new(0, HORIZON);
            let [_, near] = fight.draw(&mut draft, fights::ON, Source::Low);
            draft.n(SUPPLY, [rail, near], 10);
            let mut tried = Tried::new(&draft.finish(), 10);
            assert_eq!(tried.call(START), number, "{fight:?}, rail {rail}");
        }
    }
}

/// From a node behind the near one the walk passes an arm of the ceiling, and whatever
/// comes before that is above it.
#[test]
fn further_on() {
    for (fight, number) in about_the_ceiling() {
        let mut draft = Draft::new(0, HORIZON);
        let [_, near] = fight.draw(&mut draft, fights::ON, Source::Low);
        let behind = draft.inner(10, Source::Low);
        draft.n(SUPPLY, [near, behind], 1);
        let mut tried = Tried::new(&draft.finish(), 10);
        assert!(side(high(EXACTLY[0]), 19_020, 1) > CEILING);
        assert_eq!(
            tried.call(START),
            ABOVE_CEILING,
            "{fight:?}, {number} before"
        );
    }
}

/// An input behind the fight counts as a rail does, by the value that it has.
#[test]
fn by_an_input() {
    for (value, number) in [(Source::High, ABOVE_CEILING), (Source::Low, 0)] {
        let Fight {
            supply,
            ground,
            weak,
        } = ABOVE[0];
        let mut draft = Draft::new(0, HORIZON);
        let input = draft.input(value);
        let [far, near] = [(); 2].map(|()| draft.inner(10, Source::Low));
        draft.n(SUPPLY, [input, far], supply);
        draft.n(SUPPLY, [GROUND, far], ground);
        draft.n(SUPPLY, [far, near], weak);
        let mut tried = Tried::new(&draft.finish(), 10);
        assert_eq!(tried.call(START), number, "{value:?}");
    }
}

/// A transistor that closes a loop is broken, and its resistance makes no arm.
#[test]
fn broken_transistors() {
    for (first, second, number) in [
        (1_000, ABOVE[0].weak, 0),
        (ABOVE[0].weak, 1_000, ABOVE_CEILING),
    ] {
        let mut draft = Draft::new(0, HORIZON);
        let fight = Fight {
            weak: first,
            ..ABOVE[0]
        };
        let [far, near] = fight.draw(&mut draft, fights::ON, Source::Low);
        draft.n(SUPPLY, [far, near], second);
        let mut tried = Tried::new(&draft.finish(), 10);
        assert_eq!(tried.call(START), number, "{first} and {second} ohm");
    }
}

/// Steps before the one that is refused are answered; it is refused again and again, and
/// what stands can be asked about.
#[test]
fn at_a_step() {
    for (fight, number) in about_the_ceiling() {
        let mut tried = Tried::started(&fights::with_letters(fight, OPENS));
        let mut steps = 0;
        let answer = loop {
            match tried.call(Call::Step) {
                0 if tried.lent.record[TIME] < OPENS => steps += 1,
                answer => break answer,
            }
        };
        assert_eq!(answer, number, "{fight:?}");
        assert!(steps > 2, "{steps} steps before");
        if number == 0 {
            assert_eq!(tried.lent.record[TIME], OPENS);
            continue;
        }
        assert!(tried.lent.record[TIME] < OPENS);
        tried.expect_step_refused(OPENS);
        let asked = tried.call(Call::Ask {
            node: 2,
            pattern: 3,
        });
        assert_eq!((asked, &tried.lent.answer[..]), (0, &[0, NEVER][..]));
    }
}

/// A run up to the step before is answered; one that takes it keeps nothing.
#[test]
fn in_a_run() {
    for (fight, number) in about_the_ceiling() {
        let tried = Tried::started(&fights::with_letters(fight, OPENS));
        for until in [OPENS, OPENS + 1, HORIZON] {
            let mut run = tried.clone();
            assert_eq!(run.call(Call::Run { until }), number, "{fight:?}");
            assert_eq!(run.lent.record[TIME] == 0, number != 0, "{fight:?}");
        }
        let mut run = tried.clone();
        assert_eq!(run.call(Call::Run { until: OPENS - 1 }), 0);
        assert!(run.lent.record[TIME] >= FIRST);
        if number != 0 {
            run.expect_step_refused(OPENS);
        }
    }
}

/// How many entries a table has when the values of a run are stored in it, and when its
/// next changes are too.
fn needs(run: &Run, circuit: &Circuit, mut table: Table) -> [usize; 2] {
    let functions = run.functions(circuit);
    let (values, changes) = functions.split_at(functions.len() / 2);
    [values, changes].map(|functions| {
        for function in functions {
            table.store(function);
        }
        table.entries().len()
    })
}

/// Where the table is too short as well, for the values or for the next changes, it is 11;
/// with a stronger transistor in the weak one's place it is 6.
#[test]
fn before_full() {
    let weak = ABOVE[0];
    let strong = Fight {
        weak: 1_000,
        ..weak
    };
    for opens_at in [0, OPENS] {
        let cell = fights::with_letters(strong, opens_at);
        let circuit = Circuit::new(&cell);
        let mut tried = Tried::new(&fights::with_letters(weak, opens_at), 4_096);
        let mut other = Tried::new(&cell, 4_096);
        let (call, used, needs) = match opens_at {
            0 => {
                let run = Run::start(&circuit).expect("a start");
                (START, 3, needs(&run, &circuit, Table::fresh(cell.letters)))
            }
            time => {
                let until = time - 1;
                for tried in [&mut tried, &mut other] {
                    assert_eq!(tried.call(START), 0);
                    assert_eq!(tried.call(Call::Run { until }), 0);
                }
                let (table, mut run, _) = read_run(&circuit, &other.lent).expect("a run");
                run.step(&circuit, time).expect("a step");
                let used = other.lent.record[USED] as usize;
                (Call::Step, used, needs(&run, &circuit, table))
            }
        };
        let [values, all] = needs;
        assert!(used < values && values < all, "{used}, {values}, {all}");
        for length in used..all + 3 {
            let expected = if length < all { FULL } else { 0 };
            for (tried, expected) in [(&tried, ABOVE_CEILING), (&other, expected)] {
                let mut tried = tried.clone();
                tried.lent.table = Columns::of(&tried.lent.table.entries(used), length);
                assert_eq!(tried.call(call), expected, "{call:?}, length {length}");
            }
        }
    }
}

/// In a run the first refused step gives the number: one that is full before the one that
/// is above the ceiling.
#[test]
fn full_at_an_earlier_step() {
    let mut tried = Tried::started(&fights::with_letters(ABOVE[0], OPENS));
    let used = tried.lent.record[USED] as usize;
    tried.lent.table = Columns::of(&tried.lent.table.entries(used), used);
    assert_eq!(tried.call(Call::Run { until: OPENS }), FULL);
    assert_eq!(tried.call(Call::Step), FULL);
}

/// Twelve transistors in parallel are just enough, at one pattern of 4,096. Fixing a
/// letter low removes the refusal, fixing letters high does not.
#[test]
fn at_one_pattern() {
    let parallel = |a: u64, b: u64| (a * b).div_ceil(a + b);
    let pulls = |count: usize| {
        let pulls = vec![u64::from(fights::PULL); count];
        pulls.into_iter().reduce(parallel).expect("one at least")
    };
    let high = |count| side(240_000, pulls(count), 240_000);
    assert!(high(11) <= CEILING && high(12) > CEILING);

    for time in [0, OPENS] {
        let cell = fights::one_pattern(time);
        let fixed = |letters: std::ops::Range<u8>, bit| {
            letters.fold(cell.clone(), |cell, letter| cell.fixed(letter, bit))
        };
        for working in [*WORKING.start(), *WORKING.end()] {
            for length in [3, 10, 4_096, 65_536] {
                expect_at(&cell, time, length, working, ABOVE_CEILING);
            }
            expect_at(&fixed(0..12, true), time, 100, working, ABOVE_CEILING);
            expect_at(&fixed(3..8, true), time, 100, working, ABOVE_CEILING);
            expect_at(&fixed(3..4, false), time, 4_096, working, 0);
        }
    }
}

/// The start, or the step to a time, gives this number.
fn expect_at(cell: &Cell, time: u32, length: usize, working: usize, number: u32) {
    let mut tried = Tried::new(cell, length);
    tried.working = working;
    let what = format!("at {time}, length {length}, working {working}");
    if time == 0 {
        assert_eq!(tried.call(START), number, "{what}");
        return;
    }
    // The far node's rise pends past the horizon: what the start adds fits.
    assert_eq!(tried.call(START), 0, "{what}");
    assert_eq!(tried.call(Call::Step), number, "{what}");
}

/// Some inner node is above the ceiling at some pattern of a record.
fn is_above(tried: &Tried) -> bool {
    let circuit = Circuit::new(&tried.cell);
    let (_, run, _) = read_run(&circuit, &tried.lent).expect("a run");
    run.is_above_ceiling(&circuit)
}

/// At one pattern of 4,096 beside functions of thousands of entries, with working tables of
/// both lengths, in a table that is long enough and in one without room for an entry more.
#[test]
fn beside_large_functions() {
    // The bit of letter 11 with which no pattern is above the ceiling.
    for (cell, time, other) in [
        (fights::in_a_ring(240), 240, false),
        (fights::in_a_row(), fights::AGAIN, true),
    ] {
        let mut tried = Tried::new(&cell, *LENGTHS.end());
        assert_eq!(tried.call(START), 0);
        assert_eq!(tried.call(Call::Run { until: time - 1 }), 0);
        let used = tried.lent.record[USED] as usize;
        let long = tried.lent.table.clone();
        let full = Columns::of(&long.entries(used), used);
        for working in [*WORKING.start(), *WORKING.end()] {
            tried.working = working;
            for table in [&full, &long] {
                tried.lent.table = table.clone();
                assert_eq!(tried.call(Call::Step), ABOVE_CEILING);
            }
        }
        tried.file = Layout::in_order(&cell.fixed(11, other)).file;
        assert_eq!(tried.call(Call::Step), 0);
        assert_eq!(tried.lent.record[TIME], time);
        let entries = tried.lent.record[USED];
        assert!(entries > 2_000, "{entries} entries at {time}");
    }
}

/// A record that was handed over may have a node above the ceiling. Where a step does not
/// reconsider it, it is not looked at; where it does, and at a pattern at which it does so,
/// the step is refused.
#[test]
fn handed_over() {
    let off = fights::off();
    let mut run = Tried::started(&off.cell);
    assert_eq!(run.call(Call::Run { until: 30 }), 0);
    assert!(!is_above(&run));
    for (entry, number) in [
        (1, ABOVE_CEILING),
        (run.value(off.letter), ABOVE_CEILING),
        (run.value(off.complement), 0),
        (0, 0),
    ] {
        let mut tried = run.clone();
        tried.set(off.weak, entry);
        assert_eq!(is_above(&tried), entry != 0);
        let mut whole = tried.clone();
        assert_eq!(whole.call(Call::Run { until: OPENS }), number);
        assert_eq!(tried.call(Call::Run { until: OPENS - 1 }), 0);
        assert!(tried.lent.record[TIME] >= FIRST);
        assert_eq!(is_above(&tried), entry != 0, "it still stands there");
        match number {
            0 => assert_eq!(tried.call(Call::Step), 0),
            _ => tried.expect_step_refused(OPENS),
        }
    }
}

/// What comes before 11 in the order, and 10, which comes instead of it.
#[test]
fn order_of_refusals() {
    let mut tried = Tried::started(&fights::with_letters(ABOVE[0], OPENS));
    assert_eq!(tried.call(Call::Run { until: OPENS - 1 }), 0);

    let mut spoilt = tried.clone();
    spoilt.working = WORKING.start() - 1;
    assert_eq!(spoilt.call(Call::Step), 8);
    let mut spoilt = tried.clone();
    spoilt.lent.record[USED] += 1;
    assert_eq!(spoilt.call(Call::Step), 7);
    let mut cell = tried.cell.clone();
    cell.transistors[0].resistance = 240_001;
    let mut spoilt = tried.clone();
    spoilt.file = Layout::in_order(&cell).file;
    assert_eq!(spoilt.call(Call::Step), 4);
    assert_eq!(spoilt.call(START), 4);
    cell.transistors[0].resistance = 240_000;
    spoilt.file = Layout::in_order(&cell).file;
    assert_eq!(spoilt.call(Call::Step), ABOVE_CEILING);

    let off = fights::off();
    let mut finished = Tried::started(&off.cell);
    assert_eq!(finished.call(Call::Run { until: HORIZON }), 0);
    finished.set(off.weak, 1);
    assert!(is_above(&finished));
    assert_eq!(finished.call(Call::Step), 10);
    assert_eq!(finished.call(Call::Run { until: HORIZON }), 0);
}
