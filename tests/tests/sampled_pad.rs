//! The sample cell `sampled-pad`: where and why it is refused 11, and what it lists with the
//! transistor that was meant (document 02, wish 3).

use comparison::cell_file::{Cell, Layout};
use comparison::other_tool::Sample;
use comparison::simulator::circuit::Circuit;
use comparison::simulator::pattern::State;
use comparison::waves;

const SAMPLE: Sample = Sample("sampled-pad");

/// The mistake, what was meant, and the transistor.
const DRAWN: u32 = 150_000;
const MEANT: u32 = 1_500;
const WEAK: usize = 2;

/// The cell with another resistance of this transistor.
fn with(resistance: u32) -> Cell {
    let mut cell = SAMPLE.cell();
    assert_eq!(cell.transistors[WEAK].resistance, DRAWN);
    cell.transistors[WEAK].resistance = resistance;
    cell
}

/// The listing breaks off after the last time before the sample is taken.
#[test]
fn refused_after_the_last_listed_time() {
    let listing = SAMPLE.listing();
    assert_eq!(listing, ["500 2 2", "560 4 2", "refused 11"]);
    let next = SAMPLE.cell().schedule[1];
    assert_eq!((next.time, next.node), (1_000, 3));
}

/// The keeper and the driver as they are seen from the sample, by rule 4.
#[test]
fn why() {
    let (keeper, driver) = (200_000, 20);
    let seen = |weak: u64| keeper + weak + (weak * keeper).div_ceil(driver);
    assert_eq!(seen(u64::from(DRAWN)), 1_500_350_000);
    assert_eq!(seen(u64::from(MEANT)), 15_201_500);
}

/// It is one pattern of four at which the step to 1000 ps is refused.
#[test]
fn at_one_pattern() {
    let cell = SAMPLE.cell();
    let circuit = Circuit::new(&cell);
    for pattern in 0..4 {
        let mut state = State::start(&circuit, pattern).expect("a start");
        for time in [500, 560] {
            state.step(&circuit, pattern, time).expect("a step");
        }
        let refused = state.step(&circuit, pattern, 1_000).is_err();
        assert_eq!(refused, pattern == 3, "pattern {pattern}");
    }
}

/// The listing of a cell.
fn listing(cell: &Cell) -> String {
    waves::of_file(&Layout::in_order(cell).file)
}

/// The weakest transistor that is not refused, and letters that are fixed.
#[test]
fn removed() {
    let is_refused = |cell: &Cell| listing(cell).ends_with("refused 11\n");
    assert!(!is_refused(&with(99_970)));
    assert!(is_refused(&with(99_971)));
    for letter in [0, 1] {
        assert!(!is_refused(&with(DRAWN).fixed(letter, false)));
        assert!(is_refused(&with(DRAWN).fixed(letter, true)));
    }
}

/// With the transistor that was meant the run goes on, as `cells/README.md` tells.
#[test]
fn as_it_was_meant() {
    let listing = listing(&with(MEANT));
    let rest = listing.split_once("560 4 2\n").expect("a line at 560 ps").1;
    assert_eq!(rest, "1000 3 2\n5030 5 1\n5045 6 3\nend 5045 5\n");
}
