//! How much a wire's load can matter (document 02, wish 11), on the second implementation:
//! the claim in many states of many cells, that each word of it is needed, and what
//! `docs/LOAD.md` tells of the samples.

use comparison::cell_file::Layout;
use comparison::load::{any_state, most_growth, raised, room, values, Due};
use comparison::other_tool::{column_of, Sample};
use comparison::program::in_repository;
use comparison::random::Random;
use comparison::replay::{hex, Cases};
use comparison::simulator::circuit::Circuit;
use comparison::simulator::pattern::State;
use comparison::simulator::run::Run;
use comparison::tally::Seen;
use comparison::vectors::text;
use comparison::waves;

/// A state of a cell, with some more at one node.
struct Pair<'a> {
    /// The seed and the index of the case.
    case: (u64, u64),
    light: &'a Circuit<'a>,
    heavy: &'a Circuit<'a>,
    values: &'a [bool],
    at: usize,
    more: u16,
}

impl Pair<'_> {
    /// Holds the claim against a node, and counts what it comes to.
    fn look(&self, node: usize, seen: &mut Seen) {
        let due = |circuit| Due::of(circuit, self.values, node);
        let (Some(light), heavy) = (due(self.light), due(self.heavy)) else {
            return;
        };
        if !light.driven {
            let another = heavy.is_none_or(|heavy| heavy.new != light.new);
            seen.count("charge decides, and another value comes of it", another);
            return;
        }
        let told = format!(
            "{:?}: node {node}, {} more at {}",
            self.case, self.more, self.at
        );
        let heavy = heavy.unwrap_or_else(|| panic!("{told}: it is not due to change"));
        let same = |due: Due| (due.new, due.driven, due.ohms);
        assert_eq!(same(heavy), same(light), "{told}");
        assert!(light.delay <= heavy.delay, "{told}: {light:?} {heavy:?}");
        let grown = heavy.delay - light.delay;
        let most = most_growth(light.ohms, self.more);
        assert!(grown <= most, "{told}: {light:?} {heavy:?}");

        seen.count("the bound is reached", grown == most);
        seen.count("the delay stays", grown == 0);
        seen.count("the delay grows by less", 0 < grown && grown < most);
        seen.count("another node was raised", node != self.at && grown > 0);
        let rounded_down = light.ohms * u64::from(self.more) / 1000;
        seen.count("more than without the rounding up", grown > rounded_down);
        let own = Due::of(self.light, self.values, self.at).filter(|own| own.driven);
        let by_own = own.is_some_and(|own| grown > most_growth(own.ohms, self.more));
        seen.count("more than by the raised node's own ohms", by_own);
    }
}

/// The claim for every driven node that is due to change and every inner node.
#[test]
fn in_many_states() {
    let cases = Cases::first(6_000);
    let mut seen = Seen::default();
    cases.for_each_index(|seed, index| {
        let random = &mut Random::of_case(seed ^ 0x11, index);
        let cell = any_state(random);
        if !cases.complete {
            println!("{}", hex(&Layout::in_order(&cell).file));
        }
        let light = &Circuit::new(&cell);
        let values = &values(light);
        for at in light.records() {
            let Some(room) = room(light, at).filter(|&room| room > 0) else {
                assert_eq!(raised(&cell, at, 1), None);
                continue;
            };
            let more = random.spread(1, room) as u16;
            let heavier = raised(&cell, at, more).expect("an inner node with room");
            let pair = Pair {
                case: (seed, index),
                light,
                heavy: &Circuit::new(&heavier),
                values,
                at,
                more,
            };
            for node in light.records() {
                pair.look(node, &mut seen);
            }
        }
    });
    if cases.complete {
        seen.expect(100);
    }
}

/// The state of a pattern once all of a time has happened.
fn come_to(circuit: &Circuit, pattern: usize, time: u32) -> State {
    let mut run = Run::start(circuit).expect("a start");
    while let Some(next) = run.next_time(circuit).filter(|&next| next <= time) {
        run.step(circuit, next).expect("a step");
    }
    assert_eq!(run.now, time, "something happens then");
    run.states.swap_remove(pattern)
}

/// The rows of the table in `docs/LOAD.md`: a sample, and numbers.
fn rows() -> Vec<(String, Vec<u64>)> {
    let page = text(&in_repository("docs/LOAD.md"));
    let table = page
        .lines()
        .skip_while(|line| !line.starts_with("| sample |"));
    let rows = table.skip(2).take_while(|line| line.starts_with('|'));
    let read = |row: &str| {
        let mut fields = row.trim_matches('|').split('|').map(str::trim);
        let name = fields.next()?.trim_matches('`').to_owned();
        let numbers = fields.map(|field| field.parse().expect("a number"));
        Some((name, numbers.collect()))
    };
    rows.filter_map(read).collect()
}

/// Each row of the table in `docs/LOAD.md`.
#[test]
fn as_the_page_tells() {
    let rows = rows();
    assert!(rows.len() >= 5, "{} rows", rows.len());
    for (name, numbers) in rows {
        let [pattern, time, node, at, more, told @ ..] = &numbers[..] else {
            panic!("{name}: {numbers:?}");
        };
        let cell = Sample(&name).cell();
        let light = Circuit::new(&cell);
        let state = come_to(&light, *pattern as usize, *time as u32);
        let heavier = raised(&cell, *at as usize, *more as u16).expect("an inner node");
        let due = |circuit| Due::of(circuit, &state.values, *node as usize).expect("a change");
        let [light, heavy] = [&light, &Circuit::new(&heavier)].map(due);
        let most = most_growth(light.ohms, *more as u16);
        assert!(light.driven, "{name}");
        let told: [u64; 4] = told.try_into().expect("ohms, two delays and the most");
        assert_eq!(told, [light.ohms, light.delay, heavy.delay, most], "{name}");
    }
}

/// The sample `race`: with more at node 3, node 4 rises that would not have, and before it.
#[test]
fn whole_runs() {
    let race = Sample("race");
    assert_eq!(race.listing(), ["100 2 1", "150 3 1", "end 150 2"]);
    let heavier = raised(&race.cell(), 3, 20).expect("an inner node");
    let listing = waves::after_start(&Layout::in_order(&heavier).file);
    assert_eq!(listing, ["100 2 1", "160 4 1", "170 3 1", "end 170 3"]);
    let page = in_repository("docs/LOAD.md");
    for (column, lines) in (1..).zip([race.listing(), listing]) {
        assert_eq!(column_of(&page, "| `cells/race.cell` |", column), lines);
    }
}
