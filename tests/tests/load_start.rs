//! How much a wire's load can matter (document 02, wish 11), on the tool: the next changes
//! that `sts_start` gives to a cell in some state, and to the same with more at one node.

use comparison::cell_file::{Cell, Layout, FIRST_NODE};
use comparison::functions::{Columns, FIRST as TERMINALS, NEVER};
use comparison::load::{any_state, most_growth, raised, room, values, Due};
use comparison::random::Random;
use comparison::refusal::Refusal;
use comparison::replay::{hex, Cases};
use comparison::side_by_side;
use comparison::simulator::calls::{Call, Lent, ANSWER, NEXT, RECORD, WORKING};
use comparison::simulator::circuit::Circuit;
use comparison::tally::Seen;

/// Room for the terminals and a time for each node.
const LENGTH: usize = 32;

/// The next changes after the start of a cell without letters, by node record.
fn start(cell: &Cell) -> Result<Vec<u32>, Refusal> {
    let file = Layout::in_order(cell).file;
    let mut lent = Lent {
        table: Columns::of(&TERMINALS, LENGTH),
        record: vec![0; RECORD],
        working: Columns::of(&[], *WORKING.start()),
        answer: vec![0; ANSWER],
    };
    let used = TERMINALS.len() as u32;
    let answered = side_by_side::call(Call::Start { used }, &file, &mut lent);
    answered.unwrap_or_else(|why| panic!("{why}: file {}", hex(&file)))?;
    let entries = &lent.record[NEXT..][..cell.nodes.len()];
    let time = |&entry: &u32| lent.table.low[entry as usize];
    Ok(entries.iter().map(time).collect())
}

/// The claim at the start of many cells, for every driven node that is due to change.
#[test]
fn at_many_starts() {
    let cases = Cases::first(2_500);
    let mut seen = Seen::default();
    cases.for_each_index(|seed, index| {
        let random = &mut Random::of_case(seed ^ 0x1111, index);
        let cell = any_state(random);
        let circuit = Circuit::new(&cell);
        let values = values(&circuit);
        let light = start(&cell);
        for at in circuit.records() {
            let Some(room) = room(&circuit, at) else {
                continue;
            };
            let more = random.spread(0, room) as u16;
            let heavy = start(&raised(&cell, at, more).expect("an inner node with room"));
            let told = format!("seed {seed} index {index}: {more} more at {at}");
            // A load is no resistance: it brings no refusal 11 and takes none away.
            let (Ok(light), Ok(heavy)) = (&light, &heavy) else {
                let refused = (light.as_ref().err(), heavy.as_ref().err());
                let both = Some(&Refusal::Ceiling);
                assert_eq!(refused, (both, both), "{told}");
                seen.count("refused with the load and without", true);
                continue;
            };
            for node in circuit.records() {
                let due = Due::of(&circuit, &values, node);
                let Some(due) = due.filter(|due| due.driven) else {
                    continue;
                };
                let [light, heavy] = [light, heavy].map(|times| times[node - FIRST_NODE]);
                assert!(
                    light <= heavy,
                    "{told}: node {node} from {light} to {heavy}"
                );
                let last = u64::from(light) + most_growth(due.ohms, more);
                let never = heavy == NEVER;
                match never {
                    true => assert!(last > u64::from(cell.horizon), "{told}: node {node} never"),
                    false => assert!(u64::from(heavy) <= last, "{told}: node {node} at {heavy}"),
                }
                seen.count("past the horizon", never);
                seen.count("at the same time", !never && heavy == light);
                seen.count("later", !never && heavy > light);
                let reached = u64::from(heavy) == last && heavy > light;
                seen.count("later by the bound", !never && reached);
            }
        }
    });
    if cases.complete {
        seen.expect(100);
    }
}
