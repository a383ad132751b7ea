//! The cells that the calls on a run are compared on: each rule acts in many of
//! them, in each of the ways that could go wrong.

use comparison::cell_file::Cell;
use comparison::functions::NEVER;
use comparison::generate::live::{self, Size};
use comparison::random::Random;
use comparison::simulator::arithmetic::Ohms;
use comparison::simulator::circuit::Circuit;
use comparison::simulator::pattern::{next_change, State};
use comparison::simulator::reach::Reach;
use comparison::simulator::walk::{Ends, Walk};
use comparison::tally::Seen;

/// One pattern of a cell before and after its start or a step.
struct Moment<'a> {
    circuit: &'a Circuit<'a>,
    before: &'a State,
    after: &'a State,
    time: u32,
}

impl Moment<'_> {
    fn inner(&self) -> impl Iterator<Item = usize> + '_ {
        let nodes = self.circuit.records();
        nodes.filter(|&node| self.circuit.is_inner(node))
    }

    /// The node changed its value. None does in a start.
    fn flipped(&self, node: usize) -> bool {
        self.before.values[node] != self.after.values[node]
    }

    fn reach(&self) -> Reach<'_> {
        Reach {
            circuit: self.circuit,
            before: &self.before.values,
            after: &self.after.values,
        }
    }

    /// The state as rule 1 leaves it.
    fn arrived(&self) -> State {
        let mut state = self.after.clone();
        for node in self.inner() {
            state.next[node] = match self.flipped(node) {
                true => NEVER,
                false => self.before.next[node],
            };
        }
        state
    }

    /// The nodes that a start or step considers.
    fn considered(&self) -> Vec<bool> {
        match self.time {
            0 => vec![true; self.circuit.nodes()],
            _ => self.reach().reconsidered(),
        }
    }
}

/// How the run of one pattern ended: finished, refused for the ceiling at its start or a
/// step, or given up.
#[derive(Clone, Copy, Debug, PartialEq, Eq)]
enum End {
    Finished,
    Refused { start: bool },
    GivenUp,
}

/// Starts one pattern of a cell and takes some steps.
fn run(cell: &Cell, pattern: usize, mut look: impl FnMut(&Moment)) -> End {
    let circuit = &Circuit::new(cell);
    let Ok(mut state) = State::start(circuit, pattern) else {
        return End::Refused { start: true };
    };
    let mut now = 0;
    let mut look = |before: &State, after: &State, time| {
        look(&Moment {
            circuit,
            before,
            after,
            time,
        })
    };
    look(&state, &state, now);
    for _ in 0..30 {
        let scheduled = cell.schedule.iter().map(|entry| entry.time);
        let times = state.next.iter().copied().chain(scheduled);
        let Some(time) = times.filter(|&time| time > now && time != NEVER).min() else {
            return End::Finished;
        };
        let before = state.clone();
        if state.step(circuit, pattern, time).is_err() {
            return End::Refused { start: false };
        }
        look(&before, &state, time);
        now = time;
    }
    End::GivenUp
}

/// Counts what happens in a start or step.
fn look(seen: &mut Seen, moment: &Moment) {
    let &Moment {
        circuit,
        after,
        time,
        ..
    } = moment;
    seen.count("step", time > 0);
    let flips = moment.inner().filter(|&node| moment.flipped(node)).count();
    seen.count("several nodes flip", flips > 1);
    let kept = circuit.kept(&after.values);
    let conducts = |transistor| circuit.conducts(transistor, &after.values);
    let broken = (0..kept.len()).any(|transistor| conducts(transistor) && !kept[transistor]);
    seen.count("loop broken", broken);
    look_at_reach(seen, moment);
    let walk = Walk {
        circuit,
        values: &after.values,
        kept: &kept,
    };
    let considered = moment.considered();
    // As if channels led on that do not conduct.
    let linked = moment.reach().along(|_| true);
    for node in moment.inner() {
        match considered[node] {
            true => look_at(seen, &walk, moment, node),
            false => look_past(seen, &walk, moment, node, linked[node]),
        }
    }
}

/// What a step disturbs, and what leads there.
fn look_at_reach(seen: &mut Seen, moment: &Moment) {
    let reach = moment.reach();
    let circuit = moment.circuit;
    for transistor in 0..circuit.cell.transistors.len() {
        let ends = circuit.ends(transistor);
        let inner = ends.iter().filter(|&&end| circuit.is_inner(end)).count();
        let [before, after] = [reach.before, reach.after]
            .map(|values| inner == 2 && circuit.conducts(transistor, values));
        seen.count("leads only before", before && !after);
        seen.count("leads only after", !before && after);
        let off = inner > 0 && !reach.conducts(transistor);
        seen.count("disturbed and off", off && reach.is_disturbed(transistor));
    }
}

/// No node of a run is above the ceiling, also where it is not reconsidered.
const IN_A_RUN: &str = "no arm above the ceiling";

/// A node that is not reconsidered; linked, if channels that may not conduct lead from
/// it to an end of a disturbed transistor.
fn look_past(seen: &mut Seen, walk: &Walk, moment: &Moment, node: usize, linked: bool) {
    let present = moment.after.values[node];
    let next = moment.after.next[node];
    let pends = next != NEVER;
    let sum = walk.sum(node, None).expect(IN_A_RUN);
    let unstable = sum.value(present) != present;
    seen.count("kept next change", pends);
    seen.count("not reconsidered though unstable", !pends && unstable);
    let flipped = moment.flipped(node);
    seen.count("flips and is not reconsidered", flipped);
    seen.count("cut off", linked);
    seen.count("cut off with a next change", linked && pends);
    let anew = next_change(walk, node, next, moment.time).expect(IN_A_RUN);
    seen.count("cut off and would be changed", linked && anew != next);
}

/// A resistance that is not far below the ceiling.
const NEARLY: u64 = 900_000_000;

/// A node that is considered.
fn look_at(seen: &mut Seen, walk: &Walk, moment: &Moment, node: usize) {
    let sum = walk.sum(node, None).expect(IN_A_RUN);
    let present = moment.after.values[node];
    let driven = sum.is_driven();
    seen.count("drive is equal", driven && sum.high == sum.low);
    let charged = sum.charge_high > 0 && sum.charge_low > 0;
    seen.count("charge decides", !driven && charged);
    let equal = sum.charge_high == sum.charge_low;
    seen.count("charge is equal", !driven && equal);
    let above = |ohms: Ohms| matches!(ohms, Ohms::Finite(ohms) if ohms > NEARLY);
    let near = above(sum.high) || above(sum.low);
    seen.count("not far below the ceiling", near);
    let both = sum.high != Ohms::Infinite && sum.low != Ohms::Infinite;
    seen.count("both sides finite", both);
    let new = sum.value(present);
    let flipped = moment.flipped(node);
    let pending = moment.arrived().next[node];
    if new == present {
        seen.count("change called off", pending != NEVER);
        return;
    }
    seen.count("flips again", flipped);
    let due = u64::from(moment.time) + look_at_delay(seen, walk, node, new);
    let horizon = u64::from(walk.circuit.cell.horizon);
    seen.count("earlier change stays", u64::from(pending) < due);
    seen.count(
        "change made earlier",
        pending != NEVER && due < u64::from(pending),
    );
    seen.count("at the horizon", due == horizon);
    seen.count("past the horizon", due > horizon);
    seen.count("past 32 bits", due > u64::from(u32::MAX));
    let wrapped = due > u64::from(u32::MAX) && due as u32 <= walk.circuit.cell.horizon;
    seen.count("would wrap to a time", wrapped);
}

/// The delay of a node that is to take a new value.
fn look_at_delay(seen: &mut Seen, walk: &Walk, node: usize, new: bool) -> u64 {
    let ends = Ends::of(walk.sum(node, None).expect(IN_A_RUN));
    let load = walk.load(node, None, new, ends);
    let by_charge = ends == Ends::Holders;
    seen.count(
        "charge takes the least time",
        by_charge && load.delay() == 1,
    );
    seen.count("charge takes longer", by_charge && load.delay() > 1);
    let own = walk.circuit.capacitance(node).expect("an inner node");
    let others = load.capacitance > own;
    seen.count("charge turns other nodes too", by_charge && others);
    let at_holders = walk.load(node, None, new, Ends::Holders);
    seen.count("driven past a holder", load != at_holders);
    load.delay()
}

/// Cells as the calls on a run are compared on, each with one of its patterns.
fn cells() -> impl Iterator<Item = (Cell, usize)> {
    let mut random = Random::new(21);
    (0..6_000).map(move |_| {
        let size = random.pick(&[Size::Small, Size::Small, Size::Middle, Size::Dense]);
        let letters = random.between(0, 5);
        let cell = live::cell(&mut random, size, letters);
        (cell, random.index(1 << letters))
    })
}

#[test]
fn every_rule_acts() {
    let mut seen = Seen::default();
    for (cell, pattern) in cells() {
        let end = run(&cell, pattern, |moment| look(&mut seen, moment));
        seen.count("finished", end == End::Finished);
        let [start, step] = [true, false].map(|start| end == End::Refused { start });
        seen.count("start above the ceiling", start);
        seen.count("step above the ceiling", step);
        seen.count("dense cell", cell.nodes.len() > 16);
        seen.count("most transistors", cell.transistors.len() == 64);
    }
    seen.expect(30);
}

/// Ways to misread rule 2, each with the nodes that it reconsiders.
fn misreadings(moment: &Moment) -> [(&'static str, Vec<bool>); 5] {
    let reach = &moment.reach();
    let circuit = moment.circuit;
    let with = |disturbed: &dyn Fn(usize) -> bool| {
        let transistors = 0..circuit.cell.transistors.len();
        let disturbed = transistors.filter(|&transistor| disturbed(transistor));
        circuit.leading_to(disturbed, |transistor| reach.conducts(transistor))
    };
    let rightly = |transistor| reach.is_disturbed(transistor);
    let by_gate = |transistor| moment.flipped(circuit.gate(transistor));
    let by_end = |transistor| {
        let ends = circuit.ends(transistor);
        ends.into_iter().any(|end| moment.flipped(end))
    };
    [
        ("channels lead that are off", reach.along(|_| true)),
        ("no channel leads", reach.along(|_| false)),
        (
            "disturbed only where conducting",
            with(&|transistor| rightly(transistor) && reach.conducts(transistor)),
        ),
        ("disturbed by gates alone", with(&by_gate)),
        (
            "disturbed by inner nodes at its ends",
            with(&|transistor| by_gate(transistor) || by_end(transistor)),
        ),
    ]
}

/// Each misreading gives other next changes in many steps.
#[test]
fn misreadings_show() {
    let mut seen = Seen::default();
    for (cell, pattern) in cells() {
        run(&cell, pattern, |moment| {
            for (what, nodes) in misreadings(moment) {
                let mut state = moment.arrived();
                let considered = state.consider(moment.circuit, moment.time, &nodes);
                considered.expect(IN_A_RUN);
                let shows = moment.time > 0 && state.next != moment.after.next;
                seen.count(what, shows);
            }
        });
    }
    seen.expect(30);
}

/// The same nodes are reconsidered whichever channels lead on: those that conduct before
/// or after, only those after, only those before, or only the kept ones.
#[test]
fn same_reach_by_channels_after_alone() {
    let mut seen = Seen::default();
    for (cell, pattern) in cells() {
        run(&cell, pattern, |moment| {
            let reach = moment.reach();
            let &Moment { circuit, .. } = moment;
            let reconsidered = reach.reconsidered();
            let kept = circuit.kept(reach.after);
            let after = reach.along(|transistor| circuit.conducts(transistor, reach.after));
            let before = reach.along(|transistor| circuit.conducts(transistor, reach.before));
            assert_eq!(reconsidered, after, "{cell:?}");
            assert_eq!(reconsidered, before, "{cell:?}");
            assert_eq!(reconsidered, reach.along(|transistor| kept[transistor]));
            let linked = reach.along(|_| true);
            look_at_reach(&mut seen, moment);
            for node in moment.inner() {
                let pends = moment.after.next[node] != NEVER;
                seen.count("reconsidered", reconsidered[node]);
                let cut_off = linked[node] && !reconsidered[node];
                seen.count("cut off with a next change", cut_off && pends);
            }
        });
    }
    seen.expect(30);
}
