//! Weak transistors before nodes at which supply and ground fight: arms about the ceiling
//! of resistances, at some patterns and not at others, at the start or at a later step.

use super::live::{Parts, Size};
use crate::cell_file::{Channel, Source};
use crate::draft::{Draft, GROUND, SUPPLY};
use crate::fights::{self, Fight};
use crate::random::Random;

/// A fight whose arm is exactly the ceiling, one ohm above it, one below it, or not far
/// from it, on either side.
fn any_fight(random: &mut Random) -> Fight {
    let (below, exactly, above) = (&fights::BELOW, &fights::EXACTLY, &fights::ABOVE);
    let near = [57, 58].map(|ground| Fight::of(240_000, ground, 240_000));
    let sets: [&[Fight]; 5] = [below, exactly, above, above, &near];
    let set = random.pick(&sets);
    let fight = random.pick(set);
    random.pick(&[fight, fight.turned()])
}

/// Some fights, and gates that their nodes drive; gives the inputs.
pub(super) fn fights(random: &mut Random, parts: &Parts, draft: &mut Draft, size: Size) -> Vec<u8> {
    let (inputs, fights) = match size {
        Size::Small => (random.between(1, 2), 1),
        Size::Middle => (random.between(2, 4), random.between(1, 2)),
        Size::Dense => (random.between(4, 8), random.between(3, 4)),
    };
    let input = |_| {
        let any = parts.source(random);
        draft.input(random.pick(&[Source::Low, any]))
    };
    let mut gates: Vec<u8> = (0..inputs).map(input).collect();
    let inputs = gates.clone();
    for _ in 0..fights {
        let near = fight(random, parts, draft, &gates);
        let out = inner(random, parts, draft);
        let resistance = parts.resistance(random);
        draft.inverter(near, out, resistance.div_ceil(2));
        gates.push(out);
    }
    inputs
}

fn inner(random: &mut Random, parts: &Parts, draft: &mut Draft) -> u8 {
    let capacitance = parts.capacitance(random);
    draft.inner(capacitance, parts.source(random))
}

/// One fight behind a weak transistor; gives the node before that.
fn fight(random: &mut Random, parts: &Parts, draft: &mut Draft, gates: &[u8]) -> u8 {
    let Fight {
        supply,
        ground,
        weak,
    } = any_fight(random);
    let far = inner(random, parts, draft);
    let near = inner(random, parts, draft);
    let mut channel = |ends, resistance| {
        let gate = match random.one_in(3) {
            true => SUPPLY,
            false => random.pick(gates),
        };
        let channel = random.pick(&[Channel::N, Channel::N, Channel::P]);
        draft.channel(channel, gate, ends, resistance);
    };
    channel([SUPPLY, far], supply);
    channel([GROUND, far], ground);
    channel([far, near], weak);
    // What drives the near node as well, so that another side decides there.
    if random.one_in(3) {
        let rail = random.pick(&[SUPPLY, GROUND]);
        let gate = random.pick(gates);
        draft.n(gate, [rail, near], parts.resistance(random));
    }
    near
}
