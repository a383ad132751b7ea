//! The call `sts_small` against the second implementation's list, and all small cells
//! run to their end in both.

use comparison::buffer;
use comparison::functions::{Columns, FIRST as CONSTANTS};
use comparison::random::Random;
use comparison::refusal::Refusal;
use comparison::replay::hex;
use comparison::saved;
use comparison::side_by_side;
use comparison::simulator::calls::{Call, Lent, ANSWER, RECORD, TIME, WORKING};
use comparison::small::{self, Moment, Small, Waves};
use comparison::sts;
use comparison::tally::Tally;

/// Asks for a place both ways, with a buffer of so many bytes; a difference ends the
/// test.
fn compare(random: &mut Random, list: &[Small], place: u32, room: usize) -> u32 {
    let call = |out: &mut [u8], length: &mut u32| sts::small(place, out, length);
    let expected = small::file_in(list, place, room);
    let answer = buffer::compare(random, room, call, expected);
    answer.unwrap_or_else(|why| panic!("place {place}: {why}"))
}

/// Every place, in a buffer that is just long enough, in one that is a byte too short,
/// in a longer one and in any.
#[test]
fn every_place() {
    let mut random = Random::new(61);
    let mut tally = Tally::default();
    let list = small::list();
    for (place, small) in (0..).zip(&list) {
        let need = small.file.len();
        let longer = need + 1 + random.index(200);
        for room in [need, need - 1, longer, random.index(2 * need)] {
            tally.count(compare(&mut random, &list, place, room));
        }
    }
    println!("sts_small, every place: {tally}");
    tally.expect(list.len() as u64, &[0, 8]);
}

/// The first and the last places of one transistor and of two, in every buffer up to
/// 100 bytes.
#[test]
fn every_room() {
    let mut random = Random::new(62);
    let mut tally = Tally::default();
    let list = small::list();
    for place in [0, 95, 96, 9_311] {
        for room in 0..=100 {
            tally.count(compare(&mut random, &list, place, room));
        }
    }
    println!("sts_small, every room: {tally}");
    tally.expect(2 * (37 + 21), &[0]);
    tally.expect(2 * (64 + 80), &[8]);
}

/// Places past the last are refused in every buffer, also in one that is too short for
/// any file.
#[test]
fn past_the_last() {
    let mut random = Random::new(63);
    let list = small::list();
    let last = list.len() as u32 - 1;
    let mut places = vec![last + 1, last + 2, 2 * last, u32::MAX - 1, u32::MAX];
    for bit in [14, 15, 16, 24, 31] {
        // A place that is looked at in fewer bits is one of the list.
        places.extend([0, 5, 96, last].map(|place| (1 << bit) + place));
    }
    places.extend((0..1_000).map(|_| random.spread(last + 1, u32::MAX)));
    for place in places {
        for room in [0, 63, 64, 79, 80, 200] {
            let answer = compare(&mut random, &list, place, room);
            assert_eq!(answer, Refusal::Question.number(), "place {place}");
        }
    }
}

/// The file that the tool lists at a place.
fn listed(place: u32) -> Vec<u8> {
    let mut buffer = vec![0xab; 200];
    let mut length = 0;
    assert_eq!(sts::small(place, &mut buffer, &mut length), 0);
    buffer.truncate(length as usize);
    buffer
}

/// A call on a run, made both ways; a difference ends the test.
fn call(call: Call, file: &[u8], lent: &mut Lent) -> Result<(), Refusal> {
    let answered = side_by_side::call(call, file, lent);
    answered.unwrap_or_else(|why| panic!("{why}: {call:?}, {}", hex(file)))
}

/// The run of a file to its end, by calls that are made both ways. No call but the last
/// step is refused.
fn run(file: &[u8]) -> Vec<Moment> {
    let mut lent = Lent {
        table: Columns::of(&CONSTANTS, 64),
        record: vec![u32::MAX; RECORD],
        working: Columns::of(&[], *WORKING.start()),
        answer: vec![u32::MAX; ANSWER],
    };
    let used = CONSTANTS.len() as u32;
    assert_eq!(call(Call::Start { used }, file, &mut lent), Ok(()));
    let mut moments = vec![moment(file, &mut lent)];
    loop {
        match call(Call::Step, file, &mut lent) {
            Err(Refusal::Finished) => return moments,
            answered => assert_eq!(answered, Ok(()), "{}", hex(file)),
        }
        moments.push(moment(file, &mut lent));
    }
}

/// What a run is by the answers to questions about it.
fn moment(file: &[u8], lent: &mut Lent) -> Moment {
    let mut told = |node, pattern| {
        let asked = call(Call::Ask { node, pattern }, file, lent);
        assert_eq!(asked, Ok(()), "{}", hex(file));
        [lent.answer[0], lent.answer[1]]
    };
    Moment {
        patterns: [0, 1].map(|pattern| [2, 3].map(|node| told(node, pattern))),
        time: lent.record[TIME],
    }
}

/// Every cell that the tool lists, read and run to its end: each of its nodes is at each
/// pattern what the rules give for that pattern by itself.
#[test]
fn every_run() {
    let list = small::list();
    let mut runs = Vec::new();
    for (place, small) in (0..).zip(&list) {
        let file = listed(place);
        let mut header = [0; 5];
        assert_eq!(sts::read(&file, &mut header), 0, "place {place}");
        assert_eq!(header, small.cell.header(), "place {place}");
        let run = run(&file);
        assert_eq!(run, small::run(&small.cell), "place {place}");
        runs.push(run);
    }
    let waves = Waves::of(&runs);
    println!("small cells: {waves}");
    waves.expect();
}

/// The order of fixing the letter and running makes no difference in any cell: with the
/// letter fixed, every pattern is at each picosecond as that of the fixed bit.
#[test]
fn every_fixed_run() {
    for (place, small) in (0..).zip(&small::list()) {
        let whole = run(&listed(place));
        for (bit, fixed) in [false, true].into_iter().enumerate() {
            let cell = small.cell.clone().fixed(0, fixed);
            let fixed = run(&saved::of_cell(&cell));
            for at in 0..=cell.horizon {
                let expected = standing(&whole, at).patterns[bit];
                let patterns = standing(&fixed, at).patterns;
                assert_eq!(patterns, [expected; 2], "place {place}, {bit}, {at} ps");
            }
        }
    }
}

/// The last moment of a run that is not after a picosecond.
fn standing(run: &[Moment], at: u32) -> &Moment {
    let mut moments = run.iter().rev();
    let last = moments.find(|moment| moment.time <= at);
    last.expect("a run starts at 0 ps")
}
