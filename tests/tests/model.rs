//! The second implementation by itself: files made by hand for each refusal and
//! for each sentence of the requirements that leaves room for doubt, and the
//! makers of cases.

use comparison::cell_file::{parse, Cell, Channel, Entry, Layout, Node, Role, Source, Transistor};
use comparison::generate::{legal, Case};
use comparison::listing;
use comparison::program::{bytes, in_repository};
use comparison::random::Random;
use comparison::refusal::Refusal;
use comparison::replay::{hex, Cases};
use comparison::saved;
use comparison::tally::Tally;

/// The inverter of the requirements, byte by byte: the header, nodes 2 and 3,
/// two transistors and one entry.
#[rustfmt::skip]
const INVERTER: [u8; 96] = [
    2, 2, 1, 2,  0xe8, 3, 0, 0,  1, 0, 3, 0,     5, 0, 0, 0,
    1, 0, 2, 0,  1, 2, 0, 0,     0, 0, 0, 0,     0, 0, 0, 0,
    1, 0, 0, 0,  0, 3, 50, 0,    0, 0, 0, 0,     0, 0, 0, 0,
    2, 0, 4, 0,  1, 2, 1, 3,     0xd0, 7, 0, 0,  0, 0, 0, 0,
    2, 0, 0, 0,  0, 2, 0, 3,     0xe8, 3, 0, 0,  0, 0, 0, 0,
    3, 0, 0, 0,  2, 4, 0, 0,     200, 0, 0, 0,   0, 0, 0, 0,
];

/// Where the inverter's records start.
const INPUT: usize = 16;
const INNER: usize = 32;
const P: usize = 48;
const N: usize = 64;
const ENTRY: usize = 80;

fn inverter() -> Cell {
    let node = |role, start| Node { role, start };
    let transistor = |channel, rail, resistance| Transistor {
        channel,
        gate: 2,
        ends: [rail, 3],
        resistance,
    };
    Cell {
        letters: 2,
        horizon: 1000,
        nodes: vec![
            node(Role::Input, Source::Letter(0)),
            node(Role::Inner { capacitance: 50 }, Source::NotLetter(0)),
        ],
        transistors: vec![
            transistor(Channel::P, 1, 2000),
            transistor(Channel::N, 0, 1000),
        ],
        schedule: vec![Entry {
            time: 200,
            node: 2,
            source: Source::Letter(1),
        }],
    }
}

/// The inverter's file with bytes written over it.
fn with(changes: &[(usize, &[u8])]) -> Vec<u8> {
    let mut file = INVERTER.to_vec();
    for (at, bytes) in changes {
        file[*at..at + bytes.len()].copy_from_slice(bytes);
    }
    file
}

fn answer(file: &[u8]) -> u32 {
    parse(file).map_or_else(Refusal::number, |_| 0)
}

#[track_caller]
fn expect(expected: u32, file: &[u8]) {
    assert_eq!(answer(file), expected, "file {}", hex(file));
}

/// Each change alone, made to the inverter, gives this answer.
#[track_caller]
fn expect_each(expected: u32, changes: &[(usize, &[u8])]) {
    for change in changes {
        expect(expected, &with(&[*change]));
    }
}

/// Laid out as a file, this cell gets this answer.
#[track_caller]
fn expect_cell(expected: u32, cell: &Cell) {
    expect(expected, &Layout::in_order(cell).file);
}

#[test]
fn the_inverter() {
    assert_eq!(parse(&INVERTER), Ok(inverter()));
    assert_eq!(Layout::in_order(&inverter()).file, INVERTER);
    assert_eq!(bytes(&in_repository("cells/inverter.cell")), INVERTER);
    assert_eq!(inverter().header(), [2, 2, 1, 2, 1000]);
}

#[test]
fn the_inverter_shown() {
    let lines = "cell 2 2 1 2 1000\n\
                 node 2 input 0 fF start letter 0\n\
                 node 3 inner 50 fF start not letter 0\n\
                 transistor 0 p gate 2 ends 1 3 2000 ohm\n\
                 transistor 1 n gate 2 ends 0 3 1000 ohm\n\
                 entry 0 time 200 ps node 2 becomes letter 1\n";
    assert_eq!(listing::of_file(&INVERTER), lines);
    assert_eq!(listing::of_file(&with(&[(N + 4, &[2])])), "refused 4\n");
    let sources = [Source::Low, Source::High].map(|source| source.to_string());
    assert_eq!(sources, ["low", "high"]);
}

#[test]
fn lengths() {
    for length in 0..=200 {
        let mut file = INVERTER.to_vec();
        file.resize(length, 0);
        expect(if length == 96 { 0 } else { 1 }, &file);
    }
    expect_each(
        1,
        &[
            (0, &[1]),
            (0, &[3]),
            (1, &[1]),
            (1, &[64]),
            (2, &[0]),
            (2, &[2]),
        ],
    );
}

#[test]
fn headers() {
    expect_each(
        2,
        &[
            (0, &[0]),
            (0, &[25]),
            (0, &[255]),
            (1, &[0]),
            (1, &[65]),
            (1, &[255]),
        ],
    );
    expect_each(2, &[(2, &[65]), (2, &[255]), (3, &[13]), (3, &[255])]);
    expect_each(
        2,
        &[
            (4, &[0, 0, 0, 0]),
            (4, &[0x41, 0x42, 0x0f, 0]),
            (7, &[1]),
            (7, &[255]),
        ],
    );
    expect_each(2, &[(14, &[1]), (15, &[1]), (15, &[128])]);
    expect_each(
        0,
        &[
            (3, &[12]),
            (4, &[200, 0, 0, 0]),
            (4, &[0x40, 0x42, 0x0f, 0]),
        ],
    );
}

/// Every count at its most is read and one more is refused, the file being as
/// long as it says.
#[test]
fn most_of_everything() {
    let inner = Node {
        role: Role::Inner {
            capacitance: 65_535,
        },
        start: Source::Low,
    };
    let mut cell = inverter();
    cell.nodes.resize(24, inner);
    expect_cell(0, &cell);
    cell.nodes.push(inner);
    expect_cell(2, &cell);

    let mut cell = inverter();
    cell.transistors.resize(64, cell.transistors[0]);
    expect_cell(0, &cell);
    cell.transistors.push(cell.transistors[0]);
    expect_cell(2, &cell);

    let mut cell = inverter();
    let entry = |time| Entry {
        time,
        ..inverter().schedule[0]
    };
    cell.schedule = (937..=1000).map(entry).collect();
    expect_cell(0, &cell);
    cell.schedule.insert(0, entry(936));
    expect_cell(2, &cell);

    let mut cell = inverter();
    cell.letters = 12;
    cell.nodes[1].start = Source::NotLetter(11);
    expect_cell(0, &cell);
    cell.letters = 13;
    expect_cell(2, &cell);
}

#[test]
fn least_of_everything() {
    let mut cell = inverter();
    cell.nodes.remove(0);
    cell.nodes[0].start = Source::High;
    cell.transistors.truncate(1);
    cell.transistors[0].ends = [0, 2];
    cell.transistors[0].resistance = 1;
    cell.schedule.clear();
    cell.letters = 0;
    cell.horizon = 1;
    expect_cell(0, &cell);
    let mut without_transistors = cell.clone();
    without_transistors.transistors.clear();
    expect_cell(2, &without_transistors);
    let mut without_nodes = cell;
    without_nodes.nodes.clear();
    expect_cell(2, &without_nodes);
}

#[test]
fn chains() {
    // The first record: none, past the end, of another kind, not the first.
    expect_each(3, &[(8, &[0]), (8, &[6]), (9, &[1]), (8, &[3]), (8, &[2])]);
    expect_each(
        3,
        &[(10, &[0]), (10, &[6]), (11, &[255]), (10, &[5]), (10, &[4])],
    );
    expect_each(3, &[(12, &[0]), (12, &[6]), (13, &[1]), (12, &[1])]);
    // Within a chain: early, late, back to itself, past the end, another kind.
    expect_each(
        3,
        &[(INPUT + 2, &[0]), (INPUT + 2, &[1]), (INPUT + 2, &[6])],
    );
    expect_each(
        3,
        &[
            (INNER + 2, &[1]),
            (INNER + 2, &[2]),
            (INNER + 2, &[3]),
            (INNER + 3, &[1]),
        ],
    );
    expect_each(
        3,
        &[(P + 2, &[0]), (P + 2, &[3]), (P + 2, &[5]), (P + 3, &[1])],
    );
    expect_each(
        3,
        &[(N + 2, &[3]), (N + 2, &[4]), (N + 2, &[200]), (N + 3, &[1])],
    );
    expect_each(
        3,
        &[
            (ENTRY + 2, &[5]),
            (ENTRY + 2, &[1]),
            (ENTRY + 2, &[9]),
            (ENTRY + 3, &[1]),
        ],
    );
    // A kind.
    expect_each(
        3,
        &[
            (INPUT, &[0]),
            (INNER, &[2]),
            (P, &[1]),
            (N, &[3]),
            (ENTRY, &[4]),
        ],
    );
}

/// A cell without entries has no first entry.
#[test]
fn an_empty_schedule() {
    let mut file = with(&[(2, &[0]), (12, &[0])]);
    file.truncate(ENTRY);
    expect(0, &file);
    for first in [1, 3, 5, 6, 255] {
        file[12] = first;
        expect(3, &file);
    }
    file[12] = 0;
    file[13] = 1;
    expect(3, &file);
}

/// The records may stand in any order; their chains give the numbers.
#[test]
fn shuffled_records() {
    for places in [[5, 4, 3, 2, 1], [3, 1, 5, 2, 4], [2, 1, 4, 3, 5]] {
        let file = Layout::new(&inverter(), &places).file;
        assert_eq!(parse(&file), Ok(inverter()), "file {}", hex(&file));
    }
}

/// A file whose records stand in no order: the transistor first, then nodes 2, 4
/// and 3, then the second entry before the first.
#[rustfmt::skip]
const SAMPLE: [u8; 112] = [
    3, 1, 2, 1,  0xf4, 1, 0, 0,  2, 0, 1, 0,     6, 0, 0, 0,
    2, 0, 0, 0,  0, 3, 2, 4,     0x88, 19, 0, 0, 0, 0, 0, 0,
    1, 0, 4, 0,  1, 2, 0, 0,     0, 0, 0, 0,     0, 0, 0, 0,
    1, 0, 0, 0,  0, 0, 30, 0,    0, 0, 0, 0,     0, 0, 0, 0,
    1, 0, 3, 0,  1, 1, 0, 0,     0, 0, 0, 0,     0, 0, 0, 0,
    3, 0, 0, 0,  2, 3, 0, 0,     44, 1, 0, 0,    0, 0, 0, 0,
    3, 0, 5, 0,  3, 0, 0, 0,     200, 0, 0, 0,   0, 0, 0, 0,
];

/// Its saved form.
#[rustfmt::skip]
const SAVED: [u8; 112] = [
    3, 1, 2, 1,  0xf4, 1, 0, 0,  1, 0, 4, 0,     5, 0, 0, 0,
    1, 0, 2, 0,  1, 2, 0, 0,     0, 0, 0, 0,     0, 0, 0, 0,
    1, 0, 3, 0,  1, 1, 0, 0,     0, 0, 0, 0,     0, 0, 0, 0,
    1, 0, 0, 0,  0, 0, 30, 0,    0, 0, 0, 0,     0, 0, 0, 0,
    2, 0, 0, 0,  0, 3, 2, 4,     0x88, 19, 0, 0, 0, 0, 0, 0,
    3, 0, 6, 0,  3, 0, 0, 0,     200, 0, 0, 0,   0, 0, 0, 0,
    3, 0, 0, 0,  2, 3, 0, 0,     44, 1, 0, 0,    0, 0, 0, 0,
];

#[test]
fn saved_by_hand() {
    assert_eq!(saved::of_file(&SAMPLE), Ok(SAVED.to_vec()));
    assert_eq!(saved::of_file(&SAVED), Ok(SAVED.to_vec()));
    assert_eq!(saved::of_file(&INVERTER), Ok(INVERTER.to_vec()));
    // Without entries, the schedule has no first record.
    let mut file = with(&[(2, &[0]), (12, &[0])]);
    file.truncate(ENTRY);
    assert_eq!(saved::of_file(&file), Ok(file));
}

/// The length of the buffer is looked at last, and a longer one is fine.
#[test]
fn saved_in_a_buffer() {
    for length in 0..=2 * SAMPLE.len() {
        let expected = match length < SAMPLE.len() {
            true => Err(Refusal::Buffer),
            false => Ok(SAVED.to_vec()),
        };
        assert_eq!(saved::in_buffer(&SAMPLE, length), expected);
        let damaged = [
            (Refusal::Length, INVERTER[..95].to_vec()),
            (Refusal::Header, with(&[(3, &[13])])),
            (Refusal::Chain, with(&[(P, &[1])])),
            (Refusal::Record, with(&[(N + 4, &[2])])),
        ];
        for (refusal, file) in damaged {
            assert_eq!(saved::in_buffer(&file, length), Err(refusal));
        }
    }
}

/// What is saved is what is laid out in order.
#[test]
fn saved_in_order() {
    let mut random = Random::new(19);
    for round in 0..5_000 {
        let file = legal::layout(&mut random, 0).file;
        let cell = parse(&file).expect("a legal file");
        let saved = saved::of_cell(&cell);
        assert_eq!(saved, Layout::in_order(&cell).file, "round {round}");
    }
}

/// Bytes that have no name are zero.
#[test]
fn unnamed_bytes() {
    let unnamed: [(usize, &[usize]); 5] = [
        (INPUT, &[1, 8, 9, 10, 11, 12, 13, 14, 15]),
        (INNER, &[1, 8, 9, 10, 11, 12, 13, 14, 15]),
        (P, &[1, 12, 13, 14, 15]),
        (N, &[1, 12, 13, 14, 15]),
        (ENTRY, &[1, 6, 7, 12, 13, 14, 15]),
    ];
    for (record, places) in unnamed {
        for place in places {
            expect_each(4, &[(record + place, &[1]), (record + place, &[128])]);
        }
    }
}

#[test]
fn node_fields() {
    expect_each(
        4,
        &[
            (INPUT + 4, &[0]),
            (INPUT + 4, &[2]),
            (INNER + 4, &[1]),
            (INNER + 4, &[255]),
        ],
    );
    expect_each(
        4,
        &[(INPUT + 6, &[1]), (INPUT + 7, &[1]), (INNER + 6, &[0])],
    );
    expect_each(
        0,
        &[
            (INNER + 6, &[255, 255]),
            (INNER + 6, &[1]),
            (INNER + 6, &[0, 1]),
        ],
    );
}

/// A source byte is legal exactly if it is below 2 + 2 K, at every place.
#[test]
fn sources() {
    for place in [INPUT + 5, INNER + 5, ENTRY + 5] {
        for byte in 0..=255 {
            expect(if byte < 6 { 0 } else { 4 }, &with(&[(place, &[byte])]));
        }
    }
    let without_letters = with(&[
        (3, &[0]),
        (INPUT + 5, &[1]),
        (INNER + 5, &[0]),
        (ENTRY + 5, &[1]),
    ]);
    expect(0, &without_letters);
    expect(4, &with(&[(3, &[0])]));
    expect(4, &with(&[(3, &[1])]));
}

/// Gate and ends are any nodes, rails too; the ends are different, and both may
/// be driven.
#[test]
fn transistor_fields() {
    expect_each(
        0,
        &[(P + 4, &[0]), (P + 5, &[0]), (P + 5, &[1]), (P + 5, &[3])],
    );
    expect_each(
        0,
        &[
            (P + 6, &[0, 1]),
            (P + 6, &[1, 0]),
            (P + 6, &[1, 2]),
            (P + 6, &[3, 2]),
        ],
    );
    expect_each(
        4,
        &[
            (P + 4, &[2]),
            (P + 5, &[4]),
            (P + 6, &[4]),
            (P + 7, &[4]),
            (P + 7, &[255]),
        ],
    );
    expect_each(4, &[(P + 6, &[0, 0]), (P + 6, &[1, 1]), (P + 6, &[3, 3])]);
    expect_each(
        0,
        &[(P + 8, &[1, 0, 0, 0]), (P + 8, &[0x80, 0xa9, 0x03, 0])],
    );
    expect_each(
        4,
        &[
            (P + 8, &[0, 0, 0, 0]),
            (P + 8, &[0x81, 0xa9, 0x03, 0]),
            (P + 8, &[0x40, 0x42, 0x0f, 0]),
            (P + 11, &[1]),
        ],
    );
}

/// An entry names an input, by its number, and a time from 1 to the horizon.
#[test]
fn entry_fields() {
    expect_each(
        4,
        &[
            (ENTRY + 4, &[0]),
            (ENTRY + 4, &[1]),
            (ENTRY + 4, &[3]),
            (ENTRY + 4, &[4]),
        ],
    );
    expect_each(0, &[(ENTRY + 8, &[1]), (ENTRY + 8, &[0xe8, 3])]);
    expect_each(
        4,
        &[
            (ENTRY + 8, &[0]),
            (ENTRY + 8, &[0xe9, 3]),
            (ENTRY + 10, &[1]),
            (ENTRY + 11, &[128]),
        ],
    );
    expect_each(4, &[(4, &[199, 0, 0, 0]), (4, &[1, 0, 0, 0])]);
}

#[test]
fn orders() {
    let mut cell = inverter();
    cell.nodes.push(cell.nodes[0]);
    let schedule = |keys: &[(u32, u8)]| -> Vec<Entry> {
        let entry = |&(time, node)| Entry {
            time,
            node,
            source: Source::Low,
        };
        keys.iter().map(entry).collect()
    };
    for keys in [&[(7, 2), (7, 4)], &[(7, 4), (8, 2)], &[(1, 4), (1000, 4)]] {
        cell.schedule = schedule(keys);
        expect_cell(0, &cell);
        cell.schedule.reverse();
        expect_cell(5, &cell);
    }
    cell.schedule = schedule(&[(7, 4), (7, 4)]);
    expect_cell(5, &cell);
    cell.schedule[1].source = Source::High;
    expect_cell(5, &cell);
    cell.schedule = schedule(&[(256, 2), (255, 4), (257, 2)]);
    expect_cell(5, &cell);
}

/// The header before the full length, that before all chains, those before all
/// fields, and the order last.
#[test]
fn precedence() {
    let short = |mut file: Vec<u8>| {
        file.pop();
        file
    };
    expect(1, &with(&[(14, &[1])])[..15]);
    expect(2, &short(with(&[(14, &[1])])));
    expect(2, &short(with(&[(3, &[13])])));
    expect(2, &with(&[(0, &[25])]));
    expect(2, &with(&[(4, &[0, 0, 0, 0]), (8, &[0])]));
    expect(1, &short(with(&[(8, &[0])])));
    expect(1, &short(with(&[(INPUT + 4, &[2])])));
    // A wrong field in the first record, and a chain that fails in the last.
    expect(3, &with(&[(INPUT + 1, &[1]), (ENTRY + 2, &[1])]));
    expect(3, &with(&[(INPUT + 5, &[255]), (ENTRY, &[0])]));
    // The horizon is in range, so that a later time is the entry's fault.
    expect(4, &with(&[(4, &[1, 0, 0, 0])]));

    let mut cell = inverter();
    cell.schedule.push(cell.schedule[0]);
    expect_cell(5, &cell);
    let mut file = Layout::in_order(&cell).file;
    file[P + 12] = 1;
    expect(4, &file);
    file[ENTRY + 16 + 2] = 6;
    expect(3, &file);
}

/// What is laid out is read back, wherever its records stand.
#[test]
fn cells_come_back() {
    let mut random = Random::new(2);
    for round in 0..20_000 {
        let entries = random.between(0, 64);
        let cell = legal::cell(&mut random, entries);
        let places = legal::places(&mut random, cell.records());
        let file = Layout::new(&cell, &places).file;
        assert!(
            cell.schedule.len() >= entries as usize,
            "round {round}: {cell:?}"
        );
        assert_eq!(parse(&file), Ok(cell), "round {round}, file {}", hex(&file));
    }
}

/// Each file made for one answer gets it, and every answer is made often.
#[test]
fn cases_get_what_they_are_made_for() {
    let cases = Cases::first(200_000);
    let mut made = Tally::default();
    cases.for_each(|case: &Case| {
        let answer = answer(&case.file);
        made.count(answer);
        if let Some(intended) = case.intended() {
            let intended = intended.map_or_else(Refusal::number, |()| 0);
            assert_eq!(answer, intended, "{case}");
        }
    });
    println!("files made: {made}");
    if cases.complete {
        made.expect(5_000, &[0, 1, 2, 3, 4, 5]);
    }
}

/// The sizes at both ends of every range occur among legal cells.
#[test]
fn sizes_at_both_ends() {
    let mut random = Random::new(3);
    let headers: Vec<[u32; 5]> = (0..20_000)
        .map(|_| legal::cell(&mut random, 0).header())
        .collect();
    let ends = [[1, 24], [1, 64], [0, 64], [0, 12], [1, 1_000_000]];
    for (place, ends) in ends.iter().enumerate() {
        for end in ends {
            let count = headers
                .iter()
                .filter(|header| header[place] == *end)
                .count();
            assert!(
                count >= 200,
                "number {place} of the header was {end} {count} times"
            );
        }
    }
}
