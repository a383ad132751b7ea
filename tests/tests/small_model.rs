//! The list of all small cells by itself: how many they are, their order, the first and
//! the last byte by byte, and what their runs come to.

use comparison::cell_file::{parse, Node, Role, Source};
use comparison::refusal::Refusal;
use comparison::saved;
use comparison::small::{self, Fields, Moment, Waves};

/// The first cell: one n between the rails, gated by ground.
#[rustfmt::skip]
const FIRST: [u8; 64] = [
    2, 1, 0, 1,  10, 0, 0, 0,  1, 0, 3, 0,  0, 0, 0, 0,
    1, 0, 2, 0,  1, 2, 0, 0,   0, 0, 0, 0,  0, 0, 0, 0,
    1, 0, 0, 0,  0, 0, 1, 0,   0, 0, 0, 0,  0, 0, 0, 0,
    2, 0, 0, 0,  0, 0, 0, 1,   1, 0, 0, 0,  0, 0, 0, 0,
];

/// The last one: two p from the inner node to the input, gated by the inner node.
#[rustfmt::skip]
const LAST: [u8; 80] = [
    2, 2, 0, 1,  10, 0, 0, 0,  1, 0, 3, 0,  0, 0, 0, 0,
    1, 0, 2, 0,  1, 2, 0, 0,   0, 0, 0, 0,  0, 0, 0, 0,
    1, 0, 0, 0,  0, 0, 1, 0,   0, 0, 0, 0,  0, 0, 0, 0,
    2, 0, 4, 0,  1, 3, 3, 2,   1, 0, 0, 0,  0, 0, 0, 0,
    2, 0, 0, 0,  1, 3, 3, 2,   1, 0, 0, 0,  0, 0, 0, 0,
];

/// Two types, four gates, and twelve pairs of different ends: 96 transistors.
const TRANSISTORS: usize = 2 * 4 * 12;
const CELLS: usize = TRANSISTORS + TRANSISTORS * TRANSISTORS;

/// The fields of one of the 96 transistors, by its place among them.
fn fields(place: usize) -> Fields {
    let (first, second) = (place / 3 % 4, place % 3);
    // The second end is one of the three that are left.
    let second = second + usize::from(second >= first);
    [place / 48, place / 12 % 4, first, second].map(|field| field as u8)
}

/// There is the stated number of them, and their order is the one that is worked out
/// from the place.
#[test]
fn count_and_order() {
    let list = small::list();
    assert_eq!((list.len(), CELLS), (9_312, 9_312));
    assert!(list.is_sorted_by(|one, next| small::key(&one.cell) < small::key(&next.cell)));
    for (place, small) in list.iter().enumerate() {
        let expected = match place.checked_sub(TRANSISTORS) {
            None => vec![fields(place)],
            Some(pair) => vec![fields(pair / TRANSISTORS), fields(pair % TRANSISTORS)],
        };
        let expected = (expected.len(), expected);
        assert_eq!(small::key(&small.cell), expected, "place {place}");
    }
}

/// Each has what all have, is read from its file, and is saved as it.
#[test]
fn cells_and_files() {
    let nodes = [
        Node {
            role: Role::Input,
            start: Source::Letter(0),
        },
        Node {
            role: Role::Inner { capacitance: 1 },
            start: Source::Low,
        },
    ];
    let list = small::list();
    for (place, small) in list.iter().enumerate() {
        let cell = &small.cell;
        let transistors = if place < TRANSISTORS { 1 } else { 2 };
        assert_eq!(cell.header(), [2, transistors, 0, 1, 10], "place {place}");
        assert_eq!(cell.nodes, nodes, "place {place}");
        let resistances = cell
            .transistors
            .iter()
            .map(|transistor| transistor.resistance);
        assert!(resistances.into_iter().all(|ohm| ohm == 1), "place {place}");
        assert_eq!(
            small.file.len(),
            16 * (3 + transistors as usize),
            "place {place}"
        );
        assert_eq!(parse(&small.file).as_ref(), Ok(cell), "place {place}");
        assert_eq!(
            saved::of_file(&small.file).as_ref(),
            Ok(&small.file),
            "place {place}"
        );
    }
    assert_eq!(list[0].file, FIRST);
    assert_eq!(list[CELLS - 1].file, LAST);
}

/// A place past the last is refused before a buffer that is too short.
#[test]
fn refusals() {
    let list = small::list();
    let last = CELLS as u32 - 1;
    for (place, room, expected) in [
        (0, 64, Ok(FIRST.to_vec())),
        (0, 63, Err(Refusal::Buffer)),
        (last, 80, Ok(LAST.to_vec())),
        (last, 79, Err(Refusal::Buffer)),
        (last + 1, 80, Err(Refusal::Question)),
        (last + 1, 0, Err(Refusal::Question)),
        (u32::MAX, 0, Err(Refusal::Question)),
    ] {
        let answer = small::file_in(&list, place, room);
        assert_eq!(answer, expected, "place {place} in {room} bytes");
    }
}

/// What the runs of all cells come to.
#[test]
fn waves() {
    let list = small::list();
    let runs: Vec<Vec<Moment>> = list.iter().map(|small| small::run(&small.cell)).collect();
    let waves = Waves::of(&runs);
    println!("small cells: {waves}");
    waves.expect();
}
