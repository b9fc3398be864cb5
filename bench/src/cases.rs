// What is timed.
use crate::library;
use crate::plain;
use crate::plain::{Lines, ListedLines, Matrices, Origami, Vectors};
use std::hint::black_box;

// One piece of work on both sides. Each answers its checksum, or 0 where something is declined.
pub struct Case {
    pub name: &'static str,
    pub library: Box<dyn Fn() -> u64>,
    pub plain: Box<dyn Fn() -> u64>,
}

impl Case {
    fn new(
        name: &'static str,
        library: impl Fn() -> u64 + 'static,
        plain: impl Fn() -> u64 + 'static,
    ) -> Case {
        Case {
            name,
            library: Box::new(library),
            plain: Box::new(plain),
        }
    }
}

// A row of seven squares, and one on the first of them.
const L27: ([u8; 8], [u8; 8]) = ([2, 3, 4, 5, 6, 7, 1, 8], [8, 2, 3, 4, 5, 6, 7, 1]);

// A row of fifteen squares, and one on the first of them.
const L215: ([u8; 16], [u8; 16]) = (
    [2, 3, 4, 5, 6, 7, 8, 9, 10, 11, 12, 13, 14, 15, 1, 16],
    [16, 2, 3, 4, 5, 6, 7, 8, 9, 10, 11, 12, 13, 14, 15, 1],
);

// A ring of sixteen squares, in which up exchanges neighbours.
const RING: ([u8; 16], [u8; 16]) = (
    [2, 3, 4, 5, 6, 7, 8, 9, 10, 11, 12, 13, 14, 15, 16, 1],
    [2, 1, 4, 3, 6, 5, 8, 7, 10, 9, 12, 11, 14, 13, 16, 15],
);

const SEED: u64 = 20;
const PLACES: u64 = 1_000_000;
const FORMS: u64 = 100_000;

fn lines(name: &'static str, level: u32, room: usize) -> Case {
    Case::new(
        name,
        move || library::lines(black_box(level), room),
        move || plain::grow(Lines::new(black_box(level)), room),
    )
}

fn listed_lines(name: &'static str, level: u32, room: usize) -> Case {
    Case::new(
        name,
        move || library::lines(black_box(level), room),
        move || plain::grow(ListedLines::new(black_box(level)), room),
    )
}

fn vectors(name: &'static str, level: u32, room: usize) -> Case {
    Case::new(
        name,
        move || library::vectors(black_box(level), room),
        move || plain::grow(Vectors::new(black_box(level)), room),
    )
}

fn matrices(name: &'static str, level: u32, room: usize) -> Case {
    Case::new(
        name,
        move || library::matrices(black_box(level), room),
        move || plain::grow(Matrices::new(black_box(level)), room),
    )
}

fn origami(name: &'static str, right: &'static [u8], up: &'static [u8], room: usize) -> Case {
    Case::new(
        name,
        move || library::origami(black_box(right), black_box(up), room),
        move || plain::grow(Origami::new(black_box(right), black_box(up)), room),
    )
}

pub fn all() -> Vec<Case> {
    vec![
        lines("grow lines 97", 97, 98),
        lines("grow lines 200", 200, 360),
        listed_lines("  coprimes listed", 200, 360),
        vectors("grow vectors 30", 30, 576),
        vectors("grow vectors 200", 200, 28_800),
        matrices("grow matrices 8", 8, 384),
        matrices("grow matrices 20", 20, 5_760),
        origami("grow L(2,7)", &L27.0, &L27.1, 108),
        origami("grow L(2,15)", &L215.0, &L215.1, 1_008),
        origami("grow ring of 16", &RING.0, &RING.1, 96),
        Case::new(
            "place 1,000,000",
            || library::place(black_box(97), 98, SEED, PLACES),
            || plain::place(Lines::new(black_box(97)), 98, SEED, PLACES),
        ),
        Case::new(
            "  widths kept",
            || library::place(black_box(97), 98, SEED, PLACES),
            || plain::place_with_widths(Lines::new(black_box(97)), 98, SEED, PLACES),
        ),
        Case::new(
            "100,000 least forms",
            || library::forms(black_box(&RING.0), &RING.1, SEED, FORMS),
            || plain::forms(Origami::new(black_box(&RING.0), &RING.1), SEED, FORMS),
        ),
    ]
}
