// The same engine in plain Rust, and the same work on it.
mod action;
mod levels;
mod origami;
mod random;
mod table;

pub use action::Action;
pub use levels::{Lines, ListedLines, Matrices, Vectors};
pub use origami::Origami;
use random::Random;
use table::{Letter, Link, Table};

// A checksum of numbers in their order.
struct Checksum(u64);

impl Checksum {
    fn new() -> Checksum {
        Checksum(0xcbf2_9ce4_8422_2325)
    }

    fn add(&mut self, number: u64) {
        self.0 = (self.0 ^ number).wrapping_mul(0x0000_0100_0000_01b3);
    }
}

fn add_links(sum: &mut Checksum, links: &[Link]) {
    for link in links {
        sum.add(link.t.into());
        sum.add(link.s.into());
        sum.add(link.parent.into());
        sum.add(match link.letter {
            Letter::T => 0,
            Letter::S => 1,
        });
    }
}

// Grows the table of an action, of at most `room` rows.
pub fn grow<A: Action>(action: Option<A>, room: usize) -> u64 {
    place(action, room, 0, 0)
}

// Grows the table of an action, and places random matrices on it.
pub fn place<A: Action>(action: Option<A>, room: usize, seed: u64, count: u64) -> u64 {
    let Some(table) = action.and_then(|action| Table::grow(&action, room)) else {
        return 0;
    };
    let mut sum = Checksum::new();
    add_links(&mut sum, table.links());
    let mut random = Random::new(seed);
    for _ in 0..count {
        if let Ok(row) = table.place(random.matrix()) {
            sum.add(row.into());
        }
    }
    sum.0
}

// The same, but the width of each row is kept with the table.
pub fn place_with_widths<A: Action>(action: Option<A>, room: usize, seed: u64, count: u64) -> u64 {
    let Some(table) = action.and_then(|action| Table::grow(&action, room)) else {
        return 0;
    };
    let widths = table.widths();
    let mut sum = Checksum::new();
    add_links(&mut sum, table.links());
    let mut random = Random::new(seed);
    for _ in 0..count {
        if let Ok(row) = table.place_with(random.matrix(), |row| widths[usize::from(row)]) {
            sum.add(row.into());
        }
    }
    sum.0
}

// Takes random steps from an origami, each to a least form.
pub fn forms(origami: Option<Origami>, seed: u64, count: u64) -> u64 {
    let Some(origami) = origami else {
        return 0;
    };
    let mut random = Random::new(seed);
    let mut sum = Checksum::new();
    let mut g = origami.first();
    for _ in 0..count {
        let number = random.number();
        g = if number % 2 == 0 {
            origami.t(g)
        } else {
            origami.s(g)
        };
        let at = (number >> 1) as usize % 16;
        sum.add(g.right[at].into());
        sum.add(g.up[at].into());
    }
    for square in g.right.into_iter().chain(g.up) {
        sum.add(square.into());
    }
    sum.0
}
