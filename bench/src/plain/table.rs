// Tables: growing them, and placing matrices on them.
use super::Action;

const EMPTY: u16 = u16::MAX;
const MOST: usize = 65_000;
const LIMIT: u64 = 1_000_000_000;

#[derive(Clone, Copy)]
pub enum Letter {
    T,
    S,
}

#[derive(Clone, Copy)]
pub struct Link {
    pub t: u16,
    pub s: u16,
    pub parent: u16,
    pub letter: Letter,
}

impl Link {
    fn new(parent: usize, letter: Letter) -> Link {
        Link {
            t: EMPTY,
            s: EMPTY,
            parent: parent as u16,
            letter,
        }
    }
}

// Why a matrix is not placed.
pub enum Refusal {
    Range,
    Determinant,
}

pub struct Table {
    links: Vec<Link>,
}

impl Table {
    // The whole table of an action, if it has at most `room` rows: a T edge and then an S edge for each row in turn.
    pub fn grow<A: Action>(action: &A, room: usize) -> Option<Table> {
        if !(1..=MOST).contains(&room) {
            return None;
        }
        let mut rows = Vec::with_capacity(room);
        let mut links = Vec::with_capacity(room);
        rows.push(action.first());
        links.push(Link::new(0, Letter::T));
        let mut row = 0;
        while row < rows.len() {
            for letter in [Letter::T, Letter::S] {
                let made = action.step(rows[row], letter);
                let target = match rows.iter().position(|p| *p == made) {
                    Some(found) => found,
                    None if rows.len() == room => return None,
                    None => {
                        rows.push(made);
                        links.push(Link::new(row, letter));
                        rows.len() - 1
                    }
                };
                match letter {
                    Letter::T => links[row].t = target as u16,
                    Letter::S => links[row].s = target as u16,
                }
            }
            row += 1;
        }
        Some(Table { links })
    }

    pub fn links(&self) -> &[Link] {
        &self.links
    }

    fn t(&self, row: u16) -> u16 {
        self.links[usize::from(row)].t
    }

    fn s(&self, row: u16) -> u16 {
        self.links[usize::from(row)].s
    }

    // The length of the T-cycle of a row.
    fn width(&self, row: u16) -> i64 {
        let mut width = 1;
        let mut at = self.t(row);
        while at != row {
            at = self.t(at);
            width += 1;
        }
        width
    }

    // The width of each row.
    pub fn widths(&self) -> Vec<i64> {
        (0..self.links.len() as u16)
            .map(|row| self.width(row))
            .collect()
    }

    // The row of a matrix of determinant 1.
    pub fn place(&self, m: [[i64; 2]; 2]) -> Result<u16, Refusal> {
        self.place_with(m, |row| self.width(row))
    }

    // The same, with the width of a row from a function.
    pub fn place_with(&self, m: [[i64; 2]; 2], width: impl Fn(u16) -> i64) -> Result<u16, Refusal> {
        if m.iter().flatten().any(|x| x.unsigned_abs() > LIMIT) {
            return Err(Refusal::Range);
        }
        let [[mut a, mut b], [mut c, mut d]] = m;
        if a * d - b * c != 1 {
            return Err(Refusal::Determinant);
        }
        let t_steps = |row, power: i64| {
            let steps = power.rem_euclid(width(row));
            (0..steps).fold(row, |at, _| self.t(at))
        };
        let mut row = 0;
        while c != 0 {
            let (q, r) = (a / c, a % c);
            row = self.s(t_steps(row, q));
            (a, b, c, d) = (c, d, -r, q * d - b);
        }
        if a == 1 {
            Ok(t_steps(row, b))
        } else {
            Ok(t_steps(self.s(self.s(row)), -b))
        }
    }
}
