// Vectors, lines and matrices modulo a level from 1 to 200.
use super::Action;

#[derive(Clone, Copy)]
struct Level(u8);

impl Level {
    fn new(level: u32) -> Option<Level> {
        (1..=200).contains(&level).then_some(Level(level as u8))
    }

    fn sum(self, x: u8, y: u8) -> u8 {
        ((u16::from(x) + u16::from(y)) % u16::from(self.0)) as u8
    }

    fn negative(self, x: u8) -> u8 {
        (self.0 - x) % self.0
    }

    fn product(self, x: u8, y: u8) -> u8 {
        (u16::from(x) * u16::from(y) % u16::from(self.0)) as u8
    }

    fn coprime(self, u: u8) -> bool {
        gcd(u, self.0) == 1
    }
}

fn gcd(a: u8, b: u8) -> u8 {
    if b == 0 { a } else { gcd(b, a % b) }
}

// Ordered by c and then by d.
#[derive(Clone, Copy, PartialEq, Eq, PartialOrd, Ord)]
pub struct Vector {
    c: u8,
    d: u8,
}

pub struct Vectors(Level);

impl Vectors {
    pub fn new(level: u32) -> Option<Vectors> {
        Level::new(level).map(Vectors)
    }
}

impl Action for Vectors {
    type Record = Vector;

    fn first(&self) -> Vector {
        Vector {
            c: 0,
            d: 1 % self.0.0,
        }
    }

    fn t(&self, v: Vector) -> Vector {
        Vector {
            c: v.c,
            d: self.0.sum(v.c, v.d),
        }
    }

    fn s(&self, v: Vector) -> Vector {
        Vector {
            c: v.d,
            d: self.0.negative(v.c),
        }
    }
}

fn scaled(level: Level, u: u8, v: Vector) -> Vector {
    Vector {
        c: level.product(u, v.c),
        d: level.product(u, v.d),
    }
}

// A line is kept as the least of its vectors.
pub struct Lines {
    vectors: Vectors,
}

impl Lines {
    pub fn new(level: u32) -> Option<Lines> {
        let vectors = Vectors::new(level)?;
        Some(Lines { vectors })
    }

    fn least(&self, v: Vector) -> Vector {
        let level = self.vectors.0;
        let mut best = v;
        for u in 2..level.0 {
            let multiple = scaled(level, u, v);
            if multiple < best && level.coprime(u) {
                best = multiple;
            }
        }
        best
    }
}

impl Action for Lines {
    type Record = Vector;

    fn first(&self) -> Vector {
        self.vectors.first()
    }

    fn t(&self, v: Vector) -> Vector {
        self.least(self.vectors.t(v))
    }

    fn s(&self, v: Vector) -> Vector {
        self.least(self.vectors.s(v))
    }
}

// Lines again, with the numbers coprime to the level kept in a list.
pub struct ListedLines {
    vectors: Vectors,
    units: Vec<u8>,
}

impl ListedLines {
    pub fn new(level: u32) -> Option<ListedLines> {
        let vectors = Vectors::new(level)?;
        let n = vectors.0;
        let units = (0..n.0).filter(|&u| n.coprime(u)).collect();
        Some(ListedLines { vectors, units })
    }

    fn least(&self, v: Vector) -> Vector {
        let multiples = self.units.iter().map(|&u| scaled(self.vectors.0, u, v));
        multiples.min().unwrap_or(v)
    }
}

impl Action for ListedLines {
    type Record = Vector;

    fn first(&self) -> Vector {
        self.vectors.first()
    }

    fn t(&self, v: Vector) -> Vector {
        self.least(self.vectors.t(v))
    }

    fn s(&self, v: Vector) -> Vector {
        self.least(self.vectors.s(v))
    }
}

// The rows a, b and c, d.
#[derive(Clone, Copy, PartialEq, Eq)]
pub struct Square {
    a: u8,
    b: u8,
    c: u8,
    d: u8,
}

pub struct Matrices(Level);

impl Matrices {
    pub fn new(level: u32) -> Option<Matrices> {
        Level::new(level).map(Matrices)
    }
}

impl Action for Matrices {
    type Record = Square;

    fn first(&self) -> Square {
        let one = 1 % self.0.0;
        Square {
            a: one,
            b: 0,
            c: 0,
            d: one,
        }
    }

    fn t(&self, m: Square) -> Square {
        Square {
            b: self.0.sum(m.a, m.b),
            d: self.0.sum(m.c, m.d),
            ..m
        }
    }

    fn s(&self, m: Square) -> Square {
        Square {
            a: m.b,
            b: self.0.negative(m.a),
            c: m.d,
            d: self.0.negative(m.c),
        }
    }
}
