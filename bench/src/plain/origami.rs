// Origamis of 1 to 16 squares, kept in their least form.
use super::Action;

const MAX: usize = 16;

// The right and the upper neighbour of each square. Squares count from 0 here, and behind the degree all entries are 0.
#[derive(Clone, Copy, PartialEq, Eq, PartialOrd, Ord)]
pub struct Gluing {
    degree: usize,
    pub right: [u8; MAX],
    pub up: [u8; MAX],
}

impl Gluing {
    fn sheared(&self) -> Gluing {
        let mut up = [0; MAX];
        for i in 0..self.degree {
            up[i] = self.up[usize::from(self.right[i])];
        }
        Gluing { up, ..*self }
    }

    fn turned(&self) -> Gluing {
        let mut up = [0; MAX];
        for i in 0..self.degree {
            up[usize::from(self.right[i])] = i as u8;
        }
        Gluing {
            right: self.up,
            up,
            ..*self
        }
    }

    // The squares in the order in which they are numbered from a square, right before up, and the number of each.
    fn numbered(&self, first: usize) -> ([u8; MAX], [Option<u8>; MAX], usize) {
        let mut order = [first as u8; MAX];
        let mut number = [None; MAX];
        number[first] = Some(0);
        let mut count = 1;
        for i in 0..self.degree {
            let square = usize::from(order[i]);
            for next in [self.right[square], self.up[square]] {
                if number[usize::from(next)].is_none() {
                    number[usize::from(next)] = Some(count as u8);
                    order[count] = next;
                    count += 1;
                }
            }
        }
        (order, number, count)
    }

    // The gluing in the numbers that its squares get from a square.
    fn reading(&self, first: usize) -> Gluing {
        let (order, number, _) = self.numbered(first);
        let (mut right, mut up) = ([0; MAX], [0; MAX]);
        for i in 0..self.degree {
            let square = usize::from(order[i]);
            right[i] = number[usize::from(self.right[square])].unwrap_or(0);
            up[i] = number[usize::from(self.up[square])].unwrap_or(0);
        }
        Gluing {
            degree: self.degree,
            right,
            up,
        }
    }

    fn least_form(&self) -> Gluing {
        let readings = (0..self.degree).map(|first| self.reading(first));
        readings.min().unwrap_or(*self)
    }
}

pub struct Origami(Gluing);

// The squares of a list, counted from 0, if it lists 1 to `degree` once each.
fn permutation(list: &[u8], degree: usize) -> Option<[u8; MAX]> {
    let mut sorted = list.to_vec();
    sorted.sort();
    if !sorted.iter().map(|&n| usize::from(n)).eq(1..=degree) {
        return None;
    }
    let mut squares = [0; MAX];
    for (square, n) in squares.iter_mut().zip(list) {
        *square = n - 1;
    }
    Some(squares)
}

impl Origami {
    // The origami of two lists, whose squares count from 1.
    pub fn new(right: &[u8], up: &[u8]) -> Option<Origami> {
        let degree = right.len();
        if !(1..=MAX).contains(&degree) {
            return None;
        }
        let gluing = Gluing {
            degree,
            right: permutation(right, degree)?,
            up: permutation(up, degree)?,
        };
        let (_, _, count) = gluing.numbered(0);
        (count == degree).then_some(Origami(gluing))
    }
}

impl Action for Origami {
    type Record = Gluing;

    fn first(&self) -> Gluing {
        self.0.least_form()
    }

    fn t(&self, g: Gluing) -> Gluing {
        g.sheared().least_form()
    }

    fn s(&self, g: Gluing) -> Gluing {
        g.turned().least_form()
    }
}
