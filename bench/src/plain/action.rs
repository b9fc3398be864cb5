// What the two letters act on.
use super::table::Letter;

pub trait Action {
    type Record: Copy + PartialEq;

    fn first(&self) -> Self::Record;
    fn t(&self, p: Self::Record) -> Self::Record;
    fn s(&self, p: Self::Record) -> Self::Record;

    fn step(&self, p: Self::Record, letter: Letter) -> Self::Record {
        match letter {
            Letter::T => self.t(p),
            Letter::S => self.s(p),
        }
    }
}
