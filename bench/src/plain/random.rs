// Numbers and matrices that look random: the same ones as in crates/bench.

pub struct Random {
    state: u64,
}

impl Random {
    pub fn new(seed: u64) -> Random {
        Random { state: seed }
    }

    pub fn number(&mut self) -> u64 {
        self.state = self.state.wrapping_add(0x9e37_79b9_7f4a_7c15);
        let x = (self.state ^ (self.state >> 30)).wrapping_mul(0xbf58_476d_1ce4_e5b9);
        let y = (x ^ (x >> 27)).wrapping_mul(0x94d0_49bb_1331_11eb);
        y ^ (y >> 31)
    }

    fn large(&mut self) -> i64 {
        (self.number() % 500_000_000) as i64 + 500_000_001
    }

    // A matrix of determinant 1, with two random numbers in its first column, less their common divisors.
    pub fn matrix(&mut self) -> [[i64; 2]; 2] {
        let a = self.large();
        let c = self.large();
        let (mut r, mut next_r) = (a as u32, c as u32);
        let (mut x, mut next_x) = (1, 0);
        let (mut y, mut next_y) = (0, 1);
        while next_r != 0 {
            let q = i64::from(r / next_r);
            (r, next_r) = (next_r, r % next_r);
            (x, next_x) = (next_x, x - q * next_x);
            (y, next_y) = (next_y, y - q * next_y);
        }
        let divisor = i64::from(r);
        [[a / divisor, -y], [c / divisor, x]]
    }
}
