//! Numbers from a seed (splitmix64), so that a run can be repeated.

/// The state, and how often a turn was asked for.
pub struct Random(u64, u64);

impl Random {
    pub fn new(seed: u64) -> Self {
        Random(seed, 0)
    }

    /// 0 at the first call, then one more at each, for what is gone through one after the other.
    pub fn turn(&mut self) -> u64 {
        self.1 += 1;
        self.1 - 1
    }

    pub fn next(&mut self) -> u64 {
        self.0 = self.0.wrapping_add(0x9e37_79b9_7f4a_7c15);
        let mut z = self.0;
        z = (z ^ (z >> 30)).wrapping_mul(0xbf58_476d_1ce4_e5b9);
        z = (z ^ (z >> 27)).wrapping_mul(0x94d0_49bb_1331_11eb);
        z ^ (z >> 31)
    }

    /// A number below `n`.
    pub fn below(&mut self, n: u64) -> u64 {
        self.next() % n
    }

    /// True once in `n` times.
    pub fn one_in(&mut self, n: u64) -> bool {
        self.below(n) == 0
    }

    pub fn pick<T: Copy>(&mut self, from: &[T]) -> T {
        from[self.below(from.len() as u64) as usize]
    }

    /// A number of a random width of 0 to 64 bits: small ones are as likely as large ones.
    pub fn wide(&mut self) -> u64 {
        match self.below(65) {
            0 => 0,
            bits => self.next() >> (64 - bits),
        }
    }

    /// A number near `v`: itself, or some steps of 1 or of `unit` away.
    pub fn near(&mut self, v: u64, unit: u64) -> u64 {
        let d = match self.below(6) {
            0 | 1 => 0,
            2 => 1,
            3 => unit,
            4 => self.below(8) * unit,
            _ => self.below(4096),
        };
        if self.one_in(2) {
            v.wrapping_add(d)
        } else {
            v.wrapping_sub(d)
        }
    }

    pub fn bytes(&mut self, n: usize) -> Vec<u8> {
        let mut out = Vec::with_capacity(n + 8);
        while out.len() < n {
            out.extend_from_slice(&self.next().to_be_bytes());
        }
        out.truncate(n);
        out
    }
}
