//! A small random number generator (xorshift64*), so that every run can be repeated.

pub struct Rng(u64);

impl Rng {
    /// Each iteration of each kind has its own stream, so that it can be run alone.
    pub fn new(seed: u64, kind: u64, iteration: u64) -> Rng {
        let mut rng = Rng(mix(mix(mix(seed) ^ kind) ^ iteration) | 1);
        rng.next();
        rng
    }

    pub fn next(&mut self) -> u64 {
        self.0 ^= self.0 >> 12;
        self.0 ^= self.0 << 25;
        self.0 ^= self.0 >> 27;
        self.0.wrapping_mul(0x2545_F491_4F6C_DD1D)
    }

    /// A number below `end`, which is not 0.
    pub fn below(&mut self, end: usize) -> usize {
        ((self.next() >> 11) % end as u64) as usize
    }

    /// A number from `first` to `last`, both included.
    pub fn within(&mut self, first: usize, last: usize) -> usize {
        first + self.below(last - first + 1)
    }

    pub fn percent(&mut self, chance: usize) -> bool {
        self.below(100) < chance
    }

    /// True once in `n`.
    pub fn one_in(&mut self, n: usize) -> bool {
        self.below(n) == 0
    }

    pub fn pick<T: Copy>(&mut self, of: &[T]) -> T {
        of[self.below(of.len())]
    }

    pub fn byte(&mut self) -> u8 {
        (self.next() >> 40) as u8
    }

    pub fn u16(&mut self) -> u16 {
        (self.next() >> 40) as u16
    }

    pub fn u32(&mut self) -> u32 {
        (self.next() >> 24) as u32
    }

    pub fn bytes(&mut self, count: usize) -> Vec<u8> {
        let mut bytes = Vec::with_capacity(count + 8);
        while bytes.len() < count {
            bytes.extend(self.next().to_le_bytes());
        }
        bytes.truncate(count);
        bytes
    }

    /// Bytes without a zero.
    pub fn text(&mut self, count: usize) -> Vec<u8> {
        let printable = self.percent(70);
        (0..count).map(|_| if printable { self.within(32, 126) as u8 } else { self.within(1, 255) as u8 }).collect()
    }
}

fn mix(seed: u64) -> u64 {
    let mut z = seed.wrapping_add(0x9E37_79B9_7F4A_7C15);
    z = (z ^ (z >> 30)).wrapping_mul(0xBF58_476D_1CE4_E5B9);
    z = (z ^ (z >> 27)).wrapping_mul(0x94D0_49BB_1331_11EB);
    z ^ (z >> 31)
}
