//! Numbers from a seed.

pub struct Draw(u64);

const GOLDEN: u64 = 0x9E37_79B9_7F4A_7C15;

fn mixed(z: u64) -> u64 {
    let z = (z ^ z >> 30).wrapping_mul(0xBF58_476D_1CE4_E5B9);
    let z = (z ^ z >> 27).wrapping_mul(0x94D0_49BB_1331_11EB);
    z ^ z >> 31
}

/// Words at which a result changes its kind.
const EDGES: [u32; 18] = [
    0,
    1,
    2,
    31,
    32,
    0x7F,
    0x80,
    0xFF,
    0x7FFF,
    0x8000,
    0xFFFF,
    0x1_0000,
    0x3FFF_FFFF,
    0x4000_0000,
    0x7FFF_FFFF,
    0x8000_0000,
    0xFFFF_FFE0,
    0xFFFF_FFFF,
];

impl Draw {
    pub fn new(seed: u64) -> Draw {
        // mixed, or the numbers of the next seed would be these shifted by one
        Draw(mixed(mixed(seed) ^ GOLDEN))
    }

    /// A step of splitmix64.
    pub fn word(&mut self) -> u32 {
        self.0 = self.0.wrapping_add(GOLDEN);
        (mixed(self.0) >> 32) as u32
    }

    pub fn below(&mut self, n: u32) -> u32 {
        ((self.word() as u64 * n as u64) >> 32) as u32
    }

    /// From the first to the last, both included.
    pub fn within(&mut self, first: u32, last: u32) -> u32 {
        first + self.below(last - first + 1)
    }

    pub fn percent(&mut self, n: u32) -> bool {
        self.below(100) < n
    }

    pub fn pick<T: Copy>(&mut self, from: &[T]) -> T {
        from[self.below(from.len() as u32) as usize]
    }

    /// An edge value, or a word of any width.
    pub fn edge(&mut self) -> u32 {
        if self.percent(50) {
            self.pick(&EDGES)
        } else {
            let word = self.word();
            word >> self.below(32)
        }
    }

    pub fn shuffle<T>(&mut self, row: &mut [T]) {
        for k in (1..row.len()).rev() {
            row.swap(k, self.below(k as u32 + 1) as usize);
        }
    }
}
