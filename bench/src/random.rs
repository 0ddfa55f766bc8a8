//! Small generators, which return the same numbers in each run.

/// Numbers of 32 bits. No number repeats before all but 0 have come.
pub struct XorShift32(u32);

impl XorShift32 {
    pub fn new() -> XorShift32 {
        XorShift32(2_463_534_242)
    }

    pub fn next(&mut self) -> u32 {
        self.0 ^= self.0 << 13;
        self.0 ^= self.0 >> 17;
        self.0 ^= self.0 << 5;
        self.0
    }
}

/// Numbers of 64 bits.
pub struct XorShift64(u64);

impl XorShift64 {
    pub fn new() -> XorShift64 {
        XorShift64(88_172_645_463_325_252)
    }

    fn next(&mut self) -> u64 {
        self.0 ^= self.0 << 13;
        self.0 ^= self.0 >> 7;
        self.0 ^= self.0 << 17;
        self.0
    }

    /// Puts the items into another order.
    pub fn shuffle<T>(&mut self, items: &mut [T]) {
        for last in (1..items.len()).rev() {
            let other = (self.next() % (last as u64 + 1)) as usize;
            items.swap(last, other);
        }
    }
}
