//! The generator `Lcg64Xsh32` of the crate `rand_pcg`.

pub const MULTIPLIER: u64 = 6_364_136_223_846_793_005;
/// The increment of the generator that expands a seed.
pub const SEED_INCREMENT: u64 = 0xA176_54E4_6FBE_17F3;

pub struct Pcg32 {
    pub state: u64,
    pub increment: u64,
}

impl Pcg32 {
    pub fn seed_from_u64(seed: u64) -> Self {
        let mut expander = Pcg32 { state: seed, increment: SEED_INCREMENT };
        let mut half = || {
            expander.step();
            u64::from(output(expander.state))
        };
        let state = half() | half() << 32;
        let increment = half() | half() << 32 | 1;
        let mut random = Pcg32 { state: state.wrapping_add(increment), increment };
        random.step();
        random
    }

    pub fn step(&mut self) {
        self.state = self.state.wrapping_mul(MULTIPLIER).wrapping_add(self.increment);
    }

    pub fn next_word(&mut self) -> u32 {
        let word = output(self.state);
        self.step();
        word
    }
}

pub fn output(state: u64) -> u32 {
    ((((state >> 18) ^ state) >> 27) as u32).rotate_right((state >> 59) as u32)
}
