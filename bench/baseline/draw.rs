//! Drawing faults: the generator `Lcg64Xsh32` of the crate `rand_pcg`, and what five words of it mean.

use crate::inject::Fault;
use crate::network::{Network, Phase, Tree, Wave};

/// The multiplier of the generator, and of the one that expands a seed.
const MULTIPLIER: u64 = 6_364_136_223_846_793_005;
/// The increment of the one that expands a seed.
const SEED_INCREMENT: u64 = 0xA176_54E4_6FBE_17F3;

struct Pcg32 {
    state: u64,
    increment: u64,
}

impl Pcg32 {
    /// As `SeedableRng::seed_from_u64`: another such generator, which gives the word of the state after
    /// the step, gives the state and then the increment, each with its low half first.
    fn seed_from_u64(seed: u64) -> Self {
        let mut expander = Pcg32 { state: seed, increment: SEED_INCREMENT };
        let mut half = || {
            expander.step();
            u64::from(output(expander.state))
        };
        let state = half() | half() << 32;
        let increment = half() | half() << 32 | 1;
        let mut random = Pcg32 { state: state.wrapping_add(increment), increment };
        random.step();
        random
    }

    fn step(&mut self) {
        self.state = self.state.wrapping_mul(MULTIPLIER).wrapping_add(self.increment);
    }

    fn next_u32(&mut self) -> u32 {
        let word = output(self.state);
        self.step();
        word
    }
}

fn output(state: u64) -> u32 {
    ((((state >> 18) ^ state) >> 27) as u32).rotate_right((state >> 59) as u32)
}

/// The fault that a seed draws.
pub fn draw(network: &Network, seed: u32) -> Fault<'static> {
    let mut random = Pcg32::seed_from_u64(u64::from(seed));
    let [kind, at, third, fourth, fifth] = [(); 5].map(|()| random.next_u32());
    let node = |word: u32| network.nodes[word as usize % network.nodes.len()].id;
    let at = node(at);
    match kind % 4 {
        0 => {
            let dist = fifth % (network.bound() + 1);
            Fault::Tree { at, tree: Tree { root: node(third), father: node(fourth), dist } }
        }
        1 => {
            let phase = [Phase::Normal, Phase::Initiate, Phase::Reset][third as usize % 3];
            Fault::Wave { at, wave: Wave { phase, session: fourth % 8 } }
        }
        2 => Fault::Down { a: at, b: node(third) },
        _ => Fault::Up { a: at, b: node(third) },
    }
}
