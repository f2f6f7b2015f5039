//! Identifiers by chance: in a row, far apart, or alike in the bits that a table of
//! them may go by.

use crate::random::Random;

/// Identifiers one after the other.
pub struct Identifiers {
    first: u32,
    step: u32,
    count: u32,
}

/// Times 0x9E3779B9, the usual factor of such tables, it is 1: multiples of it stand
/// side by side there, and so do some that are alike in their low bits.
pub const GATHERED: u32 = 0x144C_BC89;

/// What an identifier is more than the one before it.
const STEPS: [u32; 8] = [
    1,
    u32::MAX,
    1 << 12,
    1 << 16,
    1 << 20,
    GATHERED,
    GATHERED << 12,
    GATHERED << 16,
];

impl Identifiers {
    pub fn any(random: &mut Random) -> Identifiers {
        let any = random.next() as u32;
        let far = random.next() as u32 | 1;
        let step = random.pick(&STEPS);
        Identifiers {
            first: random.pick(&[0, 1, u32::MAX - 1, u32::MAX, any, any, any]),
            step: random.pick(&[step, step, step, step, far]),
            count: 0,
        }
    }

    /// One that was not given before, as long as no more are asked for than a book has.
    pub fn next(&mut self) -> u32 {
        let identifier = self.first.wrapping_add(self.step.wrapping_mul(self.count));
        self.count += 1;
        identifier
    }
}
