//! The payload's scrambler, x^10 + x^3 + 1 (01, "Scrambler, payload only"; 000, 5.1.5.2; D6).

/// The register: stage k, counted from 1, is bit k − 1.
#[derive(Clone, Copy, Debug, PartialEq, Eq)]
pub struct Scrambler(u16);

impl Scrambler {
    /// The start of each block: all ten stages are 1.
    pub const START: Scrambler = Scrambler(0x3FF);

    /// A register as it stands at the start of a block.
    pub const fn new() -> Scrambler {
        Scrambler::START
    }

    /// The register goes in, one bit is given, the register comes back: stages 3 and 10 as they
    /// stood before the shift are added, the sum goes out and enters at stage 1.
    pub const fn step(self) -> (u8, Scrambler) {
        let bit = (self.0 >> 2 ^ self.0 >> 9) & 1;
        (bit as u8, Scrambler((self.0 << 1 | bit) & 0x3FF))
    }

    /// Eight steps; the first bit is the most significant.
    fn step_byte(mut self) -> (u8, Scrambler) {
        let mut byte = 0;
        for _ in 0..8 {
            let (bit, next) = self.step();
            byte = byte << 1 | bit;
            self = next;
        }
        (byte, self)
    }
}

impl Default for Scrambler {
    fn default() -> Scrambler {
        Scrambler::START
    }
}

/// Scrambles one block in place, from the all-ones start. The same act descrambles.
pub fn scramble(block: &mut [u8]) {
    let mut register = Scrambler::new();
    for byte in block {
        let (mask, next) = register.step_byte();
        *byte ^= mask;
        register = next;
    }
}

#[cfg(test)]
mod tests {
    use super::*;

    #[test]
    fn the_period_is_1023() {
        let mut register = Scrambler::START;
        for n in 1..=1023 {
            register = register.step().1;
            assert_eq!(register == Scrambler::START, n == 1023);
        }
    }

    #[test]
    fn bits_obey_the_recurrence() {
        // Bit n is the sum of bits n − 3 and n − 10, where the bits before the first are 1.
        let mut bits = vec![1u8; 10];
        let mut register = Scrambler::new();
        for n in 10..3000 {
            let (bit, next) = register.step();
            register = next;
            bits.push(bit);
            assert_eq!(bits[n], bits[n - 3] ^ bits[n - 10]);
        }
    }

    #[test]
    fn twice_is_nothing_and_each_block_starts_anew() {
        let block: Vec<u8> = (0..520).map(|n| (n * 37 % 251) as u8).collect();
        let mut once = block.clone();
        scramble(&mut once);
        assert_ne!(once, block);
        let mut short = block[..72].to_vec();
        scramble(&mut short);
        assert_eq!(short, once[..72]);
        scramble(&mut once);
        assert_eq!(once, block);
    }
}
