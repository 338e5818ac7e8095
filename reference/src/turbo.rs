//! The two encoders and the ring (01, "The two encoders and the ring"; 02, T-04; 000, 5.1.5.3; 004,
//! 5.1.5.3.4; D7).
//!
//! A state is three bits written as a number: s1 is worth 4, s2 is worth 2 and s3 is worth 1.
//! A pair is two bits written as a number: u1 is worth 2 and u2 is worth 1.

/// The most pairs a block has: 520 bytes.
pub const MAX_PAIRS: usize = 2080;
/// The most parity bits a block has: two for each pair.
pub const MAX_PARITY: usize = 2 * MAX_PAIRS;

/// What depends on a block's size alone.
pub struct Size {
    /// Length of the block in bytes.
    pub bytes: usize,
    /// Rows of the matrix M, each written like a state.
    matrix: [u8; 3],
    /// The table S of the pair interleaver.
    table: &'static [u16],
}

impl Size {
    /// The number of pairs L.
    pub const fn pairs(&self) -> usize {
        4 * self.bytes
    }

    /// Where pass two starts when pass one ends at SN: at SN times M.
    pub const fn second_start(&self, end: u8) -> u8 {
        row_times_matrix(end, &self.matrix)
    }
}

/// M for 16, 72 and 520 bytes (000, 5.1.5.3.2, step 3).
const M_16_72_520: [u8; 3] = [0b001, 0b101, 0b111];
/// M for 264 bytes.
const M_264: [u8; 3] = [0b101, 0b111, 0b110];
/// M for 136 bytes.
const M_136: [u8; 3] = [0b011, 0b100, 0b010];

/// 000, Table 4.
const S_16: [u16; 8] = [53, 20, 9, 32, 62, 39, 51, 18];

/// 000, Table 5.
const S_72: [u16; 18] = [
    1, 200, 255, 166, 221, 132, 187, 98, //
    153, 64, 119, 30, 85, 284, 51, 250, //
    17, 216,
];

/// 000, Table 6.
const S_136: [u16; 34] = [
    383, 68, 262, 180, 484, 363, 302, 152, //
    405, 529, 97, 11, 333, 509, 40, 198, //
    236, 454, 428, 124, 273, 493, 73, 389, //
    162, 293, 2, 211, 467, 252, 411, 183, //
    310, 86,
];

/// 000, Table 7.
const S_264: [u16; 33] = [
    309, 175, 737, 667, 1024, 224, 622, 962, //
    527, 845, 926, 1052, 366, 54, 249, 784, //
    108, 551, 410, 479, 823, 866, 442, 654, //
    321, 33, 85, 610, 730, 765, 1038, 352, //
    954,
];

/// 000, Table 8.
const S_520: [u16; 40] = [
    1183, 32, 425, 1434, 165, 331, 1574, 1039, //
    1084, 1332, 1513, 536, 213, 1908, 761, 1231, //
    1659, 476, 1842, 809, 2007, 895, 1717, 1950, //
    101, 937, 618, 1606, 704, 1786, 570, 843, //
    349, 2038, 1102, 1260, 235, 40, 648, 1347,
];

/// The five sizes by kind.
pub static SIZES: [Size; 5] = [
    Size {
        bytes: 16,
        matrix: M_16_72_520,
        table: &S_16,
    },
    Size {
        bytes: 72,
        matrix: M_16_72_520,
        table: &S_72,
    },
    Size {
        bytes: 136,
        matrix: M_136,
        table: &S_136,
    },
    Size {
        bytes: 264,
        matrix: M_264,
        table: &S_264,
    },
    Size {
        bytes: 520,
        matrix: M_16_72_520,
        table: &S_520,
    },
];

/// The state's step without input: (s1, s2, s3) goes to (s3, s1, s2 + s3).
const fn step_without_input(state: u8) -> u8 {
    let (s1, s2, s3) = (state >> 2 & 1, state >> 1 & 1, state & 1);
    s3 << 2 | s1 << 1 | (s2 ^ s3)
}

/// A row times a matrix, sums mod 2.
const fn row_times_matrix(row: u8, matrix: &[u8; 3]) -> u8 {
    let mut product = 0;
    let mut i = 0;
    while i < 3 {
        if row >> (2 - i) & 1 == 1 {
            product ^= matrix[i];
        }
        i += 1;
    }
    product
}

/// One encoder for given taps: what each state and pair lead to. Entry 4·state + pair.
struct Encoder {
    next: [u8; 32],
    parity: [u8; 32],
}

impl Encoder {
    /// Taps are packed B1 (3), B2 (3), C (3), D1, D2, most significant first.
    fn new(taps: u16) -> Encoder {
        let b1 = (taps >> 8 & 7) as u8;
        let b2 = (taps >> 5 & 7) as u8;
        // C, D1, D2 stand over the state, u1 and u2 just as an entry's number packs them.
        let mask = (taps & 31) as u8;
        let mut encoder = Encoder {
            next: [0; 32],
            parity: [0; 32],
        };
        for entry in 0..32u8 {
            let (state, u1, u2) = (entry >> 2, entry >> 1 & 1, entry & 1);
            encoder.next[usize::from(entry)] = step_without_input(state) ^ (b1 * u1) ^ (b2 * u2);
            encoder.parity[usize::from(entry)] = ((entry & mask).count_ones() % 2) as u8;
        }
        encoder
    }

    /// The state after a pair, and the parity from the state before it.
    fn step(&self, state: u8, pair: u8) -> (u8, u8) {
        let entry = usize::from((state << 2 | pair) & 31);
        (self.next[entry], self.parity[entry])
    }

    /// Where a pass over the pairs ends.
    fn run(&self, start: u8, pairs: &[u8]) -> u8 {
        pairs
            .iter()
            .fold(start, |state, &pair| self.step(state, pair).0)
    }

    /// Where pass two starts on these pairs; pass one starts at zero.
    fn ring_start(&self, size: &Size, pairs: &[u8]) -> u8 {
        size.second_start(self.run(0, pairs))
    }
}

/// Takes the pairs out of the block's bytes, most significant first.
fn unpack_pairs(block: &[u8], pairs: &mut [u8]) {
    for (four, &byte) in pairs.chunks_exact_mut(4).zip(block) {
        four.copy_from_slice(&[byte >> 6, byte >> 4 & 3, byte >> 2 & 3, byte & 3]);
    }
}

/// u1 and u2 exchanged.
const fn exchange(pair: u8) -> u8 {
    (pair & 1) << 1 | pair >> 1
}

/// The pair interleaver (000, 5.1.5.3.3): output pair x is input pair
/// I(x) = (S(x mod N) − (x div N)·N + L) mod L, its bits exchanged when x is even.
fn interleave_pairs(size: &Size, pairs: &[u8], mixed: &mut [u8]) {
    for (x, (pair, from)) in mixed.iter_mut().zip(interleaved_from(size)).enumerate() {
        *pair = if x % 2 == 0 {
            exchange(pairs[from])
        } else {
            pairs[from]
        };
    }
}

/// I(0), I(1), .., I(L − 1). The turn x div N moves each entry of S down by N, mod L.
pub fn interleaved_from(size: &Size) -> impl Iterator<Item = usize> + '_ {
    let pairs = size.pairs();
    (0..pairs).step_by(size.table.len()).flat_map(move |down| {
        size.table.iter().map(move |&s| {
            let from = usize::from(s) + pairs - down;
            if from < pairs {
                from
            } else {
                from - pairs
            }
        })
    })
}

/// The row of puncturing at 16/18 as 000 and 004 print it (Table 10), the same for p and for q.
pub(crate) const PUNCTURE_ROW: u16 = 0b1000_0000_1000_0000;

/// Whether puncturing keeps p(t) and q(t): all at rate 1/2; at 16/18 where the row has a one at
/// place t mod 16, counted from 0 and from the right, the low place (004, 5.1.5.3.4; D7).
const fn keeps(rate: u8, t: usize) -> bool {
    rate == 0 || PUNCTURE_ROW >> (t % 16) & 1 == 1
}

/// How many parity bits puncturing keeps.
pub const fn kept_parity(kind: u8, rate: u8) -> usize {
    let all = 2 * SIZES[kind as usize].pairs();
    if rate == 0 {
        all
    } else {
        all / 8
    }
}

/// Encodes a block and writes its kept parity bits, p(t) then q(t) for t rising, one to a byte.
/// `kept` is `kept_parity(kind, rate)` long.
pub fn encode(kind: u8, rate: u8, taps: u16, block: &[u8], kept: &mut [u8]) {
    let size = &SIZES[usize::from(kind)];
    let mut pairs = [0; MAX_PAIRS];
    let mut mixed = [0; MAX_PAIRS];
    let (pairs, mixed) = (&mut pairs[..size.pairs()], &mut mixed[..size.pairs()]);
    unpack_pairs(block, pairs);
    interleave_pairs(size, pairs, mixed);

    let encoder = Encoder::new(taps);
    let starts = (
        encoder.ring_start(size, pairs),
        encoder.ring_start(size, mixed),
    );
    let (mut state1, mut state2) = starts;
    let mut kept = kept.chunks_exact_mut(2);
    for (t, (&pair1, &pair2)) in pairs.iter().zip(mixed.iter()).enumerate() {
        let (next1, p) = encoder.step(state1, pair1);
        let (next2, q) = encoder.step(state2, pair2);
        (state1, state2) = (next1, next2);
        if keeps(rate, t) {
            if let Some(place) = kept.next() {
                place.copy_from_slice(&[p, q]);
            }
        }
    }
    debug_assert_eq!((state1, state2), starts, "the ring closes");
}

#[cfg(test)]
mod tests {
    use super::*;
    use crate::cases::TAPS;

    /// Some bytes that differ with the seed.
    fn bytes(length: usize, mut seed: u32) -> Vec<u8> {
        let mut next = || {
            seed = seed.wrapping_mul(747796405).wrapping_add(2891336453);
            (seed >> 24) as u8
        };
        (0..length).map(|_| next()).collect()
    }

    #[test]
    fn the_ring_closes_for_every_taps() {
        for size in &SIZES {
            for taps in 0..2048 {
                let encoder = Encoder::new(taps);
                let mut pairs = vec![0; size.pairs()];
                unpack_pairs(&bytes(size.bytes, u32::from(taps)), &mut pairs);
                let start = encoder.ring_start(size, &pairs);
                assert_eq!(encoder.run(start, &pairs), start);
            }
        }
    }

    #[test]
    fn without_input_a_pass_moves_a_state_so_that_m_closes_the_ring() {
        // With A the step, s·A^L + SN = s for s = SN·M and every SN. This covers all data.
        let encoder = Encoder::new(0);
        for size in &SIZES {
            let nothing = vec![0; size.pairs()];
            for end in 0..8 {
                let start = size.second_start(end);
                assert_eq!(encoder.run(start, &nothing) ^ end, start);
            }
        }
    }

    #[test]
    fn one_m_for_all_sizes_would_not_close() {
        let encoder = Encoder::new(0);
        for kind in [2, 3] {
            let nothing = vec![0; SIZES[kind].pairs()];
            let closes = (0..8).all(|end| {
                let start = row_times_matrix(end, &M_16_72_520);
                encoder.run(start, &nothing) ^ end == start
            });
            assert!(!closes);
        }
    }

    /// I(x) as 01 writes it.
    fn plain_from(size: &Size, x: usize) -> usize {
        let (n, l) = (size.table.len(), size.pairs());
        (usize::from(size.table[x % n]) + l - x / n * n) % l
    }

    #[test]
    fn residues_differ_and_every_pair_is_read_once() {
        for size in &SIZES {
            let n = size.table.len();
            assert_eq!(size.pairs() % n, 0);
            let mut residues: Vec<usize> = size.table.iter().map(|&s| usize::from(s) % n).collect();
            residues.sort_unstable();
            assert!(residues.into_iter().eq(0..n));
            assert!(size.table.iter().all(|&s| usize::from(s) < size.pairs()));

            let mut from: Vec<usize> = interleaved_from(size).collect();
            for (x, &i) in from.iter().enumerate() {
                assert_eq!(i, plain_from(size, x));
            }
            from.sort_unstable();
            assert!(from.into_iter().eq(0..size.pairs()));
        }
    }

    #[test]
    fn the_pair_is_exchanged_at_even_places() {
        // Pair 53 of size 16 goes to place 0, pair 20 to place 1.
        let size = &SIZES[0];
        let mut pairs = vec![0; 64];
        (pairs[53], pairs[20]) = (0b10, 0b10);
        let mut mixed = vec![0; 64];
        interleave_pairs(size, &pairs, &mut mixed);
        assert_eq!(mixed[..2], [0b01, 0b10]);
        assert!(mixed[2..].iter().all(|&pair| pair == 0));
    }

    /// Steps and parity written out bit by bit.
    fn plain_step(taps: &str, s: [u8; 3], u: [u8; 2]) -> ([u8; 3], u8) {
        let tap: Vec<u8> = taps.bytes().map(|digit| digit - b'0').collect();
        let mut next = [s[2], s[0], (s[1] + s[2]) % 2];
        for (i, bit) in next.iter_mut().enumerate() {
            *bit = (*bit + tap[i] * u[0] + tap[3 + i] * u[1]) % 2;
        }
        let sum = s[0] * tap[6] + s[1] * tap[7] + s[2] * tap[8] + tap[9] * u[0] + tap[10] * u[1];
        (next, sum % 2)
    }

    #[test]
    fn steps_are_as_the_paper_says_for_every_taps_state_and_pair() {
        for taps in 0..2048 {
            let encoder = Encoder::new(taps);
            for state in 0..8u8 {
                for pair in 0..4u8 {
                    let s = [state >> 2, state >> 1 & 1, state & 1];
                    let (next, parity) =
                        plain_step(&format!("{taps:011b}"), s, [pair >> 1, pair & 1]);
                    let next = next[0] << 2 | next[1] << 1 | next[2];
                    assert_eq!(encoder.step(state, pair), (next, parity));
                }
            }
        }
    }

    /// The parity of one encoder: pass one goes from zero to SN, pass two starts at SN times M.
    /// M is written out anew, since that of `SIZES` is under test.
    fn plain_parity(taps: &str, bytes: usize, pairs: &[[u8; 2]]) -> Vec<u8> {
        let m = match bytes {
            136 => [[0, 1, 1], [1, 0, 0], [0, 1, 0]],
            264 => [[1, 0, 1], [1, 1, 1], [1, 1, 0]],
            _ => [[0, 0, 1], [1, 0, 1], [1, 1, 1]],
        };
        let sn = pairs.iter().fold([0; 3], |s, &u| plain_step(taps, s, u).0);
        let mut s = [0, 1, 2].map(|j| (sn[0] * m[0][j] + sn[1] * m[1][j] + sn[2] * m[2][j]) % 2);
        let mut parity = Vec::new();
        for &u in pairs {
            let (next, bit) = plain_step(taps, s, u);
            parity.push(bit);
            s = next;
        }
        parity
    }

    #[test]
    fn parity_is_as_the_paper_says_for_every_size() {
        for (kind, size) in (0..).zip(&SIZES) {
            for taps in TAPS {
                let block = bytes(size.bytes, u32::from(taps));
                let bit = |n: usize| block[n / 8] >> (7 - n % 8) & 1;
                let pair = |x: usize| [bit(2 * x), bit(2 * x + 1)];
                let interleaved = |x: usize| match (x % 2, pair(plain_from(size, x))) {
                    (0, [u1, u2]) => [u2, u1],
                    (_, unchanged) => unchanged,
                };
                let pairs: Vec<[u8; 2]> = (0..size.pairs()).map(pair).collect();
                let mixed: Vec<[u8; 2]> = (0..size.pairs()).map(interleaved).collect();

                let digits = format!("{taps:011b}");
                let p = plain_parity(&digits, size.bytes, &pairs);
                let q = plain_parity(&digits, size.bytes, &mixed);
                let expected: Vec<u8> = p.into_iter().zip(q).flat_map(|(p, q)| [p, q]).collect();
                let mut all = vec![9; 2 * size.pairs()];
                encode(kind, 0, taps, &block, &mut all);
                assert_eq!(all, expected, "{} bytes, taps {taps}", size.bytes);
            }
        }
    }

    #[test]
    fn puncturing_keeps_every_eighth_from_7() {
        for taps in TAPS {
            for seed in 7..12 {
                let block = bytes(520, seed);
                let mut all = vec![9; 4160];
                let mut kept = vec![9; 520];
                encode(4, 0, taps, &block, &mut all);
                encode(4, 1, taps, &block, &mut kept);
                for n in 0..260 {
                    let t = 8 * n + 7;
                    assert_eq!(kept[2 * n..2 * n + 2], all[2 * t..2 * t + 2]);
                }
            }
        }
        // No other t is kept. The blocks can't show it: `encode` drops what it has no room for.
        assert!((0..2080).filter(|&t| keeps(1, t)).eq((7..2080).step_by(8)));
        let counts: Vec<usize> = (0..5).map(|kind| kept_parity(kind, 0)).collect();
        assert_eq!(counts, [128, 576, 1088, 2112, 4160]);
        assert_eq!(kept_parity(4, 1), 520);
    }
}
