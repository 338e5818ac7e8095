//! Constellation points and their slicing.

use reference::cases::{all_bits, Random};
use reference::interface::COORDINATES;
use reference::points::{bits_per_carrier, BPSK_EIGHTH, EDGES, QAM16_FACTOR, QPSK_FACTOR};

use crate::cards::any_room;
use crate::checker::Checker;

/// Bits a carrier holds, and 4 for a modulation that is not defined.
fn bits_of(modulation: u64) -> usize {
    bits_per_carrier(modulation).unwrap_or(4)
}

/// Modulations that are not defined, some with the low bits of one that is.
const UNDEFINED: [u64; 12] = [
    3,
    4,
    7,
    255,
    256,
    257,
    258,
    1 << 32,
    (1 << 32) + 1,
    (1 << 63) + 2,
    u64::MAX - 1,
    u64::MAX,
];

fn any_modulation(random: &mut Random) -> u64 {
    match random.below(10) {
        0 => random.pick(&UNDEFINED),
        1 if random.once_in(2) => random.word_of_any_size(),
        _ => random.below(3) as u64,
    }
}

/// A byte that is neither 0 nor 1.
fn no_bit(random: &mut Random) -> u8 {
    let any = random.within(2..256) as u8;
    random.pick(&[2, 3, 128, 129, 254, 255, any])
}

pub fn map_systematic(checker: &mut Checker) {
    for modulation in 0..3 {
        let count = bits_of(modulation);
        for bits in all_bits(count) {
            for room in 0..5 {
                checker.map(modulation, &bits, room);
            }
        }
        map_illegal(checker, modulation, count);
    }
    for modulation in (0..3).chain(UNDEFINED) {
        for length in 0..=10 {
            let bits = checker.random.bytes(length);
            for room in 0..4 {
                checker.map(modulation, &vec![1; length], room);
                checker.map(modulation, &bits, room);
            }
        }
    }
}

/// Every byte that is no bit at every index, with bits before it and anything after it.
fn map_illegal(checker: &mut Checker, modulation: u64, count: usize) {
    for index in 0..count {
        for illegal in 2..=255 {
            let mut bits = checker.random.bytes(count);
            for bit in &mut bits[..index] {
                *bit &= 1;
            }
            bits[index] = illegal;
            checker.map(modulation, &bits, COORDINATES);
        }
    }
}

pub fn map_random(checker: &mut Checker) {
    let random = &mut checker.random;
    let modulation = any_modulation(random);
    let length = match random.below(6) {
        0 => random.below(12),
        1 if random.once_in(4) => 256 + bits_of(modulation),
        _ => bits_of(modulation),
    };
    let mut bits: Vec<u8> = (0..length).map(|_| random.below(2) as u8).collect();
    if length > 0 && random.once_in(3) {
        bits[random.below(length)] = no_bit(random);
    }
    let room = any_room(COORDINATES, random);
    checker.map(modulation, &bits, room);
}

/// The bits of coordinates at which an answer may turn, their neighbours and their negatives.
fn edges() -> Vec<u64> {
    let turning = [
        0.0,
        f64::from_bits(0x000F_FFFF_FFFF_FFFF),
        f64::MIN_POSITIVE,
        QAM16_FACTOR,
        2.0 * QAM16_FACTOR,
        3.0 * QAM16_FACTOR,
        QPSK_FACTOR,
        2.0 * QPSK_FACTOR,
        1.0,
        2.0,
        f64::MAX,
        f64::INFINITY,
        f64::NAN,
    ];
    let mut edges = vec![0x7FF0_0000_0000_0001, i64::MAX as u64];
    for bits in turning.into_iter().chain(EDGES).map(f64::to_bits) {
        edges.extend([bits.saturating_sub(1), bits, bits + 1]);
    }
    let negatives: Vec<u64> = edges.iter().map(|bits| bits ^ 1 << 63).collect();
    edges.extend(negatives);
    edges.sort_unstable();
    edges.dedup();
    edges
}

/// Every edge against every other and in a lost carrier, then values of `heard` (D23), rooms and
/// undefined modulations.
pub fn slice_systematic(checker: &mut Checker) {
    let edges = edges();
    for modulation in 0..3 {
        for &i in &edges {
            for &q in &edges {
                checker.slice(modulation, 1, [i, q], bits_of(modulation));
            }
            checker.slice(modulation, 0, [i, i ^ 1 << 63], bits_of(modulation));
        }
    }
    for modulation in (0..3).chain(UNDEFINED) {
        for heard in [0, 1, 2, 255, 256, 1 << 32, 1 << 63, u64::MAX] {
            for room in 0..7 {
                let at = [checker.random.pick(&edges), checker.random.word()];
                checker.slice(modulation, heard, at, room);
            }
        }
    }
}

/// The bits of a coordinate whose size is at most the limit, all sizes being equally likely.
fn up_to(limit: f64, random: &mut Random) -> u64 {
    let fraction = random.word() as i64 as f64 / (1u64 << 63) as f64;
    (limit * fraction).to_bits()
}

/// A coordinate's bits: an edge, some steps from one, of the size of points or of f/8, or anything.
fn any_coordinate(random: &mut Random) -> u64 {
    match random.below(5) {
        0 => random.pick(&edges()),
        1 => {
            let steps = (random.word_of_any_size() >> 12) as i64;
            let steps = if random.once_in(2) { steps } else { -steps };
            random.pick(&edges()).wrapping_add_signed(steps)
        }
        2 => up_to(4.0, random),
        // BPSK's f/8 is the largest, so both sides of each are met.
        3 => up_to(2.0 * BPSK_EIGHTH, random),
        _ => random.word(),
    }
}

pub fn slice_random(checker: &mut Checker) {
    let random = &mut checker.random;
    let modulation = any_modulation(random);
    let heard = match random.below(6) {
        0 => 0,
        1 => random.word_of_any_size(),
        _ => 1,
    };
    let at = [any_coordinate(random), any_coordinate(random)];
    let room = any_room(bits_of(modulation), random);
    checker.slice(modulation, heard, at, room);
}
