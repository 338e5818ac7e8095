//! Constellation points and their slicing (01, "Points"; 02, T-02; 000, Tables 15, 16 and 18; D1,
//! D13, D14).

use crate::{number, Report};

pub const BPSK: u64 = 0;
pub const QPSK: u64 = 1;
pub const QAM16: u64 = 2;

/// A constellation point.
#[derive(Clone, Copy, Debug, PartialEq)]
pub struct Point {
    pub i: f64,
    pub q: f64,
}

/// A received carrier: heard, with its coordinates I and Q, or lost.
#[derive(Clone, Copy, Debug, PartialEq)]
pub enum Received {
    Heard(f64, f64),
    Lost,
}

/// The items of one carrier, the first being d0.
#[derive(Clone, Copy, Debug, PartialEq, Eq)]
pub struct Items {
    items: [u8; 4],
    count: usize,
}

impl Items {
    fn new(from: &[u8]) -> Items {
        let mut items = [0; 4];
        items[..from.len()].copy_from_slice(from);
        Items {
            items,
            count: from.len(),
        }
    }

    pub fn as_slice(&self) -> &[u8] {
        &self.items[..self.count]
    }
}

/// The whole number m of QPSK's factor m/2^53.
const QPSK_M: u64 = 6_369_051_672_525_773;
/// The whole number m of 16QAM's factor m/2^54.
const QAM16_M: u64 = 5_696_652_996_790_543;

/// Whether n·(2m − 1)² < 2^power < n·(2m + 1)², which says that m is the nearest whole number.
const fn is_nearest(n: u128, m: u64, power: u32) -> bool {
    let twice = 2 * m as u128;
    let below = n * (twice - 1) * (twice - 1);
    let above = n * (twice + 1) * (twice + 1);
    below < 1 << power && 1 << power < above
}

const _: () = assert!(is_nearest(2, QPSK_M, 108));
const _: () = assert!(is_nearest(10, QAM16_M, 110));

/// BPSK's factor.
pub const BPSK_FACTOR: f64 = 1.0;
/// QPSK's factor. It is exact: m is below 2^53 and the divisor is a power of 2.
pub const QPSK_FACTOR: f64 = QPSK_M as f64 / (1u64 << 53) as f64;
/// 16QAM's factor, exact likewise.
pub const QAM16_FACTOR: f64 = QAM16_M as f64 / (1u64 << 54) as f64;

/// BPSK's f/8, the largest size that is lost about 0. An eighth of each factor is exact.
pub const BPSK_EIGHTH: f64 = BPSK_FACTOR / 8.0;
/// QPSK's f/8.
pub const QPSK_EIGHTH: f64 = QPSK_FACTOR / 8.0;
/// 16QAM's f/8.
pub const QAM16_EIGHTH: f64 = QAM16_FACTOR / 8.0;
/// The least size that is lost about 2f in 16QAM. 2f is exact, so only the difference is rounded.
pub const QAM16_LOW_END: f64 = 2.0 * QAM16_FACTOR - QAM16_EIGHTH;
/// The largest size that is lost about 2f in 16QAM, rounded once likewise.
pub const QAM16_HIGH_END: f64 = 2.0 * QAM16_FACTOR + QAM16_EIGHTH;
/// The sizes at which a finite coordinate turns between lost and decided.
pub const EDGES: [f64; 5] = [
    BPSK_EIGHTH,
    QPSK_EIGHTH,
    QAM16_EIGHTH,
    QAM16_LOW_END,
    QAM16_HIGH_END,
];

/// x·2^57, which is whole for every x from 2^−5 to 1.
const fn parts(x: f64) -> u64 {
    (x * (1u64 << 57) as f64) as u64
}

/// Whether both neighbours of `end` are further from `exact` parts of 2^−57 than it is. Each is
/// measured by itself, because the one below a power of 2 is only half as far away.
const fn is_nearest_end(end: f64, exact: u64) -> bool {
    let distance = parts(end).abs_diff(exact);
    distance < parts(end.next_down()).abs_diff(exact)
        && distance < parts(end.next_up()).abs_diff(exact)
}

// With f = m/2^54, 2f is 16m parts and f/8 is m.
const _: () = assert!(is_nearest_end(QAM16_LOW_END, 15 * QAM16_M));
const _: () = assert!(is_nearest_end(QAM16_HIGH_END, 17 * QAM16_M));

/// Bits a carrier holds, or None for a modulation that is not defined (000, Table 14).
pub const fn bits_per_carrier(modulation: u64) -> Option<usize> {
    match modulation {
        BPSK => Some(1),
        QPSK => Some(2),
        QAM16 => Some(4),
        _ => None,
    }
}

/// BPSK and QPSK: 0 gives −1, 1 gives +1.
const fn two_levels(bit: u8) -> f64 {
    if bit == 0 {
        -1.0
    } else {
        1.0
    }
}

/// 16QAM (000, Table 15; D1): high and low bit of 01, 00, 10, 11 give −3, −1, +1, +3. So the high
/// bit is the sign and the low bit is 1 on the outer levels.
const fn four_levels(low: u8, high: u8) -> f64 {
    match (high, low) {
        (0, 1) => -3.0,
        (0, _) => -1.0,
        (_, 0) => 1.0,
        (_, _) => 3.0,
    }
}

/// The point for the bits of one carrier, d0 first: 3 for an undefined modulation, 4 with a wrong
/// count of bits, 6 with the lowest index of an item that is not 0 or 1.
pub fn map(modulation: u64, bits: &[u8]) -> Result<Point, Report> {
    let Some(count) = bits_per_carrier(modulation) else {
        return Err(Report::refused(number::MODE, 0));
    };
    if bits.len() != count {
        return Err(Report::refused(number::INPUT, bits.len() as u64));
    }
    if let Some(index) = bits.iter().position(|&bit| bit > 1) {
        return Err(Report::refused(number::ITEM, index as u64));
    }
    let (i, q, factor) = match modulation {
        BPSK => (two_levels(bits[0]), 0.0, BPSK_FACTOR),
        QPSK => (two_levels(bits[0]), two_levels(bits[1]), QPSK_FACTOR),
        _ => (
            four_levels(bits[0], bits[1]),
            four_levels(bits[2], bits[3]),
            QAM16_FACTOR,
        ),
    };
    Ok(Point {
        i: i * factor,
        q: q * factor,
    })
}

/// One bit by the sign; 2 for a coordinate that is at most f/8 in size or not finite.
fn slice_two(x: f64, eighth: f64) -> u8 {
    if x.abs() <= eighth || !x.is_finite() {
        2
    } else {
        u8::from(x > 0.0)
    }
}

/// Low and high bit of a 16QAM axis, both 2 where it is lost; so about 2f too, where the sign is
/// plain. Sizes are held against the ends, since these lie further from 2f than f/8 (D14).
fn slice_four(x: f64) -> [u8; 2] {
    let high = slice_two(x, QAM16_EIGHTH);
    let size = x.abs();
    if high == 2 || (QAM16_LOW_END..=QAM16_HIGH_END).contains(&size) {
        [2, 2]
    } else {
        [u8::from(size > QAM16_HIGH_END), high]
    }
}

/// The items a received carrier gives; 3 for an undefined modulation.
pub fn slice(modulation: u64, received: Received) -> Result<Items, Report> {
    let Some(count) = bits_per_carrier(modulation) else {
        return Err(Report::refused(number::MODE, 0));
    };
    Ok(match received {
        Received::Lost => Items::new(&[2; 4][..count]),
        Received::Heard(i, q) => match modulation {
            BPSK => Items::new(&[slice_two(i, BPSK_EIGHTH)]),
            QPSK => Items::new(&[slice_two(i, QPSK_EIGHTH), slice_two(q, QPSK_EIGHTH)]),
            _ => {
                let ([d0, d1], [d2, d3]) = (slice_four(i), slice_four(q));
                Items::new(&[d0, d1, d2, d3])
            }
        },
    })
}

#[cfg(test)]
mod tests {
    use super::*;
    use crate::cases::all_bits;

    #[test]
    fn factors_have_the_bits_d13_prints() {
        assert_eq!(QPSK_FACTOR.to_bits(), 0x3fe6_a09e_667f_3bcd);
        assert_eq!(QAM16_FACTOR.to_bits(), 0x3fd4_3d13_6248_490f);
    }

    #[test]
    fn edges_have_their_bits() {
        let edges = [
            BPSK_EIGHTH,
            QPSK_EIGHTH,
            QAM16_EIGHTH,
            QAM16_LOW_END,
            QAM16_HIGH_END,
        ];
        // An eighth has 3 less in the exponent than 1 and the factors of D13; the ends are D14's.
        let bits = [
            0x3fc0_0000_0000_0000,
            0x3fb6_a09e_667f_3bcd,
            0x3fa4_3d13_6248_490f,
            0x3fe2_f942_2c23_c47e,
            0x3fe5_80e4_986c_cda0,
        ];
        assert_eq!(edges.map(f64::to_bits), bits);
        assert_eq!(EDGES.map(f64::to_bits), bits);
    }

    #[test]
    fn nearness_is_judged_by_both_neighbours() {
        // Neighbours are 8 parts below 1/2, 16 above it and 16 to either side of 3/4; half of that
        // is too far.
        for (end, exact, below, above) in [(0.5, 1 << 56, 4, 8), (0.75, 3 << 55, 8, 8)] {
            assert!(is_nearest_end(end, exact - below + 1));
            assert!(!is_nearest_end(end, exact - below));
            assert!(is_nearest_end(end, exact + above - 1));
            assert!(!is_nearest_end(end, exact + above));
        }
    }

    #[test]
    fn every_point_is_sliced_to_its_bits() {
        for modulation in [BPSK, QPSK, QAM16] {
            let count = bits_per_carrier(modulation).unwrap();
            for bits in all_bits(count) {
                let point = map(modulation, &bits).unwrap();
                let items = slice(modulation, Received::Heard(point.i, point.q)).unwrap();
                assert_eq!(items.as_slice(), bits);
            }
        }
    }

    #[test]
    fn levels_and_labels() {
        assert_eq!(map(BPSK, &[0]).unwrap(), Point { i: -1.0, q: 0.0 });
        assert!(map(BPSK, &[0]).unwrap().q.is_sign_positive());
        let f = QPSK_FACTOR;
        assert_eq!(map(QPSK, &[1, 0]).unwrap(), Point { i: f, q: -f });
        // d1d0 of 01, 00, 10, 11 give −3, −1, +1, +3.
        let f = QAM16_FACTOR;
        let axis = [([1, 0], -3.0), ([0, 0], -1.0), ([0, 1], 1.0), ([1, 1], 3.0)];
        for (d, i) in axis {
            for (e, q) in axis {
                let point = map(QAM16, &[d[0], d[1], e[0], e[1]]).unwrap();
                assert_eq!(point, Point { i: i * f, q: q * f });
            }
        }
    }

    #[test]
    fn an_axis_is_lost_alone() {
        let f = QAM16_FACTOR;
        let two = 2.0 * f;
        let above = f64::from_bits(two.to_bits() + 1);
        let below = f64::from_bits(two.to_bits() - 1);
        let sliced = |i, q| {
            slice(QAM16, Received::Heard(i, q))
                .unwrap()
                .as_slice()
                .to_vec()
        };
        assert_eq!(sliced(two, f), [2, 2, 0, 1]);
        assert_eq!(sliced(-f, -two), [0, 0, 2, 2]);
        assert_eq!(sliced(above, below), [2, 2, 2, 2]);
        assert_eq!(sliced(-above, -below), [2, 2, 2, 2]);
        for lost in [0.0, -0.0, f64::NAN, f64::INFINITY, f64::NEG_INFINITY] {
            assert_eq!(sliced(lost, f), [2, 2, 0, 1]);
            assert_eq!(
                slice(QPSK, Received::Heard(1.0, lost)).unwrap().as_slice(),
                [1, 2]
            );
            assert_eq!(
                slice(BPSK, Received::Heard(lost, 1.0)).unwrap().as_slice(),
                [2]
            );
            assert_eq!(
                slice(BPSK, Received::Heard(-1.0, lost)).unwrap().as_slice(),
                [0]
            );
        }
        let least = f64::from_bits(1);
        assert_eq!(sliced(least, -least), [2, 2, 2, 2]);
        assert_eq!(sliced(f64::MAX, f64::MIN), [1, 1, 1, 0]);
    }

    /// The items of an axis, first for a positive coordinate, then for a negative one.
    type BySign = [&'static [u8]; 2];
    const LOST: BySign = [&[2], &[2]];
    const SIGN: BySign = [&[1], &[0]];
    const BOTH_LOST: BySign = [&[2, 2], &[2, 2]];
    const INNER: BySign = [&[0, 1], &[0, 0]];
    const OUTER: BySign = [&[1, 1], &[1, 0]];

    /// The bits of sizes, and what they give in BPSK, QPSK and 16QAM.
    const SIZES: [(u64, [BySign; 3]); 27] = [
        (0, [LOST, LOST, BOTH_LOST]),
        (1, [LOST, LOST, BOTH_LOST]),
        // f/8 of 16QAM.
        (0x3fa4_3d13_6248_490e, [LOST, LOST, BOTH_LOST]),
        (0x3fa4_3d13_6248_490f, [LOST, LOST, BOTH_LOST]),
        (0x3fa4_3d13_6248_4910, [LOST, LOST, INNER]),
        // f/8 of QPSK.
        (0x3fb6_a09e_667f_3bcc, [LOST, LOST, INNER]),
        (0x3fb6_a09e_667f_3bcd, [LOST, LOST, INNER]),
        (0x3fb6_a09e_667f_3bce, [LOST, SIGN, INNER]),
        // f/8 of BPSK.
        (0x3fbf_ffff_ffff_ffff, [LOST, SIGN, INNER]),
        (0x3fc0_0000_0000_0000, [LOST, SIGN, INNER]),
        (0x3fc0_0000_0000_0001, [SIGN, SIGN, INNER]),
        // f of 16QAM.
        (0x3fd4_3d13_6248_490f, [SIGN, SIGN, INNER]),
        // The low end, 2f and the high end.
        (0x3fe2_f942_2c23_c47d, [SIGN, SIGN, INNER]),
        (0x3fe2_f942_2c23_c47e, [SIGN, SIGN, BOTH_LOST]),
        (0x3fe2_f942_2c23_c47f, [SIGN, SIGN, BOTH_LOST]),
        (0x3fe4_3d13_6248_490e, [SIGN, SIGN, BOTH_LOST]),
        (0x3fe4_3d13_6248_490f, [SIGN, SIGN, BOTH_LOST]),
        (0x3fe4_3d13_6248_4910, [SIGN, SIGN, BOTH_LOST]),
        (0x3fe5_80e4_986c_cd9f, [SIGN, SIGN, BOTH_LOST]),
        (0x3fe5_80e4_986c_cda0, [SIGN, SIGN, BOTH_LOST]),
        (0x3fe5_80e4_986c_cda1, [SIGN, SIGN, OUTER]),
        // 1, the largest finite number, infinity and NaNs.
        (0x3ff0_0000_0000_0000, [SIGN, SIGN, OUTER]),
        (0x7fef_ffff_ffff_ffff, [SIGN, SIGN, OUTER]),
        (0x7ff0_0000_0000_0000, [LOST, LOST, BOTH_LOST]),
        (0x7ff0_0000_0000_0001, [LOST, LOST, BOTH_LOST]),
        (0x7ff8_0000_0000_0000, [LOST, LOST, BOTH_LOST]),
        (0x7fff_ffff_ffff_ffff, [LOST, LOST, BOTH_LOST]),
    ];

    /// Every size with both signs, and its items in a modulation.
    fn coordinates(modulation: u64) -> impl Iterator<Item = (f64, &'static [u8])> {
        SIZES.iter().flat_map(move |&(bits, items)| {
            let [plus, minus] = items[modulation as usize];
            let negative = f64::from_bits(bits | 1 << 63);
            [(f64::from_bits(bits), plus), (negative, minus)]
        })
    }

    #[test]
    fn each_axis_gives_its_items_whatever_the_other_is() {
        for modulation in [BPSK, QPSK, QAM16] {
            for (i, of_i) in coordinates(modulation) {
                for (q, of_q) in coordinates(modulation) {
                    let items = slice(modulation, Received::Heard(i, q)).unwrap();
                    let of_q = if modulation == BPSK { &[] } else { of_q };
                    let (right, at) = ([of_i, of_q].concat(), [i, q].map(f64::to_bits));
                    assert_eq!(items.as_slice(), right, "{modulation} {at:x?}");
                }
            }
        }
    }

    #[test]
    fn refusals() {
        for modulation in [3, 4, u64::MAX] {
            assert_eq!(map(modulation, &[7]), Err(Report::refused(3, 0)));
            assert_eq!(
                slice(modulation, Received::Lost),
                Err(Report::refused(3, 0))
            );
        }
        assert_eq!(map(QPSK, &[9]), Err(Report::refused(4, 1)));
        assert_eq!(map(QAM16, &[0, 2, 1, 255]), Err(Report::refused(6, 1)));
        for modulation in [BPSK, QPSK, QAM16] {
            let lost = slice(modulation, Received::Lost).unwrap();
            assert_eq!(
                lost.as_slice(),
                vec![2; bits_per_carrier(modulation).unwrap()]
            );
        }
    }
}
