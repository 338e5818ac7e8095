//! Shuffling before the carriers (01, "Shuffling before the carriers"; 000, 5.1.5.4; D2 to D4).

use crate::turbo;

/// The most coded bits: 520 bytes at rate 1/2.
pub const MAX_CODED: usize = 8320;

/// Data bits of a block.
pub const fn data_bits(kind: u8) -> usize {
    8 * turbo::SIZES[kind as usize].bytes
}

/// Coded bits of a block: data bits and kept parity bits.
pub const fn coded_bits(kind: u8, rate: u8) -> usize {
    data_bits(kind) + turbo::kept_parity(kind, rate)
}

/// Offset and step of 000, Table 11 (D3).
const fn offset_and_step(kind: u8, rate: u8) -> (usize, usize) {
    match (kind, rate) {
        (0, _) => (16, 4),
        (1, _) => (72, 16),
        (2, _) => (136, 16),
        (3, _) => (264, 16),
        (_, 0) => (520, 16),
        (_, _) => (60, 11),
    }
}

/// Rows of four columns in the order in which they are read.
struct Rows {
    /// Number of the matrix's first bit in "data bits then kept parity bits".
    base: usize,
    count: usize,
    step: usize,
    offset: usize,
    /// The row to be read next, before it is moved up by the offset.
    at: usize,
    /// The pass being read, or None where the row pointer is not set anew after a round.
    pass: Option<usize>,
}

impl Rows {
    /// Data: pass j takes j, j + step and so on below the row count (000, 5.1.5.4.2).
    fn of_data(kind: u8, rate: u8) -> Rows {
        let (_, step) = offset_and_step(kind, rate);
        Rows {
            base: 0,
            count: data_bits(kind) / 4,
            step,
            offset: 0,
            at: 0,
            pass: Some(0),
        }
    }

    /// Parity: at rate 1/2 likewise, each row moved up by the offset; at 16/18 the rows are read
    /// on without a restart (000, 5.1.5.4.3; D2).
    fn of_parity(kind: u8, rate: u8) -> Rows {
        let (offset, step) = offset_and_step(kind, rate);
        let pass = if rate == 0 { Some(0) } else { None };
        let count = turbo::kept_parity(kind, rate) / 4;
        Rows {
            base: data_bits(kind),
            count,
            step,
            offset,
            at: 0,
            pass,
        }
    }

    /// Number of the next row's bit in the first column; the other three follow `count` apart.
    fn next(&mut self) -> usize {
        let moved = self.at + self.offset;
        let row = if moved < self.count {
            moved
        } else {
            moved - self.count
        };
        self.at += self.step;
        if self.at >= self.count {
            self.at = match &mut self.pass {
                Some(pass) => {
                    *pass += 1;
                    *pass
                }
                None => self.at - self.count,
            };
        }
        self.base + row
    }
}

#[derive(Clone, Copy, PartialEq)]
enum Source {
    Data,
    Parity,
}

/// The order of nibbles in a group (000, 5.1.5.4.4; D4).
const fn group(rate: u8) -> &'static [Source] {
    use Source::{Data, Parity};
    if rate == 0 {
        &[Data, Parity]
    } else {
        &[Data, Data, Data, Parity, Data, Data, Data, Data, Data]
    }
}

/// How many places nibble n of the joined stream is rotated right (000, 5.1.5.4.5).
pub const fn turn(n: usize) -> usize {
    n / 2 % 4
}

/// Calls `visit(coded, from)` for each coded bit in order, where `from` is the number of the bit
/// of "data bits then kept parity bits" that it is.
pub fn for_each_coded(kind: u8, rate: u8, mut visit: impl FnMut(usize, usize)) {
    let mut data = Rows::of_data(kind, rate);
    let mut parity = Rows::of_parity(kind, rate);
    let mut nibble = 0;
    for _ in 0..coded_bits(kind, rate) / (4 * group(rate).len()) {
        for &source in group(rate) {
            let rows = if source == Source::Data {
                &mut data
            } else {
                &mut parity
            };
            let first = rows.next();
            for k in 0..4 {
                // Rotated right by `turn`, place k holds what stood that many places before.
                let column = (k + 4 - turn(nibble)) % 4;
                visit(4 * nibble + k, first + column * rows.count);
            }
            nibble += 1;
        }
    }
}

/// From "data bits then kept parity bits" to coded bits, one bit to a byte.
pub fn shuffle(kind: u8, rate: u8, bits: &[u8], coded: &mut [u8]) {
    for_each_coded(kind, rate, |to, from| coded[to] = bits[from]);
}

/// From coded bits back to "data bits then kept parity bits".
pub fn unshuffle(kind: u8, rate: u8, coded: &[u8], bits: &mut [u8]) {
    for_each_coded(kind, rate, |to, from| bits[from] = coded[to]);
}

#[cfg(test)]
mod tests {
    use super::*;

    const CODINGS: [(u8, u8); 6] = [(0, 0), (1, 0), (2, 0), (3, 0), (4, 0), (4, 1)];

    fn order(kind: u8, rate: u8) -> Vec<usize> {
        let mut order = Vec::new();
        for_each_coded(kind, rate, |to, from| {
            assert_eq!(to, order.len());
            order.push(from);
        });
        order
    }

    #[test]
    fn every_bit_goes_out_once() {
        for (kind, rate) in CODINGS {
            let mut order = order(kind, rate);
            order.sort_unstable();
            assert!(order.into_iter().eq(0..coded_bits(kind, rate)));
        }
        let counts: Vec<usize> = CODINGS.iter().map(|&(k, r)| coded_bits(k, r)).collect();
        assert_eq!(counts, [256, 1152, 2176, 4224, 8320, 4680]);
    }

    #[test]
    fn rows_are_read_as_the_paper_says() {
        for (kind, rate) in CODINGS {
            let (offset, step) = offset_and_step(kind, rate);
            let passes = |rows: usize| (0..step).flat_map(move |j| (j..rows).step_by(step));
            let data_rows = data_bits(kind) / 4;
            let parity_rows = turbo::kept_parity(kind, rate) / 4;

            let mut rows = Rows::of_data(kind, rate);
            let read: Vec<usize> = (0..data_rows).map(|_| rows.next()).collect();
            assert!(read.into_iter().eq(passes(data_rows)));

            let mut rows = Rows::of_parity(kind, rate);
            let read: Vec<usize> = (0..parity_rows)
                .map(|_| rows.next() - data_bits(kind))
                .collect();
            let expected: Vec<usize> = if rate == 0 {
                passes(parity_rows)
                    .map(|row| (row + offset) % parity_rows)
                    .collect()
            } else {
                (0..130).map(|i| (60 + 11 * i) % 130).collect()
            };
            assert_eq!(read, expected);
        }
    }

    #[test]
    fn nibbles_stand_in_groups_and_turn_over_the_joined_stream() {
        for (kind, rate) in CODINGS {
            let rows = |from: usize| {
                if from < data_bits(kind) {
                    data_bits(kind) / 4
                } else {
                    turbo::kept_parity(kind, rate) / 4
                }
            };
            for (n, nibble) in order(kind, rate).chunks(4).enumerate() {
                let is_parity = if rate == 0 { n % 2 == 1 } else { n % 9 == 3 };
                for (k, &from) in nibble.iter().enumerate() {
                    assert_eq!(from >= data_bits(kind), is_parity);
                    let within = if is_parity {
                        from - data_bits(kind)
                    } else {
                        from
                    };
                    // Bit b of the nibble comes from column b and goes out (n div 2) mod 4 later.
                    assert_eq!((within / rows(from) + n / 2) % 4, k);
                }
            }
        }
    }

    #[test]
    fn unshuffling_undoes_shuffling() {
        for (kind, rate) in CODINGS {
            let bits: Vec<u8> = (0..coded_bits(kind, rate))
                .map(|n| (n * n / 7 % 2) as u8)
                .collect();
            let mut coded = vec![9; bits.len()];
            shuffle(kind, rate, &bits, &mut coded);
            let mut back = vec![9; bits.len()];
            unshuffle(kind, rate, &coded, &mut back);
            assert_eq!(back, bits);
        }
    }
}
