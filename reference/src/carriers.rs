//! Bands, lanes and the majority (01, "Carriers"; 02, T-01; 000, 5.1.4.4 and Table 21; 004, 5.1.4.4
//! and 5.1.7.4; D8, D12, D15, D25).

use crate::{number, Report};

/// The number of a sub-carrier.
#[derive(Clone, Copy, Debug, PartialEq, Eq)]
pub struct SubCarrier(pub u64);

/// A place in a band's list of usable sub-carriers, from 0.
#[derive(Clone, Copy, Debug, PartialEq, Eq)]
pub struct Place(pub u64);

/// A band: its first sub-carrier, how many it has, its frame-control symbols, and the fewest copies
/// that a coded bit of these has, which is the number of demand 3.
#[derive(Clone, Copy, Debug, PartialEq, Eq)]
pub struct Band {
    pub first: u16,
    pub places: usize,
    pub symbols: usize,
    pub fewest_copies: usize,
}

/// The bands by their numbers, each with its first and last sub-carrier.
pub const BANDS: [Band; 4] = [
    Band::new(80, 490, 4, 12),
    Band::new(100, 230, 12, 12),
    Band::new(32, 120, 12, 7),
    Band::new(72, 120, 12, 3),
];

/// The band of a number; 3 where none is defined.
fn band(number: u64) -> Result<Band, Report> {
    let band = usize::try_from(number).ok().and_then(|n| BANDS.get(n));
    band.copied().ok_or(Report::refused(number::MODE, 0))
}

/// The place of a sub-carrier in a band; 3 for an undefined band, 4 with a number outside it.
pub fn place_of(band_number: u64, sub_carrier: SubCarrier) -> Result<Place, Report> {
    let band = band(band_number)?;
    match sub_carrier.0.checked_sub(u64::from(band.first)) {
        Some(place) if place < band.places as u64 => Ok(Place(place)),
        _ => Err(Report::refused(number::INPUT, sub_carrier.0)),
    }
}

/// The sub-carrier at a place of a band; 3 for an undefined band, 4 with a number outside it.
pub fn sub_carrier_of(band_number: u64, place: Place) -> Result<SubCarrier, Report> {
    let band = band(band_number)?;
    if place.0 < band.places as u64 {
        Ok(SubCarrier(u64::from(band.first) + place.0))
    } else {
        Err(Report::refused(number::INPUT, place.0))
    }
}

/// Coded bits of a frame control.
pub const FRAME_CONTROL_BITS: usize = 256;

/// The offsets o of the frame-control symbols, the first symbol's first.
const OFFSETS: [u8; 12] = [0, 192, 160, 96, 144, 80, 48, 240, 24, 184, 136, 40];

/// The coded bits on lanes I and Q at a place, for symbols counted from 1. All sums are mod 256,
/// so the place goes in as a byte (D8).
pub fn lanes(symbol: usize, place: usize) -> (u8, u8) {
    let i = (place as u8).wrapping_add(OFFSETS[symbol - 1]);
    (i, i.wrapping_add(128))
}

impl Band {
    const fn new(first: u16, last: u16, symbols: usize, fewest_copies: usize) -> Band {
        Band {
            first,
            places: (last - first + 1) as usize,
            symbols,
            fewest_copies,
        }
    }

    /// The items of a frame control.
    pub const fn frame_control_items(&self) -> usize {
        2 * self.places * self.symbols
    }

    /// Calls `visit(item, bit)` for each item of a frame control: by symbol, place, I then Q.
    pub fn for_each_lane(&self, mut visit: impl FnMut(usize, usize)) {
        let mut item = 0;
        for symbol in 1..=self.symbols {
            for place in 0..self.places {
                let (i, q) = lanes(symbol, place);
                visit(item, usize::from(i));
                visit(item + 1, usize::from(q));
                item += 2;
            }
        }
    }

    /// How many copies each coded bit of a frame control has.
    pub fn copies(&self) -> [usize; FRAME_CONTROL_BITS] {
        let mut copies = [0; FRAME_CONTROL_BITS];
        self.for_each_lane(|_, bit| copies[bit] += 1);
        copies
    }
}

/// Index of the first received item that is not 0, 1 or 2.
pub fn first_illegal(items: &[u8]) -> Option<usize> {
    items.iter().position(|&item| item > 2)
}

/// The copies heard of each coded bit: ones less zeros.
pub type Balance = i16;

/// What a legal received item adds to its bit's balance; a lost one adds nothing.
pub const fn vote(item: u8) -> Balance {
    match item {
        0 => -1,
        1 => 1,
        _ => 0,
    }
}

/// Decides every bit by strict majority, or gives the lowest bit that has none.
pub fn decide(balances: &[Balance], bits: &mut [u8]) -> Result<(), usize> {
    for (n, (bit, &balance)) in bits.iter_mut().zip(balances).enumerate() {
        if balance == 0 {
            return Err(n);
        }
        *bit = u8::from(balance > 0);
    }
    Ok(())
}

#[cfg(test)]
mod tests {
    use super::*;

    #[test]
    fn places_and_sub_carriers() {
        for (number, first, last) in [(0, 80, 490), (1, 100, 230), (2, 32, 120), (3, 72, 120)] {
            for sub in 0..1000 {
                let place = place_of(number, SubCarrier(sub));
                if (first..=last).contains(&sub) {
                    assert_eq!(place, Ok(Place(sub - first)));
                    assert_eq!(
                        sub_carrier_of(number, Place(sub - first)),
                        Ok(SubCarrier(sub))
                    );
                } else {
                    assert_eq!(place, Err(Report::refused(4, sub)));
                }
            }
            let count = last - first + 1;
            assert_eq!(
                sub_carrier_of(number, Place(count)),
                Err(Report::refused(4, count))
            );
        }
        let top = u64::MAX;
        assert_eq!(place_of(0, SubCarrier(top)), Err(Report::refused(4, top)));
        assert_eq!(sub_carrier_of(1, Place(top)), Err(Report::refused(4, top)));
        for number in [4, 5, 1 << 32, top] {
            assert_eq!(
                place_of(number, SubCarrier(9999)),
                Err(Report::refused(3, 0))
            );
            assert_eq!(
                sub_carrier_of(number, Place(9999)),
                Err(Report::refused(3, 0))
            );
        }
    }

    #[test]
    fn offsets_of_q_are_those_000_prints() {
        // 000, 5.1.4.4: the offsets of lane Q, symbol by symbol.
        let q = [128, 64, 32, 224, 16, 208, 176, 112, 152, 56, 8, 168];
        for (n, &offset) in q.iter().enumerate() {
            assert_eq!(lanes(n + 1, 0).1, offset);
            assert_eq!(lanes(n + 1, 256).1, offset);
        }
    }

    #[test]
    fn lanes_are_visited_in_the_order_of_their_items() {
        for band in &BANDS {
            let mut count = 0;
            band.for_each_lane(|item, _| {
                assert_eq!(item, count);
                count += 1;
            });
            assert_eq!(count, band.frame_control_items());
        }
    }

    #[test]
    fn majority_is_strict_and_the_lowest_bit_without_is_named() {
        let mut bits = [9; 3];
        assert_eq!(decide(&[1, -3, 2], &mut bits), Ok(()));
        assert_eq!(bits, [1, 0, 1]);
        assert_eq!(decide(&[1, 0, 0], &mut bits), Err(1));
        assert_eq!([vote(0), vote(1), vote(2)], [-1, 1, 0]);
    }
}
