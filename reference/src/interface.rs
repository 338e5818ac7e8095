//! The calls of the C interface (hplc.h) over this reference. Lent buffers are
//! slices; what the C side stores behind `value` comes back in the report.

pub use crate::card::CARD_FIELDS;
use crate::card::{self, Fields};
use crate::carriers::{self, Place, SubCarrier};
use crate::entries;
use crate::points::{self, Received};
use crate::{number, Report};

/// How many coordinates a point has.
pub const COORDINATES: usize = 2;

/// Puts a whole answer at the front of the output, or refuses by 5 with its length.
fn put<T: Copy>(answer: &[T], out: &mut [T]) -> Report {
    match out.get_mut(..answer.len()) {
        Some(front) => {
            front.copy_from_slice(answer);
            Report::done(answer.len())
        }
        None => Report::refused(number::OUTPUT, answer.len() as u64),
    }
}

/// A number that was asked for, or the refusal.
fn found(answer: Result<u64, Report>) -> Report {
    answer.map_or_else(
        |refusal| refusal,
        |value| Report::new(number::DONE, [value, 0]),
    )
}

/// `hplc_card_read`: version, band, kind, rate, modulation, taps, spare, serial, blocks, copies.
pub fn card_read(card: &[u8], fields: &mut [u64]) -> Report {
    match card::read(card) {
        Ok(card) => put(&card.fields().to_array(), fields),
        Err(refusal) => refusal,
    }
}

/// `hplc_card_write`, its fields in the order of `card_read`.
pub fn card_write(fields: &[u64; CARD_FIELDS], out: &mut [u8]) -> Report {
    card::write(&Fields::from_array(*fields), out)
}

/// `hplc_card_move`.
pub fn card_move(card: &[u8], version: u64, out: &mut [u8]) -> Report {
    card::move_to(card, version, out)
}

/// `hplc_card_text`.
pub fn card_text(card: &[u8], out: &mut [u8]) -> Report {
    put(card::text(card).as_bytes(), out)
}

/// `hplc_map`: the bits of the coordinates I and Q. Row order puts 5 between points' 4 and 6.
pub fn map(modulation: u64, bits: &[u8], point: &mut [u64]) -> Report {
    match points::map(modulation, bits) {
        Ok(mapped) => put(&[mapped.i.to_bits(), mapped.q.to_bits()], point),
        Err(refusal) if refusal.number == number::ITEM && point.len() < COORDINATES => {
            Report::refused(number::OUTPUT, COORDINATES as u64)
        }
        Err(refusal) => refusal,
    }
}

/// `hplc_slice`: `heard` 0 is a lost carrier, any other value one heard at (i, q).
pub fn slice(modulation: u64, heard: u64, i: f64, q: f64, items: &mut [u8]) -> Report {
    let received = if heard == 0 {
        Received::Lost
    } else {
        Received::Heard(i, q)
    };
    match points::slice(modulation, received) {
        Ok(sliced) => put(sliced.as_slice(), items),
        Err(refusal) => refusal,
    }
}

/// `hplc_place_of_sub_carrier`.
pub fn place_of_sub_carrier(band: u64, sub_carrier: u64) -> Report {
    found(carriers::place_of(band, SubCarrier(sub_carrier)).map(|place| place.0))
}

/// `hplc_sub_carrier_of_place`.
pub fn sub_carrier_of_place(band: u64, place: u64) -> Report {
    found(carriers::sub_carrier_of(band, Place(place)).map(|sub_carrier| sub_carrier.0))
}

/// The four entries.
#[derive(Clone, Copy, Debug, PartialEq, Eq)]
pub enum Entry {
    FcSend,
    FcRead,
    PayloadSend,
    PayloadRead,
}

impl Entry {
    pub const ALL: [Entry; 4] = [
        Entry::FcSend,
        Entry::FcRead,
        Entry::PayloadSend,
        Entry::PayloadRead,
    ];

    /// The entry that sends a kind of card and the one that reads it.
    pub const fn of_kind(kind: u8) -> (Entry, Entry) {
        if kind == 0 {
            (Entry::FcSend, Entry::FcRead)
        } else {
            (Entry::PayloadSend, Entry::PayloadRead)
        }
    }

    /// The C function's name.
    pub const fn name(self) -> &'static str {
        match self {
            Entry::FcSend => "hplc_fc_send",
            Entry::FcRead => "hplc_fc_read",
            Entry::PayloadSend => "hplc_payload_send",
            Entry::PayloadRead => "hplc_payload_read",
        }
    }

    pub const fn sends(self) -> bool {
        matches!(self, Entry::FcSend | Entry::PayloadSend)
    }

    /// The call itself.
    pub fn call(self, card: &[u8], input: &[u8], out: &mut [u8]) -> Report {
        match self {
            Entry::FcSend => entries::fc_send(card, input, out),
            Entry::FcRead => entries::fc_read(card, input, out),
            Entry::PayloadSend => entries::payload_send(card, input, out),
            Entry::PayloadRead => entries::payload_read(card, input, out),
        }
    }
}

#[cfg(test)]
mod tests {
    use super::*;
    use crate::card::{pack, Version};
    use crate::cases::{EXAMPLE, SECOND_EXAMPLE};

    #[test]
    fn fields_of_the_example_and_back() {
        for (example, version) in [(EXAMPLE, Version::One), (SECOND_EXAMPLE, Version::Two)] {
            let mut fields = [7; 11];
            let bytes = pack(&example, version);
            assert_eq!(card_read(&bytes, &mut fields), Report::done(10));
            assert_eq!(fields[..10], example.to_array());
            assert_eq!(fields[10], 7);
            let mut card = vec![0; version.bytes()];
            let report = card_write(&example.to_array(), &mut card);
            assert_eq!((report, card), (Report::done(version.bytes()), bytes));
        }
    }

    #[test]
    fn fields_stand_in_their_order() {
        let mut fields = [7; 10];
        // Band 3, kind 1, rate 1/2, 16QAM, taps 1; then one block and one copy; then the serial.
        let card = [0x2C, 0xA0, 0x02, 0, 0, 0, 0, 0, 0, 0, 2, 3];
        assert_eq!(card_read(&card, &mut fields), Report::done(10));
        assert_eq!(fields, [2, 3, 1, 0, 2, 1, 0, 515, 1, 1]);
    }

    #[test]
    fn the_example_moves_to_version_2_and_back() {
        let first = pack(&EXAMPLE, Version::One);
        let second = pack(&SECOND_EXAMPLE, Version::Two);
        let mut out = [7; 13];
        assert_eq!(card_move(&first, 2, &mut out), Report::done(12));
        assert_eq!(out[..12], second);
        assert_eq!(out[12], 7);
        let mut out = [7; 12];
        assert_eq!(card_move(&second, 1, &mut out), Report::done(11));
        assert_eq!(out[..11], first);
        assert_eq!(out[11], 7);
        let mut out = [7; 11];
        assert_eq!(card_move(&second, 2, &mut out), Report::refused(5, 12));
        assert_eq!(card_move(&first, 3, &mut out), Report::refused(2, 0));
        assert_eq!(out, [7; 11]);
    }

    #[test]
    fn room_is_judged_after_the_card_and_before_the_items() {
        let example = pack(&EXAMPLE, Version::One);
        for room in 7..10 {
            let mut fields = vec![7; room];
            assert_eq!(card_read(&example, &mut fields), Report::refused(5, 10));
            assert_eq!(
                card_read(&example[..10], &mut fields),
                Report::refused(1, 10)
            );
            assert_eq!(fields, vec![7; room]);
        }

        let mut text = [7; 200];
        let length = card::text(&example).len();
        let short = card_text(&example, &mut text[..length - 1]);
        assert_eq!(short, Report::refused(5, length as u64));
        assert_eq!(card_text(&[], &mut text[..9]), Report::refused(5, 10));
        assert_eq!(text, [7; 200]);
        assert_eq!(card_text(&[], &mut text), Report::done(10));
        assert_eq!(&text[..11], b"refused 1\n\x07");

        let mut point = [7; 2];
        assert_eq!(map(1, &[0], &mut point[..1]), Report::refused(4, 1));
        assert_eq!(map(1, &[0, 9], &mut point[..1]), Report::refused(5, 2));
        assert_eq!(map(1, &[0, 9], &mut point), Report::refused(6, 1));
        assert_eq!(point, [7; 2]);
        assert_eq!(map(0, &[1], &mut point), Report::done(2));
        assert_eq!(point, [1f64.to_bits(), 0]);

        let mut items = [7; 4];
        assert_eq!(slice(3, 1, 1.0, 1.0, &mut []), Report::refused(3, 0));
        let short = slice(2, 0, 1.0, 1.0, &mut items[..3]);
        assert_eq!(short, Report::refused(5, 4));
        assert_eq!(items, [7; 4]);
        assert_eq!(slice(1, 256, 1.0, -1.0, &mut items), Report::done(2));
        assert_eq!(items, [1, 0, 7, 7]);
    }

    #[test]
    fn numbers_asked_for_come_as_the_value() {
        let found = place_of_sub_carrier(0, 490);
        assert_eq!((found.number, found.value, found.second), (0, 410, 0));
        let found = sub_carrier_of_place(1, 130);
        assert_eq!((found.number, found.value, found.second), (0, 230, 0));
        assert_eq!(sub_carrier_of_place(1, 131), Report::refused(4, 131));
        assert_eq!(place_of_sub_carrier(4, 131), Report::refused(3, 0));
    }
}
