//! The records of entries.bin: what they cover, and in which order. The same on every run.

use reference::card::{self, pack, Fields, Version};
use reference::cases::{
    all_bits, altered_and_lost, copied_modes, frame_controls, modes, with_byte, Mode, Random,
    Reception, AMPLE, CODINGS, EXAMPLE, SECOND_EXAMPLE,
};
use reference::copies::COPY_NUM;
use reference::interface::{Entry, CARD_FIELDS, COORDINATES};

use crate::labelled;
use crate::record::{slice_card, write_card, Call, Record};
use crate::text::{coordinates, modulations};

const SEED: u64 = 11612;
/// The seed of the records for the second card.
const SECOND_SEED: u64 = 2;
/// The seed of the records for copied payloads.
const COPIED_SEED: u64 = 6;

/// Taps that the modes use in turn.
const TAPS: [u16; 7] = [1095, 2047, 682, 1365, 731, 0, 1234];

/// The modes whose cards of version 2 are sent and read in every way.
const SECOND_MODES: [Mode; 2] = [Mode::frame_control(3), Mode::new(2, 1, 0, 2)];

/// Room for any printed card.
const TEXT_ROOM: usize = 200;

/// Versions asked for: both, and some that are none.
const ASKED: [u64; 7] = [1, 2, 0, 3, 16, (1 << 32) + 1, u64::MAX];

/// All records, the labelled ones first.
pub fn records() -> Vec<Record> {
    let mut maker = Maker {
        records: labelled::records(),
        random: Random::new(SEED),
        second: Random::new(SECOND_SEED),
    };
    for (n, mode) in modes().into_iter().enumerate() {
        maker.mode(Version::One, mode, TAPS[n % TAPS.len()]);
    }
    maker.for_second_card(|maker| {
        for (mode, taps) in SECOND_MODES.into_iter().zip(TAPS) {
            maker.mode(Version::Two, mode, taps);
        }
    });
    for mode in frame_controls() {
        maker.demand_3(mode);
        maker.without_taps(mode);
    }
    maker.without_taps(modes()[1]);
    maker.cards_at_the_entries();
    maker.for_second_card(Maker::second_cards_at_the_entries);
    maker.cards();
    maker.for_second_card(Maker::second_cards);
    maker.for_second_card(Maker::cards_written);
    maker.for_second_card(Maker::cards_moved);
    maker.points();
    maker.slices();
    maker.random = Random::new(COPIED_SEED);
    maker.copied_payloads();
    maker.copied_cards_at_the_entries();
    maker.copied_cards();
    maker.records
}

/// The records so far and the numbers they are made from.
struct Maker {
    records: Vec<Record>,
    random: Random,
    /// The numbers for the second card.
    second: Random,
}

impl Maker {
    fn add(&mut self, call: Call, card: &[u8], input: &[u8], room: usize) {
        self.records.push(Record::new("", call, card, input, room));
    }

    /// Records for the second card. They have numbers of their own, so that the others stay as they
    /// were without them.
    fn for_second_card(&mut self, make: impl FnOnce(&mut Maker)) {
        std::mem::swap(&mut self.random, &mut self.second);
        make(self);
        std::mem::swap(&mut self.random, &mut self.second);
    }

    /// A mode: sent, and read in each way.
    fn mode(&mut self, version: Version, mode: Mode, taps: u16) {
        let card = mode.card_of(version, taps, self.random.word());
        let block = self.random.bytes(mode.bytes());
        let reception = Reception::new(mode, card, block);
        self.sent(&reception);
        self.sent_wrongly(&reception);
        self.read(&reception);
        self.read_wrongly(&reception);
        self.damaged(&reception);
    }

    /// Done, with exact room, one more or ample.
    fn sent(&mut self, reception: &Reception) {
        let mode = reception.mode;
        let (send, needed) = (Call::Entry(mode.entries().0), mode.items());
        let ample = needed.max(AMPLE);
        let room = self.random.pick(&[needed, needed + 1, ample]);
        self.add(send, &reception.card, &reception.block, room);
    }

    /// Both sides of the length, then rooms that are too small.
    fn sent_wrongly(&mut self, reception: &Reception) {
        let (mode, card) = (reception.mode, &reception.card);
        let (send, needed) = (Call::Entry(mode.entries().0), mode.items());
        let mut longer = reception.block.clone();
        longer.push(0x5A);
        for length in [mode.bytes() - 1, mode.bytes() + 1] {
            self.add(send, card, &longer[..length], needed);
        }
        self.add(send, card, &[], needed);
        // Length goes before room.
        self.add(send, card, &longer, 0);
        self.add(send, card, &reception.block, needed - 1);
        self.add(send, card, &reception.block, 0);
    }

    /// Done, with exact room or one more.
    fn read(&mut self, reception: &Reception) {
        let mode = reception.mode;
        let room = mode.bytes() + self.random.below(2);
        let read = Call::Entry(mode.entries().1);
        self.add(read, &reception.card, &reception.items, room);
    }

    /// Both sides of the length, then rooms that are too small. The room depends on the kind alone,
    /// so one modulation will do.
    fn read_wrongly(&mut self, reception: &Reception) {
        let (mode, card) = (reception.mode, &reception.card);
        let (read, needed) = (Call::Entry(mode.entries().1), mode.bytes());
        let mut longer = reception.items.clone();
        longer.push(1);
        for length in [mode.items() - 1, mode.items() + 1] {
            self.add(read, card, &longer[..length], needed);
        }
        self.add(read, card, &[], needed);
        if mode.modulation == 1 {
            self.add(read, card, &reception.items, needed - 1);
        }
    }

    /// Damaged but decided, undecided, parity wrong, and an illegal item.
    fn damaged(&mut self, reception: &Reception) {
        for damage in [decided, undecided, parity_wrong, illegal] {
            let mut damaged = reception.clone();
            damage(&mut damaged, &mut self.random);
            self.read(&damaged);
        }
    }

    /// Damage of frame control below the limit of demand 3, at it, and bits that are lost, all of
    /// bits with the fewest copies.
    fn demand_3(&mut self, mode: Mode) {
        let reception = Reception::random(mode, &mut self.random);
        let (limit, rarest) = (mode.fewest_copies(), mode.rarest_bits());
        for below in [limit - 1, 2, 1, 1, 1, 0, 0] {
            let carriers = mode.carriers(self.random.pick(&rarest));
            let (altered, lost) = altered_and_lost(limit - below, &mut self.random);
            let mut damaged = reception.clone();
            damaged.damage_carriers(&carriers, altered, lost, &mut self.random);
            self.read(&damaged);
        }
        for bit in self.random.some_of(&rarest, 3) {
            let mut damaged = reception.clone();
            damaged.lose_bit(bit);
            self.read(&damaged);
        }
    }

    /// Without taps all parity is 0, and wrong data comes back as done.
    fn without_taps(&mut self, mode: Mode) {
        let block = self.random.bytes(mode.bytes());
        let mut reception = Reception::new(mode, mode.card(0, 0), block);
        let data = mode.coded_bits_of(false);
        for bit in self.random.some_of(&data, 3) {
            reception.flip_bit(bit);
        }
        self.read(&reception);
    }

    /// Cards that each entry refuses, with an input and a room that are wrong besides.
    fn cards_at_the_entries(&mut self) {
        for (entry, mode) in AT_THE_ENTRIES {
            let call = Call::Entry(entry);
            for card in spoilt_cards(mode.fields(Version::One, 731, 99)) {
                self.add(call, &card, &[7; 5], 3);
            }
            self.add(call, &not_served(mode, Version::One), &[0; 16], AMPLE);
            for length in 0..=40 {
                let card = self.random.bytes(length);
                self.add(call, &card, &[0; 16], AMPLE);
            }
        }
    }

    /// The same of cards of version 2, and of those that are refused because there are two.
    fn second_cards_at_the_entries(&mut self) {
        for (entry, mode) in AT_THE_ENTRIES {
            let call = Call::Entry(entry);
            for card in second_spoilt_cards(mode.fields(Version::Two, 731, 99)) {
                self.add(call, &card, &[7; 5], 3);
            }
            self.add(call, &not_served(mode, Version::Two), &[0; 16], AMPLE);
        }
    }

    /// A card read with exact room, and printed.
    fn card(&mut self, card: &[u8], text_room: usize) {
        self.add(Call::CardRead, card, &[], CARD_FIELDS);
        self.add(Call::CardText, card, &[], text_room);
    }

    /// Cards read and printed.
    fn cards(&mut self) {
        let good = good_cards(Version::One, &mut self.random);
        for card in &good {
            self.card(card, card::text(card).len());
        }
        for room in [0, 7, 9, 20] {
            self.add(Call::CardRead, &good[0], &[], room);
        }
        let text = card::text(&good[0]).len();
        for room in [0, text - 1, text + 1] {
            self.add(Call::CardText, &good[0], &[], room);
        }
        let mut bad = spoilt_cards(EXAMPLE);
        bad.extend(all_modes(Version::One));
        bad.extend((0..=64).map(|length| self.random.bytes(length)));
        for card in &bad {
            self.card(card, TEXT_ROOM);
        }
        self.add(Call::CardRead, &bad[0], &[], 0);
        for room in [9, 10, 11] {
            self.add(Call::CardText, &bad[0], &[], room);
        }
    }

    /// Cards of version 2 read and printed, those that are refused because there are two, and rooms
    /// about the ten fields.
    fn second_cards(&mut self) {
        let good = good_cards(Version::Two, &mut self.random);
        for card in &good {
            self.card(card, card::text(card).len());
        }
        let first = pack(&EXAMPLE, Version::One);
        for card in [&first, &good[0]] {
            for room in [8, 10, 11] {
                self.add(Call::CardRead, card, &[], room);
            }
        }
        let text = card::text(&good[0]).len();
        for room in [0, text - 1, text + 1] {
            self.add(Call::CardText, &good[0], &[], room);
        }
        let mut bad = second_spoilt_cards(SECOND_EXAMPLE);
        bad.extend(all_modes(Version::Two));
        bad.extend(all_bytes_3(SECOND_EXAMPLE));
        for card in &bad {
            self.card(card, TEXT_ROOM);
        }
        // A refusal by 10 is a byte longer than the others.
        for room in [10, 11, 12] {
            self.add(Call::CardText, &good[0][..11], &[], room);
        }
    }

    /// A card of each mode and version written, then every count about its ends.
    fn cards_written(&mut self) {
        for mode in modes() {
            for version in Version::ALL {
                let (taps, serial) = (self.random.below(2048) as u16, self.random.word());
                let room = version.bytes() + self.random.below(2);
                self.write(&mode.fields(version, taps, serial), room);
            }
        }
        for version in [1, 2] {
            for mode in [Mode::frame_control(0), Mode::new(0, 4, 1, 1)] {
                let good = Fields {
                    version,
                    ..mode.fields(Version::One, 731, 99)
                };
                for blocks in 0..=6 {
                    self.write(&Fields { blocks, ..good }, 12);
                }
                for copies in 0..=13 {
                    self.write(&Fields { copies, ..good }, 12);
                }
            }
        }
    }

    fn write(&mut self, fields: &Fields, room: usize) {
        self.add(Call::CardWrite, &write_card(fields), &[], room);
    }

    /// A card of each mode and version moved to both, rooms, then cards and versions that are
    /// refused.
    fn cards_moved(&mut self) {
        for mode in modes() {
            for version in Version::ALL {
                let (taps, serial) = (self.random.below(2048) as u16, self.random.word());
                let card = mode.card_of(version, taps, serial);
                for asked in Version::ALL {
                    let room = asked.bytes() + self.random.below(2);
                    self.move_to(&card, asked.number(), room);
                }
            }
        }
        let examples = [
            pack(&EXAMPLE, Version::One),
            pack(&SECOND_EXAMPLE, Version::Two),
        ];
        for card in &examples {
            for asked in ASKED {
                for room in [0, 10, 11, 12, 13] {
                    self.move_to(card, asked, room);
                }
            }
        }
        let mut bad = spoilt_cards(EXAMPLE);
        bad.extend(second_spoilt_cards(SECOND_EXAMPLE));
        bad.extend((0..=40).map(|length| self.random.bytes(length)));
        for card in &bad {
            for asked in [1, 2, 3] {
                self.move_to(card, asked, 12);
            }
        }
        for card in all_bytes_3(SECOND_EXAMPLE) {
            let asked = self.random.pick(&[1, 2]);
            self.move_to(&card, asked, 12);
        }
    }

    fn move_to(&mut self, card: &[u8], version: u64, room: usize) {
        self.add(Call::CardMove, card, &version.to_be_bytes(), room);
    }

    /// Every point, then bits that are illegal, too few or too many, and rooms.
    fn points(&mut self) {
        for (modulation, count) in modulations() {
            let card = [modulation as u8];
            for bits in all_bits(count) {
                let room = COORDINATES + usize::from(bits[0]);
                self.add(Call::Map, &card, &bits, room);
            }
            for (index, illegal) in (0..count).flat_map(|k| [2, 3, 128, 255].map(|b| (k, b))) {
                let mut bits = vec![1; count];
                bits[index..].fill(illegal);
                self.add(Call::Map, &card, &bits, COORDINATES);
                self.add(Call::Map, &card, &bits, COORDINATES - 1);
            }
            for length in 0..=9 {
                self.add(Call::Map, &card, &vec![1; length], COORDINATES);
            }
            self.add(Call::Map, &card, &vec![0; count], 0);
        }
        for modulation in [3, 4, 128, 255] {
            self.add(Call::Map, &[modulation], &[9; 3], 0);
            self.add(Call::Map, &[modulation], &[0, 1], COORDINATES);
        }
    }

    /// Every coordinate against every other, then other values of `heard`, rooms and undefined
    /// modulations.
    fn slices(&mut self) {
        for (modulation, count) in modulations() {
            let (modulation, x) = (modulation as u8, coordinates());
            for &i in &x {
                for &q in &x {
                    self.slice(modulation, 1, [i, q], count);
                }
            }
            for heard in [0, 2, 128, 255] {
                self.slice(modulation, heard, [1.0, -1.0], count + 1);
            }
            for room in 0..count {
                self.slice(modulation, 1, [1.0, -1.0], room);
            }
        }
        for modulation in [3, 4, 255] {
            self.slice(modulation, 1, [1.0, 1.0], 0);
            self.slice(modulation, 0, [1.0, 1.0], 4);
        }
    }

    fn slice(&mut self, modulation: u8, heard: u8, at: [f64; 2], room: usize) {
        let card = slice_card(modulation, heard, at);
        self.add(Call::Slice, &card, &[], room);
    }

    /// 72 bytes on every band, in every modulation and with every count of copies above one: sent,
    /// and read as sent and with a damage. The damages take turns, so that each count has all.
    fn copied_payloads(&mut self) {
        let modes = copied_modes().into_iter().filter(|mode| mode.kind == 1);
        for (n, mode) in modes.enumerate() {
            let card = mode.card(TAPS[n % TAPS.len()], self.random.word());
            let block = self.random.bytes(mode.bytes());
            let reception = Reception::new(mode, card, block);
            self.sent(&reception);
            self.sent_wrongly(&reception);
            self.read(&reception);

            let counts = COPY_NUM.len() - 1;
            let damage = COPIED_DAMAGES[(n % counts + n / counts) % COPIED_DAMAGES.len()];
            let mut damaged = reception;
            damage(&mut damaged, &mut self.random);
            self.read(&damaged);
        }
    }

    /// Every count of blocks and copy code at each entry, with an input and a room that are wrong
    /// besides.
    fn copied_cards_at_the_entries(&mut self) {
        for (entry, mode) in AT_THE_ENTRIES {
            for counts in 0..32 {
                let card = with_byte_3(mode.fields(Version::Two, 731, 99), counts << 3);
                self.add(Call::Entry(entry), &card, &[7; 5], 3);
            }
        }
    }

    /// Cards of every kind and rate with every count of copies above one: read, printed, written
    /// and moved, both about the room of each version. Those of kind 0 are refused.
    fn copied_cards(&mut self) {
        for (n, (kind, rate)) in CODINGS.into_iter().enumerate() {
            for &copies in &COPY_NUM[1..] {
                let mode = Mode::new(n as u8 % 4, kind, rate, 1).copied(copies);
                let (taps, serial) = (self.random.below(2048) as u16, self.random.word());
                let card = pack(&mode.fields(Version::Two, taps, serial), Version::Two);
                self.card(&card, TEXT_ROOM);
                for version in Version::ALL {
                    for room in [version.bytes() - 1, version.bytes()] {
                        self.write(&mode.fields(version, taps, serial), room);
                        self.move_to(&card, version.number(), room);
                    }
                }
            }
        }
    }
}

/// What is done to the items of a reception.
type Damage = fn(&mut Reception, &mut Random);

/// The damages of copied payloads.
const COPIED_DAMAGES: [Damage; 5] = [
    to_the_limit,
    undecided,
    parity_wrong,
    unused_illegal,
    unused_lost,
];

/// Every bit damaged to just below the count of copies.
fn to_the_limit(reception: &mut Reception, random: &mut Random) {
    reception.damage_all_bits(usize::from(reception.mode.copies) - 1, random);
}

/// Two illegal items on unused carriers, and a bit without a majority besides.
fn unused_illegal(reception: &mut Reception, random: &mut Random) {
    reception.lose_bit(0);
    for index in random.some_of(&reception.mode.unused(), 2) {
        reception.items[index] = random.within(3..256) as u8;
    }
}

/// An unused carrier lost, the others holding anything legal, and some bits damaged but decided.
fn unused_lost(reception: &mut Reception, random: &mut Random) {
    decided(reception, random);
    reception.fill_unused(random);
    let bpc = reception.mode.layout().map_or(1, |layout| layout.bpc);
    let carrier = random.pick(&reception.mode.unused()) / bpc;
    reception.items[bpc * carrier..][..bpc].fill(2);
}

/// Damage that leaves each bit a right majority: of some bits with more than one copy fewer copies
/// than undo them.
fn decided(reception: &mut Reception, random: &mut Random) {
    let bits: Vec<usize> = (0..reception.mode.coded())
        .filter(|&bit| reception.copies(bit).len() > 1)
        .collect();
    for bit in random.some_of(&bits, 20) {
        let weight = random.within(1..reception.copies(bit).len());
        let (wrong, lost) = altered_and_lost(weight, random);
        reception.damage_bit(bit, wrong, lost, random);
    }
}

/// Two bits without a majority, and a wrong one besides.
fn undecided(reception: &mut Reception, random: &mut Random) {
    let mode = reception.mode;
    for _ in 0..2 {
        let bit = random.below(mode.coded());
        if reception.copies(bit).len() > 1 && random.once_in(2) {
            reception.tie_bit(bit, random);
        } else {
            reception.lose_bit(bit);
        }
    }
    let parity = mode.coded_bits_of(true);
    reception.flip_bit(random.pick(&parity));
}

/// A parity bit decided wrongly, and up to seven bits of data or parity.
fn parity_wrong(reception: &mut Reception, random: &mut Random) {
    let parity = reception.mode.coded_bits_of(true);
    reception.flip_bit(random.pick(&parity));
    for _ in 0..random.below(8) {
        reception.flip_bit(random.below(reception.mode.coded()));
    }
}

/// Two illegal items, and a bit without a majority besides.
fn illegal(reception: &mut Reception, random: &mut Random) {
    reception.lose_bit(0);
    for _ in 0..2 {
        let index = random.below(reception.items.len());
        reception.items[index] = random.within(3..256) as u8;
    }
}

/// The entries, each with a mode that it serves.
const AT_THE_ENTRIES: [(Entry, Mode); 4] = [
    (Entry::FcSend, Mode::frame_control(0)),
    (Entry::FcRead, Mode::frame_control(1)),
    (Entry::PayloadSend, Mode::new(2, 1, 0, 0)),
    (Entry::PayloadRead, Mode::new(3, 2, 0, 0)),
];

/// A card that a mode's entries don't serve.
fn not_served(mode: Mode, version: Version) -> Vec<u8> {
    let other = if mode.kind == 0 {
        modes()[1]
    } else {
        Mode::frame_control(0)
    };
    other.card_of(version, 731, 99)
}

/// The example and two good cards of each mode.
fn good_cards(version: Version, random: &mut Random) -> Vec<Vec<u8>> {
    let serials = [0, 9, 10, u64::MAX, EXAMPLE.serial];
    let example = Fields {
        version: version.number(),
        ..EXAMPLE
    };
    let mut cards = vec![pack(&example, version)];
    for mode in modes() {
        let (taps, serial) = (random.below(2048) as u16, random.word_of_any_size());
        cards.push(mode.card_of(version, taps, serial));
        let (taps, serial) = (random.pick(&TAPS), random.pick(&serials));
        cards.push(mode.card_of(version, taps, serial));
    }
    cards
}

/// Good fields with every version, the spare bit, kinds 5 to 7 and modulation 3, in a layout.
fn spoilt_fields(good: Fields, layout: Version) -> Vec<Vec<u8>> {
    let mut spoilt: Vec<Fields> = (0..16).map(|version| Fields { version, ..good }).collect();
    spoilt.push(Fields { spare: 1, ..good });
    spoilt.extend((5..8).map(|kind| Fields { kind, ..good }));
    spoilt.push(Fields {
        modulation: 3,
        ..good
    });
    spoilt.iter().map(|fields| pack(fields, layout)).collect()
}

/// A good card of version 1 spoilt in each way that has a number: 10 and 12 bytes, none, and its
/// fields.
fn spoilt_cards(good: Fields) -> Vec<Vec<u8>> {
    let card = pack(&good, Version::One);
    let mut cards = vec![card[..10].to_vec(), [&card[..], &[0]].concat(), Vec::new()];
    cards.extend(spoilt_fields(good, Version::One));
    cards
}

/// A good card of version 2 spoilt likewise: 10, 11 and 13 bytes, its fields, the spare bit where
/// version and length disagree, then fourth bytes with counts, codes and padding, some of them with
/// version 1.
fn second_spoilt_cards(good: Fields) -> Vec<Vec<u8>> {
    let card = pack(&good, Version::Two);
    let mut cards: Vec<Vec<u8>> = [10, 11].map(|length| card[..length].to_vec()).into();
    cards.push([&card[..], &[0]].concat());
    cards.extend(spoilt_fields(good, Version::Two));
    let spare = Fields { spare: 1, ..good };
    let spare_of_first = Fields {
        version: 1,
        ..spare
    };
    cards.push(pack(&spare, Version::One));
    cards.push(pack(&spare_of_first, Version::Two));
    let first = Fields { version: 1, ..good };
    for (fields, bytes) in [
        (
            good,
            &[0x08, 0x28, 0x30, 0x38, 0x40, 0xC0, 0x01, 0x02, 0x04, 0x3F][..],
        ),
        (first, &[0x01, 0x38, 0xFF]),
    ] {
        cards.extend(bytes.iter().map(|&byte| with_byte_3(fields, byte)));
    }
    cards
}

/// Twelve bytes with any fourth one.
fn with_byte_3(fields: Fields, byte: u8) -> Vec<u8> {
    with_byte(&pack(&fields, Version::Two), 3, byte)
}

/// Every fourth byte.
fn all_bytes_3(fields: Fields) -> Vec<Vec<u8>> {
    (0..=255).map(|byte| with_byte_3(fields, byte)).collect()
}

/// Every mode that fits its bits, defined or not.
fn all_modes(version: Version) -> Vec<Vec<u8>> {
    let card = |mode: u8| {
        let head = [(version.number() as u8) << 4 | mode >> 4, mode << 4, 6];
        let rest = vec![0; version.bytes() - 5];
        [&head[..], &rest, &[1, 2]].concat()
    };
    (0..=255).map(card).collect()
}

#[cfg(test)]
mod tests {
    use super::*;
    use crate::record::{from_bytes, to_bytes};
    use std::collections::HashSet;

    #[test]
    fn the_file_is_small_and_the_same_on_every_run() {
        let bytes = to_bytes(&records());
        assert!(bytes.len() <= 8_000_000, "{} bytes", bytes.len());
        assert!(bytes == to_bytes(&records()));
    }

    #[test]
    fn records_come_back_from_the_file() {
        let records = records();
        assert_eq!(from_bytes(&to_bytes(&records)), Some(records));
    }

    #[test]
    fn every_call_has_every_number_it_can_have() {
        let seen: HashSet<(u8, u8)> = records()
            .iter()
            .map(|record| (record.call.number(), record.number))
            .collect();
        let numbers: [&[u8]; 10] = [
            &[0, 1, 2, 10, 3, 4, 5],
            &[0, 1, 2, 10, 3, 4, 5, 6, 7, 8],
            &[0, 1, 2, 10, 3, 4, 5],
            &[0, 1, 2, 10, 3, 4, 5, 6, 7, 8],
            &[0, 1, 2, 10, 3, 5],
            &[0, 5],
            &[0, 3, 4, 5, 6],
            &[0, 3, 5],
            &[0, 2, 3, 5, 11],
            &[0, 1, 2, 10, 3, 5, 11],
        ];
        let expected: HashSet<(u8, u8)> = numbers
            .iter()
            .enumerate()
            .flat_map(|(call, numbers)| numbers.iter().map(move |&number| (call as u8, number)))
            .collect();
        assert_eq!(seen, expected);
    }

    /// A reception of a mode comes back in spite of a damage.
    fn check_comes_back(mode: Mode, damage: Damage, random: &mut Random) {
        let mut reception = Reception::random(mode, random);
        damage(&mut reception, random);
        assert_ne!(reception.items, reception.sent);
        let mut back = vec![0; mode.bytes()];
        let read = mode.entries().1;
        let report = read.call(&reception.card, &reception.items, &mut back);
        assert_eq!((report.number, back), (0, reception.block));
    }

    #[test]
    fn decided_damage_comes_back() {
        let mut random = Random::new(1);
        for mode in modes() {
            check_comes_back(mode, decided, &mut random);
        }
        for mode in copied_modes() {
            for damage in [decided, to_the_limit, unused_lost] {
                check_comes_back(mode, damage, &mut random);
            }
        }
    }

    #[test]
    fn every_mode_is_read_in_each_way() {
        let records = records();
        for mode in modes() {
            let read = Call::Entry(mode.entries().1);
            let numbers: HashSet<u8> = records
                .iter()
                .filter(|record| record.call == read && Mode::of(&record.card) == Some(mode))
                .map(|record| record.number)
                .collect();
            for number in [0, 4, 6, 7, 8] {
                assert!(numbers.contains(&number), "{mode:?} {number}");
            }
        }
    }

    #[test]
    fn copied_payloads_of_72_bytes_are_sent_and_read_and_each_count_is_read_in_each_way() {
        let records = records();
        let numbers = |entry: Entry, wanted: &dyn Fn(Mode) -> bool| -> HashSet<u8> {
            let of_entry = |record: &&Record| record.call == Call::Entry(entry);
            let of_mode = |record: &&Record| Mode::of(&record.card).is_some_and(wanted);
            let met = records.iter().filter(of_entry).filter(of_mode);
            met.map(|record| record.number).collect()
        };
        for mode in copied_modes().into_iter().filter(|mode| mode.kind == 1) {
            for entry in [Entry::PayloadSend, Entry::PayloadRead] {
                assert!(numbers(entry, &|met| met == mode).contains(&0), "{mode:?}");
            }
        }
        for &copies in &COPY_NUM[1..] {
            let of_count = |mode: Mode| mode.copies == copies;
            let sent = numbers(Entry::PayloadSend, &of_count);
            assert_eq!(sent, HashSet::from([0, 4, 5]));
            let read = numbers(Entry::PayloadRead, &of_count);
            assert_eq!(read, HashSet::from([0, 4, 5, 6, 7, 8]));
        }
    }

    #[test]
    fn cards_of_version_2_are_sent_and_read_in_each_way() {
        let records = records();
        let second = |record: &&Record| record.card.len() == Version::Two.bytes();
        for (entry, expected) in [
            (Entry::FcSend, &[0, 2, 10, 3, 4, 5][..]),
            (Entry::FcRead, &[0, 2, 10, 3, 4, 5, 6, 7, 8]),
            (Entry::PayloadSend, &[0, 2, 10, 3, 4, 5]),
            (Entry::PayloadRead, &[0, 2, 10, 3, 4, 5, 6, 7, 8]),
        ] {
            let numbers: HashSet<u8> = records
                .iter()
                .filter(|record| record.call == Call::Entry(entry))
                .filter(second)
                .map(|record| record.number)
                .collect();
            assert_eq!(numbers, expected.iter().copied().collect(), "{entry:?}");
        }
    }
}
