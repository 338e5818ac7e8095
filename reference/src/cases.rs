//! What the vectors and the comparison with the library under test are made of: numbers that look
//! random, the defined modes, and receptions that are damaged on purpose.

use std::ops::Range;
use std::rc::Rc;

use crate::card::{self, Card, Fields, Version};
use crate::carriers::{Band, BANDS, FRAME_CONTROL_BITS};
use crate::copies::{Layout, COPY_NUM};
use crate::interface::Entry;
use crate::interleaver::{self, coded_bits, data_bits};
use crate::{points, turbo, Report};

/// Numbers that look random and are the same on every run: splitmix64.
#[derive(Clone, Debug)]
pub struct Random(u64);

impl Random {
    pub const fn new(seed: u64) -> Random {
        Random(seed)
    }

    pub fn word(&mut self) -> u64 {
        self.0 = self.0.wrapping_add(0x9E37_79B9_7F4A_7C15);
        let mut z = self.0;
        z = (z ^ z >> 30).wrapping_mul(0xBF58_476D_1CE4_E5B9);
        z = (z ^ z >> 27).wrapping_mul(0x94D0_49BB_1331_11EB);
        z ^ z >> 31
    }

    /// A number below `limit`, which is not 0.
    pub fn below(&mut self, limit: usize) -> usize {
        (self.word() % limit as u64) as usize
    }

    /// A number of the range, which is not empty.
    pub fn within(&mut self, range: Range<usize>) -> usize {
        range.start + self.below(range.end - range.start)
    }

    /// True once in `of` times.
    pub fn once_in(&mut self, of: usize) -> bool {
        self.below(of) == 0
    }

    /// One of the elements, of which there is at least one.
    pub fn pick<T: Copy>(&mut self, from: &[T]) -> T {
        from[self.below(from.len())]
    }

    pub fn bytes(&mut self, length: usize) -> Vec<u8> {
        let words = (0..length.div_ceil(8)).flat_map(|_| self.word().to_le_bytes());
        let mut bytes: Vec<u8> = words.collect();
        bytes.truncate(length);
        bytes
    }

    /// A number of any size: as many small ones as large ones.
    pub fn word_of_any_size(&mut self) -> u64 {
        self.word() >> self.below(64)
    }

    /// Some of the elements, none twice, in any order.
    pub fn some_of<T: Copy>(&mut self, from: &[T], count: usize) -> Vec<T> {
        let mut left = from.to_vec();
        let taken = (0..count.min(from.len())).map(|_| left.swap_remove(self.below(left.len())));
        taken.collect()
    }
}

/// The example card of 01.
pub const EXAMPLE: Fields = Fields {
    version: 1,
    band: 0,
    kind: 4,
    rate: 1,
    modulation: 1,
    taps: 0b10001000111,
    spare: 0,
    serial: 9_007_199_254_740_993,
    blocks: 1,
    copies: 1,
};

/// The example as a card of version 2 (02, T-03).
pub const SECOND_EXAMPLE: Fields = Fields {
    version: 2,
    ..EXAMPLE
};

/// A card with another byte at an index.
pub fn with_byte(card: &[u8], index: usize, byte: u8) -> Vec<u8> {
    let mut card = card.to_vec();
    card[index] = byte;
    card
}

/// Room for any answer to a card with one copy.
pub const AMPLE: usize = 9_900;

/// Some taps: none, all, those of the example, and others.
pub const TAPS: [u16; 6] = [0, 1095, 2047, 682, 1365, 731];

/// Kind and rate of every coding.
pub const CODINGS: [(u8, u8); 6] = [(0, 0), (1, 0), (2, 0), (3, 0), (4, 0), (4, 1)];

/// The modulations by name.
pub const MODULATION_NAMES: [&str; 3] = ["BPSK", "QPSK", "16QAM"];

/// All combinations of so many bits, d0 changing fastest.
pub fn all_bits(count: usize) -> impl Iterator<Item = Vec<u8>> {
    (0..1u8 << count).map(move |v| (0..count).map(|k| v >> k & 1).collect())
}

/// A defined mode, and how many copies it sends.
#[derive(Clone, Copy, Debug, PartialEq, Eq)]
pub struct Mode {
    pub band: u8,
    pub kind: u8,
    pub rate: u8,
    pub modulation: u8,
    pub copies: u8,
}

/// The frame controls of all bands.
pub fn frame_controls() -> impl Iterator<Item = Mode> {
    (0..BANDS.len()).map(|band| Mode::frame_control(band as u8))
}

/// All defined modes with one copy: on each band one of frame control and fifteen of payload.
pub fn modes() -> Vec<Mode> {
    let mut modes = Vec::new();
    for frame_control in frame_controls() {
        let band = frame_control.band;
        modes.push(frame_control);
        for (kind, rate) in &CODINGS[1..] {
            modes.extend((0..3).map(|modulation| Mode::new(band, *kind, *rate, modulation)));
        }
    }
    modes
}

/// All defined modes with more copies: each payload of `modes` with each count above one.
pub fn copied_modes() -> Vec<Mode> {
    let payloads = modes().into_iter().filter(|mode| mode.kind > 0);
    payloads
        .flat_map(|mode| COPY_NUM[1..].iter().map(move |&copies| mode.copied(copies)))
        .collect()
}

/// All defined modes with every count of copies.
pub fn all_modes() -> Vec<Mode> {
    [modes(), copied_modes()].concat()
}

impl Mode {
    /// A mode with one copy.
    pub const fn new(band: u8, kind: u8, rate: u8, modulation: u8) -> Mode {
        Mode {
            band,
            kind,
            rate,
            modulation,
            copies: 1,
        }
    }

    /// A frame control of a band.
    pub const fn frame_control(band: u8) -> Mode {
        Mode::new(band, 0, 0, 1)
    }

    /// The same mode with so many copies.
    pub const fn copied(self, copies: u8) -> Mode {
        Mode { copies, ..self }
    }

    /// The mode of a good card.
    pub fn of(card: &[u8]) -> Option<Mode> {
        let card = card::read(card).ok()?;
        let mode = Mode::new(card.band, card.kind, card.rate, card.modulation);
        Some(mode.copied(card.copies))
    }

    /// The versions whose cards can say the mode.
    pub const fn versions(&self) -> &'static [Version] {
        match self.copies {
            1 => &Version::ALL,
            _ => &[Version::Two],
        }
    }

    /// The fields of the mode's card of a version, with one block.
    pub const fn fields(&self, version: Version, taps: u16, serial: u64) -> Fields {
        let card = Card {
            version,
            band: self.band,
            kind: self.kind,
            rate: self.rate,
            modulation: self.modulation,
            taps,
            serial,
            blocks: 1,
            copies: self.copies,
        };
        card.fields()
    }

    /// The mode's card of a version.
    pub fn card_of(&self, version: Version, taps: u16, serial: u64) -> Vec<u8> {
        let mut card = vec![0; version.bytes()];
        let report = card::write(&self.fields(version, taps, serial), &mut card);
        assert_eq!(report, Report::done(card.len()), "{self:?} taps {taps}");
        card
    }

    /// The mode's card of the first version that can say it.
    pub fn card(&self, taps: u16, serial: u64) -> Vec<u8> {
        self.card_of(self.versions()[0], taps, serial)
    }

    pub const fn rate_name(&self) -> &'static str {
        ["1/2", "16/18"][self.rate as usize]
    }

    pub const fn modulation_name(&self) -> &'static str {
        MODULATION_NAMES[self.modulation as usize]
    }

    /// The entry that sends and the one that reads.
    pub const fn entries(&self) -> (Entry, Entry) {
        Entry::of_kind(self.kind)
    }

    const fn band(&self) -> &'static Band {
        &BANDS[self.band as usize]
    }

    /// Length of the block in bytes.
    pub fn bytes(&self) -> usize {
        turbo::SIZES[usize::from(self.kind)].bytes
    }

    /// Coded bits of the block.
    pub fn coded(&self) -> usize {
        coded_bits(self.kind, self.rate)
    }

    /// How a payload fills the symbols; None for frame control.
    pub fn layout(&self) -> Option<Layout> {
        if self.kind == 0 {
            return None;
        }
        let bpc = points::bits_per_carrier(self.modulation.into())?;
        Layout::new(self.band(), bpc, self.coded(), self.copies)
    }

    /// Items of all symbols.
    pub fn items(&self) -> usize {
        match self.layout() {
            Some(layout) => layout.items(),
            None => self.band().frame_control_items(),
        }
    }

    /// Calls `visit(item, bit)` for each item that carries a coded bit, the items rising.
    fn for_each_item(&self, mut visit: impl FnMut(usize, usize)) {
        match self.layout() {
            None => self.band().for_each_lane(visit),
            Some(layout) => layout.for_each_run(|item, bit, length| {
                for k in 0..length {
                    visit(item + k, bit + k);
                }
            }),
        }
    }

    /// Coded bits that have a copy more than the others because pads repeat them. They are the
    /// first ones. 0 for frame control, which has no pads.
    pub fn repeated(&self) -> usize {
        let layout = self.layout();
        layout.map_or(0, |layout| layout.copy_num * layout.pad_bits_num)
    }

    /// The items of unused carriers, rising.
    pub fn unused(&self) -> Vec<usize> {
        let Some(layout) = self.layout() else {
            return Vec::new();
        };
        let place = |item: &usize| item % layout.items_per_symbol();
        let unused = |item: &usize| place(item) >= layout.bits_per_ofdm;
        (0..layout.items()).filter(unused).collect()
    }

    /// The items that carry a coded bit, rising.
    pub fn items_of(&self, bit: usize) -> Vec<usize> {
        let mut items = Vec::new();
        self.for_each_item(|item, carried| {
            if carried == bit {
                items.push(item);
            }
        });
        items
    }

    /// The carriers of a frame control that carry a coded bit, rising.
    pub fn carriers(&self, bit: usize) -> Vec<usize> {
        self.items_of(bit).iter().map(|item| item / 2).collect()
    }

    /// The fewest copies that a bit of the band's frame control has.
    pub const fn fewest_copies(&self) -> usize {
        self.band().fewest_copies
    }

    /// The bits of the band's frame control that have the fewest copies, rising.
    pub fn rarest_bits(&self) -> Vec<usize> {
        let copies = self.band().copies();
        let rarest = |bit: &usize| copies[*bit] == self.fewest_copies();
        (0..FRAME_CONTROL_BITS).filter(rarest).collect()
    }

    /// The coded bits that are data, or else those that are parity.
    pub fn coded_bits_of(&self, parity: bool) -> Vec<usize> {
        let mut bits = Vec::new();
        interleaver::for_each_coded(self.kind, self.rate, |to, from| {
            if parity == (from >= data_bits(self.kind)) {
                bits.push(to);
            }
        });
        bits
    }
}

/// The items that carry each coded bit of a mode.
#[derive(Debug)]
struct Copies {
    /// Those of bit 0, then those of bit 1, and so on, rising for each bit.
    items: Vec<usize>,
    /// Where the items of each bit end.
    ends: Vec<usize>,
}

impl Copies {
    fn new(mode: Mode) -> Copies {
        let mut ends = vec![0; mode.coded()];
        mode.for_each_item(|_, bit| ends[bit] += 1);
        let mut count = 0;
        for end in &mut ends {
            // Where the bit's items start, until they are put there.
            (*end, count) = (count, count + *end);
        }
        let mut items = vec![0; count];
        mode.for_each_item(|item, bit| {
            items[ends[bit]] = item;
            ends[bit] += 1;
        });
        Copies { items, ends }
    }

    fn of(&self, bit: usize) -> &[usize] {
        let start = bit.checked_sub(1).map_or(0, |before| self.ends[before]);
        &self.items[start..self.ends[bit]]
    }
}

/// A block that was sent, and its items as they are received.
#[derive(Clone, Debug)]
pub struct Reception {
    pub mode: Mode,
    pub card: Vec<u8>,
    pub block: Vec<u8>,
    pub sent: Vec<u8>,
    pub items: Vec<u8>,
    copies: Rc<Copies>,
}

impl Reception {
    /// Sends a block and receives it as it was sent.
    pub fn new(mode: Mode, card: Vec<u8>, block: Vec<u8>) -> Reception {
        let mut sent = vec![0; mode.items()];
        let report = mode.entries().0.call(&card, &block, &mut sent);
        assert_eq!(report, Report::done(sent.len()), "{mode:?}");
        Reception::of_items(mode, card, block, sent)
    }

    /// Items that were sent for a block, received as they were sent.
    pub fn of_items(mode: Mode, card: Vec<u8>, block: Vec<u8>, sent: Vec<u8>) -> Reception {
        let items = sent.clone();
        Reception {
            mode,
            card,
            block,
            sent,
            items,
            copies: Rc::new(Copies::new(mode)),
        }
    }

    /// The mode's card with any taps and serial, and any block.
    pub fn random(mode: Mode, random: &mut Random) -> Reception {
        let card = mode.card(random.below(2048) as u16, random.word());
        Reception::new(mode, card, random.bytes(mode.bytes()))
    }

    /// The items that carry a coded bit, rising.
    pub fn copies(&self, bit: usize) -> &[usize] {
        self.copies.of(bit)
    }

    /// The item as sent, but with the other bit.
    pub fn spoil(&mut self, item: usize) {
        self.items[item] = u8::from(self.sent[item] == 0);
    }

    /// The item marked as lost.
    pub fn lose(&mut self, item: usize) {
        self.items[item] = 2;
    }

    /// All copies of a coded bit lost.
    pub fn lose_bit(&mut self, bit: usize) {
        let copies = Rc::clone(&self.copies);
        self.damage_items(copies.of(bit), 0);
    }

    /// All copies of a coded bit wrong.
    pub fn flip_bit(&mut self, bit: usize) {
        let copies = Rc::clone(&self.copies);
        self.damage_items(copies.of(bit), copies.of(bit).len());
    }

    /// The first so many of the items wrong, the others lost.
    pub fn damage_items(&mut self, items: &[usize], wrong: usize) {
        for (n, &item) in items.iter().enumerate() {
            if n < wrong {
                self.spoil(item);
            } else {
                self.lose(item);
            }
        }
    }

    /// Of a coded bit's copies so many wrong and so many lost, no copy being both.
    pub fn damage_bit(&mut self, bit: usize, wrong: usize, lost: usize, random: &mut Random) {
        let hit = random.some_of(self.copies(bit), wrong + lost);
        self.damage_items(&hit, wrong);
    }

    /// A coded bit with as many copies wrong as right, and at most one lost.
    pub fn tie_bit(&mut self, bit: usize, random: &mut Random) {
        let copies = self.copies(bit).len();
        self.damage_bit(bit, copies / 2, copies % 2, random);
    }

    /// A coded bit as it was sent, but for as many wrong and lost copies as undo it: twice the wrong
    /// ones and the lost ones make the number of its copies.
    pub fn undo_bit(&mut self, bit: usize, random: &mut Random) {
        for &item in self.copies.of(bit) {
            self.items[item] = self.sent[item];
        }
        let (wrong, lost) = altered_and_lost(self.copies(bit).len(), random);
        self.damage_bit(bit, wrong, lost, random);
    }

    /// Every coded bit with wrong and lost copies, where twice the wrong ones and the lost ones make
    /// `weight`. Below the count of copies a payload must come back (02, T-06).
    pub fn damage_all_bits(&mut self, weight: usize, random: &mut Random) {
        for bit in 0..self.mode.coded() {
            let (wrong, lost) = altered_and_lost(weight, random);
            self.damage_bit(bit, wrong, lost, random);
        }
    }

    /// Anything legal on the unused carriers.
    pub fn fill_unused(&mut self, random: &mut Random) {
        for item in self.mode.unused() {
            self.items[item] = random.below(3) as u8;
        }
    }

    /// A carrier of frame control with an item that holds the wrong bit: either, both, or one
    /// beside a lost one.
    pub fn alter_carrier(&mut self, carrier: usize, random: &mut Random) {
        let wrong = 2 * carrier + random.below(2);
        self.spoil(wrong);
        match random.below(3) {
            0 => self.spoil(wrong ^ 1),
            1 => self.lose(wrong ^ 1),
            _ => {}
        }
    }

    /// A carrier of frame control whose only change is one or two items marked as lost.
    pub fn lose_carrier(&mut self, carrier: usize, random: &mut Random) {
        let lost = 2 * carrier + random.below(2);
        self.lose(lost);
        if random.once_in(2) {
            self.lose(lost ^ 1);
        }
    }

    /// Altered and lost carriers of frame control, none being both.
    pub fn damage_carriers(
        &mut self,
        carriers: &[usize],
        altered: usize,
        lost: usize,
        random: &mut Random,
    ) {
        let hit = random.some_of(carriers, altered + lost);
        for (n, carrier) in hit.into_iter().enumerate() {
            if n < altered {
                self.alter_carrier(carrier, random);
            } else {
                self.lose_carrier(carrier, random);
            }
        }
    }
}

/// Numbers of altered and lost carriers, or of wrong and lost copies, where twice the first and the
/// second make `weight`.
pub fn altered_and_lost(weight: usize, random: &mut Random) -> (usize, usize) {
    let altered = random.within(0..weight / 2 + 1);
    (altered, weight - 2 * altered)
}

#[cfg(test)]
mod tests {
    use super::*;

    #[test]
    fn numbers_are_those_of_splitmix64() {
        let mut random = Random::new(1234567);
        let words: Vec<u64> = (0..3).map(|_| random.word()).collect();
        let known = [
            6457827717110365317,
            3203168211198807973,
            9817491932198370423,
        ];
        assert_eq!(words, known);
        assert_eq!(Random::new(1).bytes(13).len(), 13);
        let mut some = Random::new(2).some_of(&[4, 5, 6, 7], 3);
        some.sort_unstable();
        some.dedup();
        assert_eq!(some.len(), 3);
    }

    #[test]
    fn there_are_64_modes_and_each_has_a_card() {
        let modes = modes();
        assert_eq!(modes.len(), 64);
        for (n, mode) in modes.iter().enumerate() {
            assert_eq!(usize::from(mode.band), n / 16);
            assert_eq!(mode.card(2047, 5), mode.card_of(Version::One, 2047, 5));
            for version in Version::ALL {
                let card = mode.card_of(version, 2047, 5);
                assert_eq!(Mode::of(&card), Some(*mode));
                assert_eq!(card.len(), version.bytes());
            }
            assert!(!modes[..n].contains(mode));
        }
    }

    #[test]
    fn there_are_300_modes_with_more_copies_and_each_has_a_card() {
        let modes = copied_modes();
        assert_eq!(modes.len(), 300);
        for (n, mode) in modes.iter().enumerate() {
            assert!(mode.kind > 0 && mode.copies > 1);
            let card = mode.card(2047, 5);
            assert_eq!((card.len(), Mode::of(&card)), (12, Some(*mode)));
            assert!(!modes[..n].contains(mode));
        }
    }

    #[test]
    fn every_item_is_a_copy_of_one_bit_or_unused() {
        for mode in all_modes() {
            let copies = Copies::new(mode);
            let mut items = mode.unused();
            for bit in 0..mode.coded() {
                items.extend(copies.of(bit));
                if mode.kind > 0 {
                    let more = usize::from(bit < mode.repeated());
                    assert_eq!(copies.of(bit).len(), usize::from(mode.copies) + more);
                }
            }
            items.sort_unstable();
            assert!(items.into_iter().eq(0..mode.items()), "{mode:?}");
            for bit in (0..mode.coded()).step_by(501) {
                assert_eq!(mode.items_of(bit), copies.of(bit));
                assert!(copies.of(bit).is_sorted());
            }
        }
    }

    #[test]
    fn damage_does_what_it_says() {
        let mut random = Random::new(3);
        for mode in frame_controls() {
            let mut reception = Reception::random(mode, &mut random);
            let wrong = mode.fewest_copies() - 2;
            reception.damage_bit(77, wrong, 2, &mut random);
            let changes = |reception: &Reception| {
                let pairs = reception.items.iter().zip(&reception.sent);
                let wrong = pairs.filter(|(a, b)| **a < 2 && a != b).count();
                (
                    wrong,
                    reception.items.iter().filter(|&&item| item == 2).count(),
                )
            };
            assert_eq!(changes(&reception), (wrong, 2));
            reception.items = reception.sent.clone();
            reception.damage_carriers(&[5, 6, 7, 8], 0, 3, &mut random);
            let (wrong, lost) = changes(&reception);
            assert_eq!(wrong, 0);
            assert!((3..=6).contains(&lost));
        }
        for weight in 0..12 {
            let (altered, lost) = altered_and_lost(weight, &mut random);
            assert_eq!(2 * altered + lost, weight);
        }
    }
}
