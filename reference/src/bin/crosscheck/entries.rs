//! Frame control and payload: sent and read, with good and bad cards, lengths, rooms and items.

use reference::card::Version;
use reference::carriers::BANDS;
use reference::cases::{
    all_modes, altered_and_lost, copied_modes, frame_controls, modes, with_byte, Mode, Random,
    Reception, AMPLE,
};
use reference::copies::COPY_NUM;
use reference::interface::Entry;
use reference::Report;

use crate::cards::{
    all_bytes_3, all_counts, all_lengths, all_lengths_and_versions, any_card, any_room, card_with,
};
use crate::checker::Checker;

/// Taps of the systematic calls: none, all, each alone, and some mixed.
const TAPS: [u16; 17] = [
    0, 2047, 1, 2, 4, 8, 16, 32, 64, 128, 256, 512, 1024, 1095, 682, 1365, 731,
];

/// Any mode; frame control as often as each payload kind, and a payload half of the time with more
/// than one copy.
fn any_mode(random: &mut Random) -> Mode {
    let kind = random.below(5) as u8;
    let of_kind: Vec<Mode> = modes().into_iter().filter(|m| m.kind == kind).collect();
    let mode = random.pick(&of_kind);
    if kind > 0 && random.once_in(2) {
        mode.copied(random.pick(&COPY_NUM[1..]))
    } else {
        mode
    }
}

fn any_taps(random: &mut Random) -> u16 {
    if random.once_in(3) {
        random.pick(&TAPS)
    } else {
        random.below(2048) as u16
    }
}

/// Any block: random, all alike, or one bit set.
fn any_block(length: usize, random: &mut Random) -> Vec<u8> {
    let mut block = vec![0; length];
    match random.below(6) {
        0 => block.fill(random.pick(&[0, 0xFF, 0x55, 0xAA])),
        1 => block[random.below(length)] = 1 << random.below(8),
        _ => block = random.bytes(length),
    }
    block
}

/// A mode's card of any version that can say it, with any taps and serial.
fn any_card_of(mode: Mode, random: &mut Random) -> Vec<u8> {
    let version = random.pick(mode.versions());
    mode.card_of(version, any_taps(random), random.word_of_any_size())
}

/// A reception of a mode with any of its cards, as it was sent.
fn any_reception_of(mode: Mode, random: &mut Random) -> Reception {
    let card = any_card_of(mode, random);
    Reception::new(mode, card, any_block(mode.bytes(), random))
}

/// A reception of any mode.
fn any_reception(random: &mut Random) -> Reception {
    let mode = any_mode(random);
    any_reception_of(mode, random)
}

/// A reception of a mode with a card of version 2, as it was sent.
fn second_reception(mode: Mode, random: &mut Random) -> Reception {
    let card = mode.card_of(Version::Two, any_taps(random), random.word());
    Reception::new(mode, card, any_block(mode.bytes(), random))
}

/// The lengths of input and output that a card asks for at an entry.
fn lengths(mode: Mode, entry: Entry) -> (usize, usize) {
    if entry.sends() {
        (mode.bytes(), mode.items())
    } else {
        (mode.items(), mode.bytes())
    }
}

/// Any input of a length: bytes to send, or items received, most of them legal.
fn any_input(entry: Entry, length: usize, random: &mut Random) -> Vec<u8> {
    if entry.sends() || random.once_in(4) {
        random.bytes(length)
    } else {
        (0..length).map(|_| random.below(3) as u8).collect()
    }
}

/// Reads a reception, most often with the room it needs.
fn read(checker: &mut Checker, reception: &Reception) -> (Report, Vec<u8>) {
    let needed = reception.mode.bytes();
    let room = if checker.random.once_in(4) {
        any_room(needed, &mut checker.random)
    } else {
        needed
    };
    let entry = reception.mode.entries().1;
    checker.entry(entry, &reception.card, &reception.items, room)
}

// Cards.

/// A card at an entry with an input as the card asks for, or else as the entry may.
fn card_at(checker: &mut Checker, entry: Entry, card: &[u8], room: usize) {
    let (length, _) = match Mode::of(card) {
        Some(mode) => lengths(mode, entry),
        None => lengths(any_mode(&mut checker.random), entry),
    };
    let input = if checker.random.once_in(2) {
        vec![0; length]
    } else {
        any_input(entry, length, &mut checker.random)
    };
    checker.entry(entry, card, &input, room);
}

/// Room for the answer to a card, and most often more.
fn ample(entry: Entry, card: &[u8]) -> usize {
    let needed = Mode::of(card).map_or(0, |mode| lengths(mode, entry).1);
    needed.max(AMPLE)
}

/// At each entry in both layouts every mode that fits its bits, every version and spare bit; then
/// every length, every length with some versions, every fourth byte, every count of blocks and copy
/// code of the kind that the entry doesn't serve, and some modes with more copies.
pub fn cards_systematic(checker: &mut Checker) {
    for entry in Entry::ALL {
        for layout in Version::ALL {
            for mode in 0..256 {
                let version = layout.number();
                let card = card_with(layout, version, mode, 0, &mut checker.random);
                card_at(checker, entry, &card, ample(entry, &card));
            }
            for version in 0..16 {
                for spare in 0..2 {
                    // Kind 0 with QPSK, and kind 1 with QPSK.
                    for mode in [1, 9] {
                        let random = &mut checker.random;
                        let card = card_with(layout, version, mode, spare, random);
                        card_at(checker, entry, &card, ample(entry, &card));
                    }
                }
            }
        }
        let mut cards = all_lengths(&mut checker.random);
        cards.extend(all_lengths_and_versions(&mut checker.random));
        let [served, other] = served_and_not(entry);
        cards.extend(all_bytes_3(Version::Two, served, &mut checker.random));
        let other = other.card_of(Version::Two, any_taps(&mut checker.random), 3);
        cards.extend(all_counts().map(|counts| with_byte(&other, 3, counts)));
        // All counts of copies are met: there are five for each payload mode.
        for mode in copied_modes().into_iter().step_by(7) {
            cards.push(any_card_of(mode, &mut checker.random));
        }
        for card in cards {
            card_at(checker, entry, &card, ample(entry, &card));
        }
    }
}

/// A mode that an entry serves, and one that it doesn't.
const fn served_and_not(entry: Entry) -> [Mode; 2] {
    let (frame_control, payload) = (Mode::frame_control(0), Mode::new(0, 1, 0, 1));
    match entry {
        Entry::FcSend | Entry::FcRead => [frame_control, payload],
        Entry::PayloadSend | Entry::PayloadRead => [payload, frame_control],
    }
}

pub fn cards_random(checker: &mut Checker) {
    let card = any_card(&mut checker.random);
    let entry = checker.random.pick(&Entry::ALL);
    let ample = ample(entry, &card);
    let room = checker.random.pick(&[ample, ample, 0, 16, 72, 520]);
    card_at(checker, entry, &card, room);
}

// Lengths and rooms.

/// All right lengths of an entry's input with these modes, with one less and one more.
fn input_lengths(entry: Entry, modes: Vec<Mode>) -> Vec<usize> {
    let mut all = vec![0, 1];
    for mode in modes {
        let (length, _) = lengths(mode, entry);
        all.extend([length - 1, length, length + 1]);
    }
    all.sort_unstable();
    all.dedup();
    all
}

/// Each mode with one copy with every length that is right for some such mode, and with each room
/// about its own; then those with more copies about their own lengths and rooms.
pub fn lengths_systematic(checker: &mut Checker) {
    for mode in modes() {
        let (send, read) = mode.entries();
        for entry in [send, read] {
            let card = mode.card(any_taps(&mut checker.random), checker.random.word());
            let (right, needed) = lengths(mode, entry);
            for length in input_lengths(entry, modes()) {
                let input = any_input(entry, length, &mut checker.random);
                let room = checker.random.pick(&[0, needed - 1, needed, needed + 1]);
                checker.entry(entry, &card, &input, room);
            }
            for room in [0, 1, needed / 2, needed - 1, needed, needed + 1, AMPLE] {
                checker.entry(entry, &card, &vec![0; right], room);
            }
            let random = &mut checker.random;
            let second = mode.card_of(Version::Two, any_taps(random), random.word());
            checker.entry(entry, &second, &vec![0; right], needed - 1);
            checker.entry(entry, &second, &vec![0; right + 1], needed);
        }
    }
    for mode in copied_modes() {
        let (send, read) = mode.entries();
        for entry in [send, read] {
            let card = any_card_of(mode, &mut checker.random);
            let (right, needed) = lengths(mode, entry);
            let (once, _) = lengths(mode.copied(1), entry);
            for length in [0, once, right - 1, right + 1] {
                let input = any_input(entry, length, &mut checker.random);
                let room = checker.random.pick(&[0, needed - 1, needed]);
                checker.entry(entry, &card, &input, room);
            }
            for room in [0, needed - 1, needed, needed + 1] {
                checker.entry(entry, &card, &vec![0; right], room);
            }
        }
    }
}

/// A length that is wrong in some likely way, or right.
fn any_length(entry: Entry, right: usize, random: &mut Random) -> usize {
    match random.below(8) {
        0 => right - 1,
        1 => right + 1,
        2 => random.pick(&input_lengths(entry, all_modes())),
        3 => right + 256 * random.within(1..10),
        4 if random.once_in(10) => right + 65536,
        5 => random.below(2 * right),
        _ => right,
    }
}

pub fn lengths_random(checker: &mut Checker) {
    let random = &mut checker.random;
    let mode = any_mode(random);
    let (send, read) = mode.entries();
    let entry = random.pick(&[send, read]);
    let (right, needed) = lengths(mode, entry);
    let length = any_length(entry, right, random);
    let input = any_input(entry, length, random);
    let card = any_card_of(mode, random);
    let room = any_room(needed, random);
    checker.entry(entry, &card, &input, room);
}

// Sending and clean receptions.

/// Every taps on every band's frame control, and single taps with single bits on every mode; each
/// mode with more copies twice.
pub fn sending_systematic(checker: &mut Checker) {
    for mode in frame_controls() {
        for taps in 0..2048 {
            let block = checker.random.bytes(mode.bytes());
            checker.entry(Entry::FcSend, &mode.card(taps, 1), &block, mode.items());
        }
    }
    for mode in modes() {
        for taps in TAPS {
            let block = any_block(mode.bytes(), &mut checker.random);
            let entry = mode.entries().0;
            checker.entry(entry, &mode.card(taps, 0), &block, mode.items());
        }
        let Reception { card, block, .. } = second_reception(mode, &mut checker.random);
        checker.entry(mode.entries().0, &card, &block, mode.items());
    }
    for mode in copied_modes() {
        for more in [0, 1] {
            let block = any_block(mode.bytes(), &mut checker.random);
            let card = any_card_of(mode, &mut checker.random);
            checker.entry(Entry::PayloadSend, &card, &block, mode.items() + more);
        }
    }
}

pub fn sending_random(checker: &mut Checker) {
    let random = &mut checker.random;
    let mode = any_mode(random);
    let block = any_block(mode.bytes(), random);
    let card = any_card_of(mode, random);
    let room = any_room(mode.items(), random);
    checker.entry(mode.entries().0, &card, &block, room);
}

/// What the library sends comes back by the library.
fn there_and_back(checker: &mut Checker, reception: &Reception) {
    let (mode, card) = (reception.mode, &reception.card);
    let (send, read) = mode.entries();
    let (_, made) = checker.entry(send, card, &reception.block, mode.items());
    let (report, block) = checker.entry(read, card, &made, mode.bytes());
    let came_back = report == Report::done(mode.bytes()) && block == reception.block;
    checker.claim(
        came_back,
        || format!("{mode:?} card {card:02x?} block {:02x?}", reception.block),
        "what was sent did not come back",
    );
}

pub fn clean_systematic(checker: &mut Checker) {
    for mode in modes() {
        for taps in TAPS {
            let block = any_block(mode.bytes(), &mut checker.random);
            let card = mode.card(taps, checker.random.word());
            there_and_back(checker, &Reception::new(mode, card, block));
        }
        let second = second_reception(mode, &mut checker.random);
        there_and_back(checker, &second);
    }
    for mode in copied_modes() {
        let reception = any_reception_of(mode, &mut checker.random);
        there_and_back(checker, &reception);
    }
}

pub fn clean_random(checker: &mut Checker) {
    let reception = any_reception(&mut checker.random);
    there_and_back(checker, &reception);
}

// Illegal items.

fn no_item(random: &mut Random) -> u8 {
    let any = random.within(3..256) as u8;
    random.pick(&[3, 4, 128, 129, 130, 254, 255, any])
}

/// On frame control at every index, on payload at both ends and at some others, with more copies on
/// used and on unused carriers.
pub fn illegal_systematic(checker: &mut Checker) {
    for mode in modes() {
        let reception = Reception::random(mode, &mut checker.random);
        let last = mode.items() - 1;
        let indices: Vec<usize> = if mode.kind == 0 {
            (0..=last).collect()
        } else {
            vec![
                0,
                1,
                mode.coded() - 1,
                mode.coded(),
                last / 2,
                last - 1,
                last,
            ]
        };
        for index in indices {
            let mut spoilt = reception.clone();
            spoilt.items[index] = no_item(&mut checker.random);
            read(checker, &spoilt);
        }
        let mut second = second_reception(mode, &mut checker.random);
        second.items[last] = no_item(&mut checker.random);
        read(checker, &second);
    }
    for mode in copied_modes() {
        let reception = any_reception_of(mode, &mut checker.random);
        let (unused, last) = (mode.unused(), mode.items() - 1);
        let any = checker.random.below(mode.items());
        let any_unused = checker.random.pick(&unused);
        let singles = [0, any, unused[0] - 1, unused[0], any_unused, last].map(|index| vec![index]);
        for indices in singles.into_iter().chain([vec![any, any_unused]]) {
            let mut spoilt = reception.clone();
            for index in indices {
                spoilt.items[index] = no_item(&mut checker.random);
            }
            read(checker, &spoilt);
        }
    }
}

pub fn illegal_random(checker: &mut Checker) {
    let random = &mut checker.random;
    let mut reception = any_reception(random);
    match random.below(3) {
        0 => lose_some_bits(&mut reception, random),
        1 => flip_some_bits(&mut reception, random),
        _ => {}
    }
    for _ in 0..random.within(1..4) {
        let index = random.below(reception.items.len());
        reception.items[index] = no_item(random);
    }
    read(checker, &reception);
}

// Damage around the majority limit.

/// Numbers of wrong and lost copies about the limit of so many copies.
fn about_the_limit(copies: usize, random: &mut Random) -> (usize, usize) {
    let any = random.below(copies + 1);
    let lost = random.pick(&[0, 0, 1, 2, any]).min(copies);
    let left = copies - lost;
    let wrong = (left / 2 + random.below(3)).saturating_sub(1).min(left);
    (wrong, lost)
}

/// Every bit of frame control with about half of its copies wrong; on payload every pair of items
/// for bits with two copies.
pub fn limit_systematic(checker: &mut Checker) {
    for mode in modes() {
        let reception = Reception::random(mode, &mut checker.random);
        if mode.kind == 0 {
            limit_of_frame_control(checker, &reception);
        } else {
            limit_of_pad(checker, &reception);
        }
        // The first bit has two copies or more in every mode.
        let mut second = second_reception(mode, &mut checker.random);
        second.tie_bit(0, &mut checker.random);
        read(checker, &second);
    }
}

fn limit_of_frame_control(checker: &mut Checker, reception: &Reception) {
    for bit in 0..reception.mode.coded() {
        let half = reception.copies(bit).len() / 2;
        for wrong in half - 1..=half + 1 {
            let mut damaged = reception.clone();
            damaged.damage_bit(bit, wrong, 0, &mut checker.random);
            read(checker, &damaged);
        }
    }
}

fn limit_of_pad(checker: &mut Checker, reception: &Reception) {
    let mode = reception.mode;
    for bit in [0, mode.repeated() / 2, mode.repeated() - 1] {
        for first in 0..3 {
            for second in 0..3 {
                let mut damaged = reception.clone();
                damaged.items[bit] = first;
                damaged.items[mode.coded() + bit] = second;
                read(checker, &damaged);
            }
        }
    }
}

pub fn limit_random(checker: &mut Checker) {
    let random = &mut checker.random;
    let mut reception = any_reception(random);
    let mode = reception.mode;
    for _ in 0..random.within(1..6) {
        // Of a payload sent once only the first bits have two copies.
        let bits = if mode.kind > 0 && mode.copies == 1 {
            mode.repeated()
        } else {
            mode.coded()
        };
        let bit = random.below(bits);
        let (wrong, lost) = about_the_limit(reception.copies(bit).len(), random);
        reception.damage_bit(bit, wrong, lost, random);
    }
    read(checker, &reception);
}

// Demand 3.

/// A reception as the library itself made it, or None where it refused.
fn made_by_library(checker: &mut Checker, mode: Mode) -> Option<Reception> {
    let random = &mut checker.random;
    let card = any_card_of(mode, random);
    let block = any_block(mode.bytes(), random);
    let room = mode.items() + random.below(3);
    let (report, mut sent) = checker.entry(mode.entries().0, &card, &block, room);
    sent.truncate(mode.items());
    let made = report == Report::done(mode.items());
    made.then(|| Reception::of_items(mode, card, block, sent))
}

fn any_frame_control(random: &mut Random) -> Mode {
    Mode::frame_control(random.below(BANDS.len()) as u8)
}

fn described(reception: &Reception) -> String {
    let digits: String = reception.items.iter().map(u8::to_string).collect();
    format!(
        "{:?} card {:02x?} block {:02x?} items {digits}",
        reception.mode, reception.card, reception.block
    )
}

/// Reads a reception that must come back exactly.
fn must_come_back(checker: &mut Checker, reception: &Reception, otherwise: &str) {
    let (mode, block) = (reception.mode, &reception.block);
    let room = mode.bytes() + checker.random.below(3);
    let read = mode.entries().1;
    let (report, out) = checker.entry(read, &reception.card, &reception.items, room);
    checker.claim(
        report == Report::done(mode.bytes()) && out.starts_with(block),
        || described(reception),
        otherwise,
    );
}

/// Reads a reception that must be refused by 7 with a bit.
fn must_be_undecided(checker: &mut Checker, reception: &Reception, bit: usize, otherwise: &str) {
    let mode = reception.mode;
    let room = mode.bytes() + checker.random.below(3);
    let read = mode.entries().1;
    let (report, _) = checker.entry(read, &reception.card, &reception.items, room);
    checker.claim(
        report == Report::refused(7, bit as u64),
        || described(reception),
        otherwise,
    );
}

/// Carriers to damage: those of one bit, of two bits, or all.
fn carriers_to_damage(mode: Mode, random: &mut Random) -> Vec<usize> {
    match random.below(4) {
        0 => (0..mode.items() / 2).collect(),
        1 => {
            let mut carriers = mode.carriers(random.below(256));
            carriers.extend(mode.carriers(random.below(256)));
            carriers.sort_unstable();
            carriers.dedup();
            carriers
        }
        _ => mode.carriers(random.below(256)),
    }
}

/// Twice the altered and the lost below the band's fewest copies: it comes back exactly.
pub fn comes_back_random(checker: &mut Checker) {
    let mode = any_frame_control(&mut checker.random);
    let Some(mut reception) = made_by_library(checker, mode) else {
        return;
    };
    let random = &mut checker.random;
    let limit = reception.mode.fewest_copies();
    let any = random.below(limit);
    let weight = random.pick(&[limit - 1, limit - 1, limit - 2, any]);
    let (altered, lost) = altered_and_lost(weight, random);
    let carriers = carriers_to_damage(reception.mode, random);
    reception.damage_carriers(&carriers, altered, lost, random);
    must_come_back(checker, &reception, "demand 3: it did not come back");
}

/// All copies of a bit that has the band's fewest lost: refused by 7. The other items of those
/// carriers all carry the bit 128 further on; where they are lost too, the lower of both is named.
fn lose_all_copies(checker: &mut Checker, mut reception: Reception, bit: usize) {
    let random = &mut checker.random;
    let copies = reception.copies(bit).to_vec();
    let any = random.below(copies.len() + 1);
    let others = random.pick(&[0, 0, copies.len(), any]);
    for (n, &item) in copies.iter().enumerate() {
        reception.lose(item);
        if n < others {
            reception.lose(item ^ 1);
        }
    }
    let lowest = if others == copies.len() {
        bit % 128
    } else {
        bit
    };
    let otherwise = "demand 3: a bit without copies was not refused by 7";
    must_be_undecided(checker, &reception, lowest, otherwise);
}

/// Each bit that has the fewest copies, on every band.
pub fn lost_bit_systematic(checker: &mut Checker) {
    for mode in frame_controls() {
        let reception = Reception::random(mode, &mut checker.random);
        for bit in mode.rarest_bits() {
            lose_all_copies(checker, reception.clone(), bit);
        }
        let second = second_reception(mode, &mut checker.random);
        lose_all_copies(checker, second, mode.rarest_bits()[0]);
    }
}

pub fn lost_bit_random(checker: &mut Checker) {
    let mode = any_frame_control(&mut checker.random);
    let Some(reception) = made_by_library(checker, mode) else {
        return;
    };
    let bit = checker.random.pick(&reception.mode.rarest_bits());
    lose_all_copies(checker, reception, bit);
}

// Copied payload (02, T-06).

/// Any payload mode with more than one copy.
fn any_copied_mode(random: &mut Random) -> Mode {
    random.pick(&copied_modes())
}

/// Every bit damaged to just below the count of copies.
fn damage_to_the_limit(reception: &mut Reception, random: &mut Random) {
    reception.damage_all_bits(usize::from(reception.mode.copies) - 1, random);
}

const DID_NOT_COME_BACK: &str = "copied payload: it did not come back";
const NOT_UNDECIDED: &str = "copied payload: a bit without a majority was not refused by 7";

/// Every mode with every bit at the limit, then with anything legal on the unused carriers besides.
pub fn copies_come_back_systematic(checker: &mut Checker) {
    for mode in copied_modes() {
        let Some(mut reception) = made_by_library(checker, mode) else {
            continue;
        };
        damage_to_the_limit(&mut reception, &mut checker.random);
        must_come_back(checker, &reception, DID_NOT_COME_BACK);
        reception.fill_unused(&mut checker.random);
        must_come_back(checker, &reception, DID_NOT_COME_BACK);
    }
}

pub fn copies_come_back_random(checker: &mut Checker) {
    let mode = any_copied_mode(&mut checker.random);
    let Some(mut reception) = made_by_library(checker, mode) else {
        return;
    };
    let random = &mut checker.random;
    let limit = usize::from(mode.copies) - 1;
    let any = random.below(limit + 1);
    reception.damage_all_bits(random.pick(&[limit, limit, any]), random);
    if random.once_in(2) {
        reception.fill_unused(random);
    }
    must_come_back(checker, &reception, DID_NOT_COME_BACK);
}

/// Every mode with every bit at the limit, and one beyond it: the last, then also the last that pads
/// repeat or the one behind it, then also the first.
pub fn copies_undecided_systematic(checker: &mut Checker) {
    for mode in copied_modes() {
        let Some(mut reception) = made_by_library(checker, mode) else {
            continue;
        };
        let random = &mut checker.random;
        damage_to_the_limit(&mut reception, random);
        let (repeated, last) = (mode.repeated(), mode.coded() - 1);
        let about_the_pads = repeated.saturating_sub(random.below(2)).min(last);
        for bit in [last, about_the_pads, 0] {
            reception.undo_bit(bit, &mut checker.random);
            must_be_undecided(checker, &reception, bit, NOT_UNDECIDED);
        }
    }
}

pub fn copies_undecided_random(checker: &mut Checker) {
    let mode = any_copied_mode(&mut checker.random);
    let Some(mut reception) = made_by_library(checker, mode) else {
        return;
    };
    let random = &mut checker.random;
    if random.once_in(2) {
        damage_to_the_limit(&mut reception, random);
    }
    if random.once_in(2) {
        reception.fill_unused(random);
    }
    let bits: Vec<usize> = (0..random.within(1..4))
        .map(|_| random.below(mode.coded()))
        .collect();
    for &bit in &bits {
        reception.undo_bit(bit, random);
    }
    let lowest = bits.into_iter().min().unwrap_or_default();
    must_be_undecided(checker, &reception, lowest, NOT_UNDECIDED);
}

// Undecided and parity-wrong receptions.

/// One to three bits without a majority.
fn lose_some_bits(reception: &mut Reception, random: &mut Random) {
    for _ in 0..random.within(1..4) {
        let bit = random.below(reception.mode.coded());
        if reception.copies(bit).len() > 1 && random.once_in(2) {
            reception.tie_bit(bit, random);
        } else {
            reception.lose_bit(bit);
        }
    }
}

/// Bits decided wrongly, from one to all: of data, of parity or of both.
fn flip_some_bits(reception: &mut Reception, random: &mut Random) {
    let mode = reception.mode;
    let bits = match random.below(3) {
        0 => mode.coded_bits_of(false),
        1 => mode.coded_bits_of(true),
        _ => (0..mode.coded()).collect(),
    };
    let count = match random.below(4) {
        0 => 1,
        1 if mode.kind > 0 => random.within(1..bits.len() + 1),
        _ => random.within(1..20),
    };
    for bit in random.some_of(&bits, count) {
        reception.flip_bit(bit);
    }
}

/// In every mode: single bits lost, the first, the last and those about the pads; then all lost.
pub fn undecided_systematic(checker: &mut Checker) {
    for mode in all_modes() {
        let reception = any_reception_of(mode, &mut checker.random);
        let some = checker.random.below(mode.coded());
        let (repeated, last) = (mode.repeated(), mode.coded() - 1);
        for bit in [
            0,
            1,
            repeated.saturating_sub(1),
            repeated.min(last),
            some,
            last,
        ] {
            let mut damaged = reception.clone();
            damaged.lose_bit(bit);
            read(checker, &damaged);
        }
        let mut all_lost = reception.clone();
        all_lost.items.fill(2);
        read(checker, &all_lost);
        let mut second = second_reception(mode, &mut checker.random);
        second.lose_bit(some);
        read(checker, &second);
    }
}

pub fn undecided_random(checker: &mut Checker) {
    let random = &mut checker.random;
    let mut reception = any_reception(random);
    if random.once_in(3) {
        flip_some_bits(&mut reception, random);
    }
    lose_some_bits(&mut reception, random);
    read(checker, &reception);
}

/// In every mode and with various taps, with more copies one: one wrong data bit, one wrong parity
/// bit, all parity wrong.
pub fn parity_systematic(checker: &mut Checker) {
    for (n, mode) in all_modes().into_iter().enumerate() {
        let (data, parity) = (mode.coded_bits_of(false), mode.coded_bits_of(true));
        let taps = match mode.copies {
            1 => &TAPS[..],
            _ => &TAPS[n % TAPS.len()..][..1],
        };
        for &taps in taps {
            let block = any_block(mode.bytes(), &mut checker.random);
            let reception = Reception::new(mode, mode.card(taps, 7), block);
            let one_data = [checker.random.pick(&data)];
            let one_parity = [checker.random.pick(&parity)];
            for wrong in [&one_data[..], &one_parity[..], &parity[..]] {
                let mut damaged = reception.clone();
                for &bit in wrong {
                    damaged.flip_bit(bit);
                }
                read(checker, &damaged);
            }
        }
        let mut second = second_reception(mode, &mut checker.random);
        second.flip_bit(parity[0]);
        read(checker, &second);
    }
}

pub fn parity_random(checker: &mut Checker) {
    let random = &mut checker.random;
    let mut reception = any_reception(random);
    flip_some_bits(&mut reception, random);
    read(checker, &reception);
}

// Any items.

/// Items of any kind: all alike, any legal ones, many damaged, or sent with another card.
pub fn any_items_random(checker: &mut Checker) {
    let random = &mut checker.random;
    let mut reception = any_reception(random);
    match random.below(5) {
        0 => reception.items.fill(random.pick(&[0, 1, 2, 3])),
        1 => {
            // Mostly one bit, with more or fewer of the others.
            let (most, of) = (random.below(2) as u8, random.within(2..20));
            for item in &mut reception.items {
                *item = if random.once_in(of) {
                    random.below(3) as u8
                } else {
                    most
                };
            }
        }
        2 => {
            for item in &mut reception.items {
                *item = random.below(2) as u8;
            }
        }
        3 => {
            let share = random.within(3..400);
            for item in &mut reception.items {
                if random.once_in(share) {
                    *item = random.below(3) as u8;
                }
            }
        }
        _ => {
            let index = random.within(1..reception.card.len());
            reception.card[index] ^= 1 << random.below(8);
        }
    }
    read(checker, &reception);
}
