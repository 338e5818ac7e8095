//! Cards of both versions: read, written, printed and moved.

use reference::card::{self, Fields, Version};
use reference::cases::{
    all_modes, copied_modes, modes, with_byte, Mode, Random, EXAMPLE, SECOND_EXAMPLE,
};
use reference::copies::COPY_NUM;
use reference::interface::CARD_FIELDS;
use reference::Report;

use crate::checker::Checker;

/// Room for any printed card.
const TEXT_ROOM: usize = 200;

/// Room for any card.
const CARD_ROOM: usize = Version::Two.bytes();

/// Either version.
pub fn any_version(random: &mut Random) -> Version {
    random.pick(&Version::ALL)
}

/// Any defined mode, half of the time with more than one copy where a version can say it.
fn any_mode_of(version: Version, random: &mut Random) -> Mode {
    if version == Version::Two && random.once_in(2) {
        random.pick(&copied_modes())
    } else {
        random.pick(&modes())
    }
}

/// A card of a version with any defined mode, taps and serial.
fn good_card(version: Version, random: &mut Random) -> Vec<u8> {
    let mode = any_mode_of(version, random);
    let serial = random.word_of_any_size();
    mode.card_of(version, random.below(2048) as u16, serial)
}

/// Bytes in a layout whose first three hold these fields, fitting or not, and any taps and serial.
/// A fourth byte of the second layout says one and one.
pub fn card_with(
    layout: Version,
    version: u64,
    mode: u64,
    spare: u64,
    random: &mut Random,
) -> Vec<u8> {
    let taps = random.word() & 2047;
    let head = (version & 15) << 20 | (mode & 255) << 12 | taps << 1 | (spare & 1);
    let mut card = head.to_be_bytes()[5..].to_vec();
    card.resize(layout.bytes() - 8, 0);
    card.extend(random.bytes(8));
    card
}

/// A length that could be taken for a right one, or any other.
fn odd_length(random: &mut Random) -> usize {
    let right = any_version(random).bytes();
    match random.below(8) {
        0 => random.pick(&[10, 11, 12, 13]),
        // Lengths that are right in their low 8 or 16 bits.
        1 => 256 * random.within(1..20) + right,
        2 if random.once_in(20) => 65536 + right,
        3 => random.below(5000),
        _ => random.below(41),
    }
}

/// A fourth byte of a card: anything, nothing but the padding, a copy code, or blocks and a code.
fn any_byte_3(random: &mut Random) -> u8 {
    random.word() as u8 & random.pick(&[0xFF, 0x07, 0x38, 0xF8])
}

/// A card, good or spoilt in any way.
pub fn any_card(random: &mut Random) -> Vec<u8> {
    let version = any_version(random);
    let mut card = good_card(version, random);
    match random.below(13) {
        0 => {
            let length = odd_length(random);
            card = random.bytes(length);
        }
        1 => {
            // A good card, cut or with bytes after it.
            let length = odd_length(random);
            card.extend(random.bytes(length));
            card.truncate(length);
        }
        2 => card[random.below(version.bytes())] ^= 1 << random.below(8),
        3 => card[random.below(3)] = random.word() as u8,
        4 => card = random.bytes(version.bytes()),
        5 | 6 => card = card_with(version, version.number(), random.word(), 0, random),
        7 => {
            let (said, mode, spare) = (random.word(), random.word(), random.word());
            card = card_with(version, said, mode, spare, random);
        }
        8 => {
            card = good_card(Version::Two, random);
            card[3] = any_byte_3(random);
        }
        9 => {
            // The other version in this layout, with the spare bit at times.
            let (mode, spare) = (random.word(), u64::from(random.once_in(4)));
            card = card_with(version, version.other().number(), mode, spare, random);
            if random.once_in(2) {
                card[3] = any_byte_3(random);
            }
        }
        _ => {}
    }
    card
}

/// A room about the needed one: enough, one less, one more, none, or anything.
pub fn any_room(needed: usize, random: &mut Random) -> usize {
    match random.below(8) {
        0 => needed.saturating_sub(1),
        1 => needed + 1,
        2 => 0,
        3 => random.below(needed + 1),
        4 => needed + random.below(40),
        _ => needed,
    }
}

/// In a layout every mode that fits its bits, defined or not, with all versions and both spare
/// bits.
fn all_heads(layout: Version, random: &mut Random) -> Vec<Vec<u8>> {
    let mut cards = Vec::new();
    for mode in 0..256 {
        for version in 0..16 {
            cards.extend((0..2).map(|spare| card_with(layout, version, mode, spare, random)));
        }
    }
    cards
}

/// Every length up to 40: junk, and a good card of version 1 cut or with bytes after it.
pub fn all_lengths(random: &mut Random) -> Vec<Vec<u8>> {
    let mut cards = Vec::new();
    for length in 0..=40 {
        cards.push(random.bytes(length));
        cards.push(cut(good_card(Version::One, random), length, random));
    }
    cards
}

/// A card that says another version.
fn with_version(card: &[u8], version: u64) -> Vec<u8> {
    with_byte(card, 0, (version as u8) << 4 | card[0] & 15)
}

/// A card cut, or with any bytes after it.
fn cut(mut card: Vec<u8>, length: usize, random: &mut Random) -> Vec<u8> {
    card.extend(random.bytes(30));
    card.truncate(length);
    card
}

/// Every length up to 40 with each version from 0 to 3, all else in the first four bytes being
/// right.
pub fn all_lengths_and_versions(random: &mut Random) -> Vec<Vec<u8>> {
    let mut cards = Vec::new();
    for length in 0..=40 {
        for version in 0..4 {
            let card = with_version(&good_card(Version::Two, random), version);
            cards.push(cut(card, length, random));
        }
    }
    cards
}

/// Every fourth byte of twelve that are of a version. They are a card where the version is 2.
pub fn all_bytes_3(version: Version, mode: Mode, random: &mut Random) -> Vec<Vec<u8>> {
    let with = |byte| {
        let fields = mode.fields(version, random.below(2048) as u16, random.word());
        with_byte(&card::pack(&fields, Version::Two), 3, byte)
    };
    (0..=255).map(with).collect()
}

/// Fourth bytes with every count of blocks and every copy code.
pub fn all_counts() -> impl Iterator<Item = u8> {
    (0..32).map(|counts| counts << 3)
}

/// A frame control, whose counts are one and one for good, and any payload.
fn both_kinds(random: &mut Random) -> [Mode; 2] {
    let payloads: Vec<Mode> = modes().into_iter().filter(|mode| mode.kind > 0).collect();
    [modes()[0], random.pick(&payloads)]
}

pub fn read_systematic(checker: &mut Checker) {
    for layout in Version::ALL {
        for card in all_heads(layout, &mut checker.random) {
            checker.card_read(&card, CARD_FIELDS);
        }
    }
    for card in all_lengths(&mut checker.random) {
        checker.card_read(&card, CARD_FIELDS);
        checker.card_read(&card, 0);
    }
    for card in all_lengths_and_versions(&mut checker.random) {
        checker.card_read(&card, CARD_FIELDS);
    }
    let [frame_control, payload] = both_kinds(&mut checker.random);
    for (version, mode) in [
        (Version::Two, frame_control),
        (Version::Two, payload),
        (Version::One, payload),
    ] {
        for card in all_bytes_3(version, mode, &mut checker.random) {
            checker.card_read(&card, CARD_FIELDS);
        }
    }
    for version in Version::ALL {
        for room in 0..=20 {
            let card = good_card(version, &mut checker.random);
            checker.card_read(&card, room);
        }
    }
}

pub fn read_random(checker: &mut Checker) {
    let card = any_card(&mut checker.random);
    let room = any_room(CARD_FIELDS, &mut checker.random);
    checker.card_read(&card, room);
}

pub fn text_systematic(checker: &mut Checker) {
    for layout in Version::ALL {
        for card in all_heads(layout, &mut checker.random) {
            checker.card_text(&card, TEXT_ROOM);
        }
    }
    for card in all_lengths(&mut checker.random) {
        checker.card_text(&card, 10);
    }
    for card in all_lengths_and_versions(&mut checker.random) {
        checker.card_text(&card, TEXT_ROOM);
    }
    let [_, payload] = both_kinds(&mut checker.random);
    for card in all_bytes_3(Version::Two, payload, &mut checker.random) {
        checker.card_text(&card, TEXT_ROOM);
    }
    for mode in modes() {
        text_serials(checker, mode, Version::One);
    }
    // The lines of the counts stand before the serial whatever the mode, so some will do.
    for mode in modes().into_iter().step_by(13) {
        text_serials(checker, mode, Version::Two);
    }
    for version in Version::ALL {
        text_rooms(checker, version);
    }
}

/// Serials of one to twenty digits, at both ends of each.
fn text_serials(checker: &mut Checker, mode: Mode, version: Version) {
    for power in 0..20 {
        let serial = 10u64.pow(power);
        for serial in [serial - 1, serial, u64::MAX] {
            let taps = checker.random.below(2048) as u16;
            checker.card_text(&mode.card_of(version, taps, serial), TEXT_ROOM);
        }
    }
}

/// Every room of the longest text of a version, for it and for two refusals: all bytes but the
/// first, and the other version in this layout, which is 10.
fn text_rooms(checker: &mut Checker, version: Version) {
    let mode = checker.random.pick(&modes());
    let card = mode.card_of(version, 2047, u64::MAX);
    let other = with_version(&card, version.other().number());
    for room in 0..=card::text(&card).len() + 2 {
        checker.card_text(&card, room);
        checker.card_text(&card[1..], room);
    }
    for room in 0..=card::text(&other).len() + 2 {
        checker.card_text(&other, room);
    }
}

pub fn text_random(checker: &mut Checker) {
    let card = any_card(&mut checker.random);
    let room = any_room(card::text(&card).len(), &mut checker.random);
    checker.card_text(&card, room);
}

/// The largest value of each field, in their order. Blocks and copies are counts.
const LARGEST: [u64; CARD_FIELDS] = [15, 3, 7, 1, 3, 2047, 1, u64::MAX, 4, 11];

/// The fields of a version's card with any taps and serial.
fn fields_of(mode: Mode, version: Version, random: &mut Random) -> [u64; CARD_FIELDS] {
    let taps = random.below(2048) as u16;
    let fields = mode.fields(version, taps, random.word_of_any_size());
    fields.to_array()
}

/// Values about the ends of a field, and large ones whose low bits are the good value.
fn odd_values(field: usize, good: u64, random: &mut Random) -> Vec<u64> {
    let most = LARGEST[field];
    let mut values = vec![0, 1, 2, most - 1, most, u64::MAX, random.word_of_any_size()];
    values.extend([most.wrapping_add(1), most.wrapping_add(2)]);
    values.extend([8, 16, 31, 32, 33, 62, 63].map(|power| good.wrapping_add(1 << power)));
    values.push(good.wrapping_add(most).wrapping_add(1));
    values
}

pub fn write_systematic(checker: &mut Checker) {
    for (n, mode) in modes().into_iter().enumerate() {
        let first = fields_of(mode, Version::One, &mut checker.random);
        for room in 0..=13 {
            checker.card_write(&first, room);
        }
        write_odd_values(checker, &first, Version::One.bytes());
        let second = fields_of(mode, Version::Two, &mut checker.random);
        for room in [0, 10, 11, 12, 13] {
            checker.card_write(&second, room);
        }
        // Each field is judged by itself, so some modes will do.
        if n % 13 == 0 {
            write_odd_values(checker, &second, Version::Two.bytes());
        }
    }
    for version in Version::ALL {
        write_all_modes(checker, version);
        for mode in both_kinds(&mut checker.random) {
            write_all_counts(checker, mode, version);
            write_copies(checker, mode, version);
        }
    }
    for mode in copied_modes() {
        for version in Version::ALL {
            let fields = fields_of(mode, version, &mut checker.random);
            checker.card_write(&fields, version.bytes());
        }
    }
}

/// Every count of copies with one block and with two, and every room: 3 goes before 5, and 5 before
/// 11.
fn write_copies(checker: &mut Checker, mode: Mode, version: Version) {
    for copies in COPY_NUM {
        for blocks in [1, 2] {
            for room in 0..=13 {
                let (taps, serial) = (checker.random.below(2048) as u16, checker.random.word());
                let fields = Fields {
                    blocks,
                    ..mode.copied(copies).fields(version, taps, serial)
                };
                checker.card_write(&fields.to_array(), room);
            }
        }
    }
}

/// Each field of a card with each odd value.
fn write_odd_values(checker: &mut Checker, fields: &[u64; CARD_FIELDS], room: usize) {
    for field in 0..CARD_FIELDS {
        for value in odd_values(field, fields[field], &mut checker.random) {
            let mut spoilt = *fields;
            spoilt[field] = value;
            checker.card_write(&spoilt, room);
        }
    }
}

/// Every mode up to one beyond what fits each field's bits.
fn write_all_modes(checker: &mut Checker, version: Version) {
    for band in 0..5 {
        for kind in 0..9 {
            for rate in 0..3 {
                for modulation in 0..5 {
                    let fields = Fields {
                        version: version.number(),
                        band,
                        kind,
                        rate,
                        modulation,
                        taps: checker.random.below(2048) as u64,
                        serial: checker.random.word(),
                        ..EXAMPLE
                    };
                    checker.card_write(&fields.to_array(), version.bytes());
                }
            }
        }
    }
}

/// Counts up to beyond their ends, and large ones, each of blocks with each of copies.
fn write_all_counts(checker: &mut Checker, mode: Mode, version: Version) {
    let large = [257, (1 << 32) + 1, u64::MAX];
    for blocks in (0..=6).chain(large) {
        for copies in (0..=13).chain(large) {
            let (taps, serial) = (checker.random.below(2048) as u16, checker.random.word());
            let fields = Fields {
                blocks,
                copies,
                ..mode.fields(version, taps, serial)
            };
            let room = checker.random.pick(&[version.bytes(), CARD_ROOM, 0]);
            checker.card_write(&fields.to_array(), room);
        }
    }
}

pub fn write_random(checker: &mut Checker) {
    let random = &mut checker.random;
    let (mode, version) = (any_mode_of(Version::Two, random), any_version(random));
    let mut fields = fields_of(mode, version, random);
    for _ in 0..random.below(4) {
        let field = random.below(CARD_FIELDS);
        let values = odd_values(field, fields[field], random);
        fields[field] = random.pick(&values);
    }
    let room = any_room(version.bytes(), random);
    checker.card_write(&fields, room);
}

/// Versions that are asked for: both, and some that are none.
const ASKED: [u64; 7] = [0, 1, 2, 3, 16, (1 << 32) + 1, u64::MAX];

/// A good card by what the papers say of it whatever the reference does: it comes back from its own
/// version as it is, and from the other one the same, or does not go there.
fn there_and_back(checker: &mut Checker, card: &[u8], version: Version) {
    let (here, there) = (version, version.other());
    let done = (Report::done(here.bytes()), card.to_vec());
    let same = checker.card_move(card, here.number(), here.bytes());
    checker.claim(
        same == done,
        || format!("card {card:02x?} moved to its own version"),
        "a card of the version asked for did not come back as it is",
    );
    let (report, moved) = checker.card_move(card, there.number(), there.bytes());
    if version == Version::Two && card[3] != 0 {
        checker.claim(
            report == Report::refused(11, 0),
            || format!("card {card:02x?} moved to version 1"),
            "a card that says more copies was not refused by 11",
        );
        return;
    }
    let back = checker.card_move(&moved, here.number(), here.bytes());
    checker.claim(
        back == done,
        || format!("card {card:02x?} moved to {moved:02x?} and back"),
        "the round trip did not give the same bytes",
    );
}

/// Good cards of both versions, and bad ones for each number that a card is refused by.
fn some_cards(random: &mut Random) -> Vec<Vec<u8>> {
    let mut cards = Vec::new();
    for fields in [EXAMPLE, SECOND_EXAMPLE] {
        for layout in Version::ALL {
            cards.push(card::pack(&fields, layout));
            cards.push(card::pack(&Fields { spare: 1, ..fields }, layout));
            cards.push(card::pack(&Fields { kind: 5, ..fields }, layout));
        }
    }
    for (fields, bytes) in [
        (SECOND_EXAMPLE, &[0x01, 0x08, 0x28, 0x30, 0x40, 0x48][..]),
        (EXAMPLE, &[0x01, 0xFF]),
    ] {
        let card = card::pack(&fields, Version::Two);
        cards.extend(bytes.iter().map(|&byte| with_byte(&card, 3, byte)));
    }
    cards.extend([10, 13].map(|length| random.bytes(length)));
    cards
}

pub fn move_systematic(checker: &mut Checker) {
    for mode in all_modes() {
        for &version in mode.versions() {
            let taps = checker.random.below(2048) as u16;
            let card = mode.card_of(version, taps, checker.random.word_of_any_size());
            there_and_back(checker, &card, version);
        }
    }
    for card in some_cards(&mut checker.random) {
        for asked in ASKED {
            for room in 0..=14 {
                checker.card_move(&card, asked, room);
            }
        }
    }
    for card in all_lengths_and_versions(&mut checker.random) {
        for asked in [1, 2, 3] {
            checker.card_move(&card, asked, CARD_ROOM);
        }
    }
    for version in Version::ALL {
        for mode in 0..256 {
            let card = card_with(version, version.number(), mode, 0, &mut checker.random);
            move_to_either(checker, &card);
        }
    }
    for mode in both_kinds(&mut checker.random) {
        for card in all_bytes_3(Version::Two, mode, &mut checker.random) {
            move_to_either(checker, &card);
        }
        // 3 goes before 5, and 5 before 11.
        for counts in all_counts() {
            let fields = mode.fields(Version::Two, 731, checker.random.word());
            let card = with_byte(&card::pack(&fields, Version::Two), 3, counts);
            for asked in [1, 2, 3] {
                for room in [0, 10, 11, 12] {
                    checker.card_move(&card, asked, room);
                }
            }
        }
    }
}

fn move_to_either(checker: &mut Checker, card: &[u8]) {
    let asked = any_version(&mut checker.random);
    checker.card_move(card, asked.number(), CARD_ROOM);
}

/// A version asked for: most often one of the two.
fn any_asked(random: &mut Random) -> u64 {
    match random.below(8) {
        0 => random.pick(&ASKED),
        1 => random.word_of_any_size(),
        // Right in its low bits only.
        2 => any_version(random).number() + (1 << random.within(2..64)),
        _ => any_version(random).number(),
    }
}

pub fn move_random(checker: &mut Checker) {
    let random = &mut checker.random;
    if random.once_in(4) {
        let version = any_version(random);
        let card = good_card(version, random);
        there_and_back(checker, &card, version);
        return;
    }
    let (card, asked) = (any_card(random), any_asked(random));
    let room = any_room(any_version(random).bytes(), random);
    checker.card_move(&card, asked, room);
}

#[cfg(test)]
mod tests {
    use super::*;

    fn number(card: &[u8]) -> u32 {
        card::read(card).map_or_else(|refusal| refusal.number, |_| 0)
    }

    #[test]
    fn any_card_is_refused_in_every_way_and_taken_in_both_versions() {
        let mut random = Random::new(1);
        let mut seen = Vec::new();
        for _ in 0..3000 {
            let card = any_card(&mut random);
            let length = match card.len() {
                11 | 12 => card.len(),
                _ => 0,
            };
            seen.push((length, number(&card)));
        }
        seen.sort_unstable();
        seen.dedup();
        let of_length = |length| [0, 2, 3, 10].map(|number| (length, number));
        assert_eq!(
            seen,
            [&[(0, 1)][..], &of_length(11), &of_length(12)].concat()
        );
    }

    #[test]
    fn cards_say_what_they_are_made_for() {
        let mut random = Random::new(2);
        for version in Version::ALL {
            assert_eq!(number(&good_card(version, &mut random)), 0);
            // Band 0, kind 1, rate 1/2 and QPSK, with this version, the other and none.
            let said = [version.number(), version.other().number(), 3];
            let numbers = said.map(|said| {
                let card = card_with(version, said, 9, 0, &mut random);
                assert_eq!(card.len(), version.bytes());
                number(&card)
            });
            assert_eq!(numbers, [0, 10, 2]);
            let spare = card_with(version, version.number(), 9, 1, &mut random);
            assert_eq!(number(&spare), 2);
        }
        for (mode, counts) in [(modes()[0], 1), (modes()[1], 6)] {
            let bytes_3 = all_bytes_3(Version::Two, mode, &mut random);
            let taken = bytes_3.iter().filter(|card| number(card) == 0).count();
            assert_eq!((bytes_3.len(), taken), (256, counts));
        }
        let bytes_3 = all_bytes_3(Version::One, modes()[0], &mut random);
        assert!(bytes_3.iter().all(|card| number(card) == 10));
        // Eleven bytes of version 1 and twelve of version 2 are taken, of all lengths and versions.
        let all = all_lengths_and_versions(&mut random);
        let taken = all.iter().filter(|card| number(card) == 0).count();
        assert_eq!((all.len(), taken), (4 * 41, 2));
    }
}
