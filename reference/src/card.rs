//! The job card (01, "The job card"; 02, T-03 and T-06; D26, D27): bit-packed, most significant
//! first.
//!
//! The first three bytes hold, from the left, version 4 bits, band 2, kind 3, rate 1,
//! modulation 2, taps 11 and spare 1. The last eight bytes hold the serial. That is all of a card
//! of version 1. Version 2 has a byte between them: blocks less one 2 bits, copy code 3 and
//! padding 3.

use crate::carriers::BANDS;
use crate::copies::COPY_NUM;
use crate::{big_endian, number, Report};

/// The versions of the card. Each has a layout of its own.
#[derive(Clone, Copy, Debug, PartialEq, Eq)]
pub enum Version {
    One = 1,
    Two = 2,
}

impl Version {
    pub const ALL: [Version; 2] = [Version::One, Version::Two];

    /// The number that the card says.
    pub const fn number(self) -> u64 {
        self as u64
    }

    /// Length of a card in bytes.
    pub const fn bytes(self) -> usize {
        match self {
            Version::One => 11,
            Version::Two => 12,
        }
    }

    pub const fn other(self) -> Version {
        match self {
            Version::One => Version::Two,
            Version::Two => Version::One,
        }
    }

    /// The version of a number; 2 where there is none.
    fn of_number(number: u64) -> Result<Version, Report> {
        let mut all = Version::ALL.into_iter();
        all.find(|version| version.number() == number)
            .ok_or(Report::refused(number::VERSION_SPARE_OR_PADDING, 0))
    }

    /// The version whose cards have so many bytes; 1 with the length where there is none.
    fn of_length(length: usize) -> Result<Version, Report> {
        let mut all = Version::ALL.into_iter();
        all.find(|version| version.bytes() == length)
            .ok_or(Report::refused(number::CARD_LENGTH, length as u64))
    }
}

/// A card that no cause about cards refuses. Its spare bit is 0. Blocks and copies are counts, one
/// each on a card of version 1.
#[derive(Clone, Copy, Debug, PartialEq, Eq)]
pub struct Card {
    pub version: Version,
    pub band: u8,
    pub kind: u8,
    pub rate: u8,
    pub modulation: u8,
    pub taps: u16,
    pub serial: u64,
    pub blocks: u8,
    pub copies: u8,
}

impl Card {
    pub const fn fields(&self) -> Fields {
        Fields {
            version: self.version.number(),
            band: self.band as u64,
            kind: self.kind as u64,
            rate: self.rate as u64,
            modulation: self.modulation as u64,
            taps: self.taps as u64,
            spare: 0,
            serial: self.serial,
            blocks: self.blocks as u64,
            copies: self.copies as u64,
        }
    }
}

/// The fields a writer hands over. Each is wide enough to hold a value that doesn't fit its bits.
/// Blocks and copies are counts.
#[derive(Clone, Copy, Debug, PartialEq, Eq)]
pub struct Fields {
    pub version: u64,
    pub band: u64,
    pub kind: u64,
    pub rate: u64,
    pub modulation: u64,
    pub taps: u64,
    pub spare: u64,
    pub serial: u64,
    pub blocks: u64,
    pub copies: u64,
}

/// How many fields a card has.
pub const CARD_FIELDS: usize = 10;

impl Fields {
    /// The fields in the order of D26: as the first card holds them, then those of the second.
    pub const fn to_array(&self) -> [u64; CARD_FIELDS] {
        [
            self.version,
            self.band,
            self.kind,
            self.rate,
            self.modulation,
            self.taps,
            self.spare,
            self.serial,
            self.blocks,
            self.copies,
        ]
    }

    /// The reverse of `to_array`.
    pub const fn from_array(fields: [u64; CARD_FIELDS]) -> Fields {
        let [version, band, kind, rate, modulation, taps, spare, serial, blocks, copies] = fields;
        Fields {
            version,
            band,
            kind,
            rate,
            modulation,
            taps,
            spare,
            serial,
            blocks,
            copies,
        }
    }
}

/// The byte that says one block and one copy.
const ONE_AND_ONE: u8 = 0;

/// The byte of the second card that says so many blocks and copies, with the padding zero; None
/// where a count doesn't fit its bits.
fn counts_byte(blocks: u64, copies: u64) -> Option<u8> {
    // Two bits hold blocks less one.
    let less_one = blocks.checked_sub(1).filter(|&less_one| less_one < 4)?;
    let code = COPY_NUM
        .iter()
        .position(|&count| u64::from(count) == copies)?;
    Some((less_one as u8) << 6 | (code as u8) << 3)
}

/// The copies that such a byte says; 0, which is no count of copies, for codes 6 and 7.
fn copies_of(byte: u8) -> u64 {
    let code = usize::from(byte >> 3 & 7);
    COPY_NUM.get(code).map_or(0, |&count| count.into())
}

/// "Defined modes": any of the bands; kind 0 to 4; modulation 0 to 2; rate 1 only with kind 4; kind
/// 0 only with QPSK. A value too large for its bits is never part of a defined mode.
pub(crate) fn mode_is_defined(band: u64, kind: u64, rate: u64, modulation: u64) -> bool {
    band < BANDS.len() as u64
        && kind <= 4
        && rate <= 1
        && modulation <= 2
        && (rate == 0 || kind == 4)
        && (kind != 0 || modulation == 1)
}

/// The most blocks of a payload that are defined, until T-07 defines more.
const DEFINED_BLOCKS: u64 = 1;

/// Whether the counts fit their bits and are defined. Kind 0 always needs one and one.
fn counts_are_defined(kind: u64, blocks: u64, copies: u64) -> bool {
    counts_byte(blocks, copies).is_some()
        && blocks <= DEFINED_BLOCKS
        && (kind != 0 || (blocks, copies) == (1, 1))
}

/// The version that fields say: 2 where it is none or the spare bit is not 0.
fn version_of(fields: &Fields) -> Result<Version, Report> {
    if fields.spare != 0 {
        return Err(Report::refused(number::VERSION_SPARE_OR_PADDING, 0));
    }
    Version::of_number(fields.version)
}

/// The card that the other fields say: 3 where a mode or a count is not defined, or taps don't fit.
fn card_of(version: Version, fields: &Fields) -> Result<Card, Report> {
    let defined = mode_is_defined(fields.band, fields.kind, fields.rate, fields.modulation)
        && counts_are_defined(fields.kind, fields.blocks, fields.copies);
    if !defined || fields.taps > 2047 {
        return Err(Report::refused(number::MODE, 0));
    }
    Ok(Card {
        version,
        band: fields.band as u8,
        kind: fields.kind as u8,
        rate: fields.rate as u8,
        modulation: fields.modulation as u8,
        taps: fields.taps as u16,
        serial: fields.serial,
        blocks: fields.blocks as u8,
        copies: fields.copies as u8,
    })
}

/// What the bytes of a card hold, once nothing of rows 1 and 2 refuses them.
struct Unpacked {
    layout: Version,
    version: Version,
    fields: Fields,
}

impl Unpacked {
    /// Takes the fields out of a card: refused by 1 with its length, and by 2.
    fn new(card: &[u8]) -> Result<Unpacked, Report> {
        let layout = Version::of_length(card.len())?;
        let (head, rest) = card.split_at(3);
        let (between, serial) = rest.split_at(rest.len() - 8);
        let head = big_endian(head);
        // A card of version 1 has no such byte, and says what this one would.
        let counts = between.first().copied().unwrap_or(ONE_AND_ONE);
        let fields = Fields {
            version: head >> 20,
            band: head >> 18 & 3,
            kind: head >> 15 & 7,
            rate: head >> 14 & 1,
            modulation: head >> 12 & 3,
            taps: head >> 1 & 2047,
            spare: head & 1,
            serial: big_endian(serial),
            blocks: u64::from(counts >> 6) + 1,
            copies: copies_of(counts),
        };
        let version = version_of(&fields)?;
        // On twelve bytes of version 1 these three bits may be anything: that card is 10.
        let padding = counts & 7;
        if version == Version::Two && padding != 0 {
            return Err(Report::refused(number::VERSION_SPARE_OR_PADDING, 0));
        }
        Ok(Unpacked {
            layout,
            version,
            fields,
        })
    }

    /// The card: refused by 10 and by 3.
    fn card(&self) -> Result<Card, Report> {
        if self.version != self.layout {
            return Err(Report::refused(number::VERSION_AND_LENGTH, 0));
        }
        card_of(self.version, &self.fields)
    }
}

/// Puts fields that fit their bits into the layout of a version, whatever they say. The layout of
/// version 1 has no place for the counts.
pub fn pack(fields: &Fields, layout: Version) -> Vec<u8> {
    let head = fields.version << 20
        | fields.band << 18
        | fields.kind << 15
        | fields.rate << 14
        | fields.modulation << 12
        | fields.taps << 1
        | fields.spare;
    let mut card = head.to_be_bytes()[5..].to_vec();
    if layout == Version::Two {
        let Some(counts) = counts_byte(fields.blocks, fields.copies) else {
            panic!("{fields:?}: the counts do not fit their bits");
        };
        card.push(counts);
    }
    card.extend(fields.serial.to_be_bytes());
    card
}

/// Reads a card: refused by 1 with its length, by 2, 10 and 3.
pub fn read(card: &[u8]) -> Result<Card, Report> {
    Unpacked::new(card)?.card()
}

/// Writes a card: refused by 2, 3, by 5 with its version's length and by 11 (01; D9, D26).
pub fn write(fields: &Fields, out: &mut [u8]) -> Report {
    try_write(fields, out).map_or_else(|refusal| refusal, Report::done)
}

/// Moves a card to the version asked for: refused by 1 with the card's length, by 2 for the card or
/// for that version, by 10, 3, by 5 with that version's length and by 11 (02, T-03; D26).
pub fn move_to(card: &[u8], version: u64, out: &mut [u8]) -> Report {
    try_move(card, version, out).map_or_else(|refusal| refusal, Report::done)
}

fn try_write(fields: &Fields, out: &mut [u8]) -> Result<usize, Report> {
    let version = version_of(fields)?;
    put(&card_of(version, fields)?, out)
}

fn try_move(card: &[u8], version: u64, out: &mut [u8]) -> Result<usize, Report> {
    let unpacked = Unpacked::new(card)?;
    let version = Version::of_number(version)?;
    let card = unpacked.card()?;
    put(&Card { version, ..card }, out)
}

/// Puts a card into the output, in the layout of its version: refused by 5 with the length, then by
/// 11 where version 1 can't say the counts.
fn put(card: &Card, out: &mut [u8]) -> Result<usize, Report> {
    let needed = card.version.bytes();
    let Some(front) = out.get_mut(..needed) else {
        return Err(Report::refused(number::OUTPUT, needed as u64));
    };
    if card.version == Version::One && (card.blocks, card.copies) != (1, 1) {
        return Err(Report::refused(number::COUNTS, 0));
    }
    front.copy_from_slice(&pack(&card.fields(), card.version));
    Ok(needed)
}

/// What the program prints for the bytes it read (01; 02, T-03; D11).
pub fn text(card: &[u8]) -> String {
    match read(card) {
        Ok(card) => lines(&card),
        Err(refusal) => format!("refused {}\n", refusal.number),
    }
}

/// A good card's lines; those of the counts are for version 2 only.
fn lines(card: &Card) -> String {
    let counts = match card.version {
        Version::One => String::new(),
        Version::Two => format!("blocks {}\ncopies {}\n", card.blocks, card.copies),
    };
    format!(
        "version {}\nband {}\nkind {}\nrate {}\nmodulation {}\ntaps {:011b}\n{counts}serial {}\n",
        card.version.number(),
        card.band,
        card.kind,
        card.rate,
        card.modulation,
        card.taps,
        card.serial
    )
}

#[cfg(test)]
mod tests {
    use super::*;
    use crate::cases::{modes, with_byte, Random, EXAMPLE as GOOD, SECOND_EXAMPLE};

    /// More than any card needs.
    const ROOM: usize = 13;

    const OF_KIND_0: Fields = Fields {
        kind: 0,
        rate: 0,
        ..GOOD
    };

    fn good_card(version: Version) -> Vec<u8> {
        let fields = Fields {
            version: version.number(),
            ..GOOD
        };
        pack(&fields, version)
    }

    fn number_of(card: &[u8]) -> u32 {
        read(card).map_or_else(|refusal| refusal.number, |_| 0)
    }

    /// What is done to an output of known bytes: the answer, and the bytes written. All others must
    /// be kept, so all of them on a refusal.
    fn done_to(room: usize, act: impl FnOnce(&mut [u8]) -> Report) -> (Report, Vec<u8>) {
        let mut out = vec![0xAA; room];
        let report = act(&mut out);
        let written = match report.number {
            0 => report.value as usize,
            _ => 0,
        };
        assert!(out[written..].iter().all(|&byte| byte == 0xAA));
        out.truncate(written);
        (report, out)
    }

    fn written_to(room: usize, fields: Fields) -> (Report, Vec<u8>) {
        done_to(room, |out| write(&fields, out))
    }

    fn written(fields: Fields) -> u32 {
        let (report, _) = written_to(ROOM, fields);
        if report.number != 0 {
            assert_eq!(report.value, 0);
        }
        report.number
    }

    fn moved_to(room: usize, card: &[u8], version: u64) -> (Report, Vec<u8>) {
        done_to(room, |out| move_to(card, version, out))
    }

    /// A card moved to its own version, and to the other and back again, from this end.
    fn check_moves(card: &[u8], version: Version) {
        let done = |version: Version, card: &[u8]| (Report::done(version.bytes()), card.to_vec());
        let (here, there) = (version.number(), version.other().number());
        assert_eq!(moved_to(ROOM, card, here), done(version, card));
        let (report, moved) = moved_to(ROOM, card, there);
        assert_eq!(report, Report::done(version.other().bytes()));
        assert_eq!(moved_to(ROOM, &moved, here), done(version, card));

        // The same fields, but for the version.
        let moved = read(&moved).unwrap();
        assert_eq!(moved.version, version.other());
        assert_eq!(Card { version, ..moved }, read(card).unwrap());
    }

    #[test]
    fn every_head_is_read_as_its_fields_say() {
        // All 2^24 heads would be slow in a debug build; every 7th visits all fields' values.
        for head in (0u32..1 << 24).step_by(7) {
            let digits = format!("{head:024b}");
            let field = |from: usize, to: usize| u64::from_str_radix(&digits[from..to], 2).unwrap();
            let fields = Fields {
                version: field(0, 4),
                band: field(4, 6),
                kind: field(6, 9),
                rate: field(9, 10),
                modulation: field(10, 12),
                taps: field(12, 23),
                spare: field(23, 24),
                serial: 9,
                blocks: 1,
                copies: 1,
            };
            let mode = if fields.kind > 4
                || fields.modulation > 2
                || (fields.rate == 1 && fields.kind != 4)
                || (fields.kind == 0 && fields.modulation != 1)
            {
                3
            } else {
                0
            };
            // Eleven bytes are version 1's and twelve version 2's; the fourth says one and one.
            for version in Version::ALL {
                let mut bytes = vec![0; version.bytes()];
                bytes[..3].copy_from_slice(&head.to_be_bytes()[1..]);
                bytes[version.bytes() - 1] = 9;
                let expected = match (fields.spare, fields.version) {
                    (0, 1 | 2) if fields.version == version.number() => mode,
                    (0, 1 | 2) => 10,
                    _ => 2,
                };
                match read(&bytes) {
                    Err(refusal) => assert_eq!(refusal, Report::refused(expected, 0)),
                    Ok(card) => {
                        assert_eq!(expected, 0);
                        assert_eq!(card.fields(), fields);
                        let done = Report::done(version.bytes());
                        assert_eq!(written_to(ROOM, fields), (done, bytes.clone()));
                        check_moves(&bytes, version);
                    }
                }
            }
        }
    }

    #[test]
    fn lengths_other_than_eleven_and_twelve_are_refused_by_one() {
        for length in (0..=40).filter(|length| ![11, 12].contains(length)) {
            let card = vec![0xFF; length];
            let refusal = Report::refused(1, length as u64);
            assert_eq!(read(&card), Err(refusal));
            assert_eq!(text(&card), "refused 1\n");
            for version in [0, 1, 2, 3, u64::MAX] {
                assert_eq!(moved_to(0, &card, version).0, refusal);
            }
        }
        assert_eq!(read(&[0xFF; 11]), Err(Report::refused(2, 0)));
        assert_eq!(read(&[0xFF; 12]), Err(Report::refused(2, 0)));
    }

    #[test]
    fn a_field_too_large_is_two_or_three() {
        assert_eq!(written(GOOD), 0);
        for good in [GOOD, SECOND_EXAMPLE] {
            assert_eq!(
                written(Fields {
                    version: 17,
                    ..good
                }),
                2
            );
            assert_eq!(
                written(Fields {
                    version: 0,
                    band: 9,
                    ..good
                }),
                2
            );
            assert_eq!(
                written(Fields {
                    spare: 2,
                    taps: 2048,
                    ..good
                }),
                2
            );
            for (band, expected) in [(1, 0), (2, 0), (3, 0), (4, 3), (5, 3), (1 << 32, 3)] {
                assert_eq!(written(Fields { band, ..good }), expected);
            }
            assert_eq!(written(Fields { kind: 8, ..good }), 3);
            assert_eq!(written(Fields { rate: 2, ..good }), 3);
            assert_eq!(
                written(Fields {
                    modulation: 4,
                    ..good
                }),
                3
            );
            assert_eq!(written(Fields { taps: 2048, ..good }), 3);
            assert_eq!(
                written(Fields {
                    taps: u64::MAX,
                    ..good
                }),
                3
            );
            assert_eq!(
                written(Fields {
                    kind: 1 << 63,
                    ..good
                }),
                3
            );
            assert_eq!(
                written(Fields {
                    taps: 2047,
                    serial: u64::MAX,
                    ..good
                }),
                0
            );
        }
    }

    #[test]
    fn versions_other_than_one_and_two_are_two() {
        let fits = [0].into_iter().chain(3..16);
        let large = [16, 17, 18, 257, 258, (1 << 32) + 1, (1 << 32) + 2, u64::MAX];
        for version in fits.chain(large) {
            assert_eq!(written(Fields { version, ..GOOD }), 2);
            for card in Version::ALL.map(good_card) {
                let refusal = (Report::refused(2, 0), Vec::new());
                assert_eq!(moved_to(ROOM, &card, version), refusal);
            }
        }
    }

    #[test]
    fn five_comes_with_the_length_and_bytes_beyond_are_kept() {
        let mut short = [0xAA; 10];
        assert_eq!(write(&GOOD, &mut short), Report::refused(5, 11));
        assert_eq!(short, [0xAA; 10]);
        assert_eq!(
            write(&Fields { kind: 5, ..GOOD }, &mut short),
            Report::refused(3, 0)
        );
        let mut long = [0xAA; 13];
        assert_eq!(write(&GOOD, &mut long), Report::done(11));
        assert_eq!(long[11..], [0xAA; 2]);
        assert_eq!(read(&long[..11]).unwrap().serial, GOOD.serial);

        for room in 0..=14 {
            for (version, needed) in [(1, 11), (2, 12)] {
                let expected = if room < needed {
                    Report::refused(5, needed as u64)
                } else {
                    Report::done(needed)
                };
                assert_eq!(written_to(room, Fields { version, ..GOOD }).0, expected);
                for card in Version::ALL.map(good_card) {
                    assert_eq!(moved_to(room, &card, version).0, expected);
                }
            }
        }
    }

    /// The copy codes of 02 (T-03) with their counts.
    const CODES: [(u8, u64); 6] = [(0, 1), (1, 2), (2, 4), (3, 5), (4, 7), (5, 11)];

    #[test]
    fn counts_have_codes_and_codes_have_counts() {
        for (code, count) in CODES {
            for blocks in 1..=4 {
                let byte = (blocks as u8 - 1) * 64 + code * 8;
                assert_eq!(counts_byte(blocks, count), Some(byte));
                assert_eq!(copies_of(byte), count);
            }
        }
        assert_eq!([6, 7].map(|code| copies_of(code * 8)), [0, 0]);
        let counts = CODES.map(|(_, count)| count);
        for copies in (0..300).chain([(1 << 32) + 1, u64::MAX]) {
            let has_code = counts.contains(&copies);
            assert_eq!(counts_byte(1, copies).is_some(), has_code, "{copies}");
        }
        for blocks in [0, 5, 6, 257, (1 << 32) + 1, u64::MAX] {
            assert_eq!(counts_byte(blocks, 1), None);
        }
        assert_eq!(counts_byte(1, 1), Some(ONE_AND_ONE));
    }

    #[test]
    fn every_fourth_byte_is_judged_by_version_spare_and_counts() {
        for good in [GOOD, OF_KIND_0] {
            for (version, spare) in [(1, 0), (2, 0), (1, 1), (2, 1), (3, 0), (0, 1)] {
                let fields = Fields {
                    version,
                    spare,
                    ..good
                };
                // Of a payload one block and copy codes 0 to 5, of frame control one and one.
                let defined: &[u8] = match good.kind {
                    0 => &[0x00],
                    _ => &[0x00, 0x08, 0x10, 0x18, 0x20, 0x28],
                };
                for byte in 0..=255u8 {
                    let card = with_byte(&pack(&fields, Version::Two), 3, byte);
                    let expected = match (version, spare) {
                        (1, 0) => 10,
                        (2, 0) if byte % 8 != 0 => 2,
                        (2, 0) if !defined.contains(&byte) => 3,
                        (2, 0) => 0,
                        _ => 2,
                    };
                    assert_eq!(number_of(&card), expected, "{card:02x?}");
                    assert_eq!(moved_to(ROOM, &card, 2).0.number, expected);
                    // Version 1 can't say more than one copy.
                    let back = if expected == 0 && byte != 0 {
                        11
                    } else {
                        expected
                    };
                    assert_eq!(moved_to(ROOM, &card, 1).0.number, back);
                    if expected > 0 {
                        assert_eq!(text(&card), format!("refused {expected}\n"));
                    }
                }
            }
        }
    }

    #[test]
    fn counts_are_judged_when_written() {
        let large = [257, (1 << 32) + 1, u64::MAX];
        for good in [GOOD, OF_KIND_0] {
            for version in [1, 2] {
                for blocks in (0..=6).chain(large) {
                    for copies in (0..=13).chain(large) {
                        let fields = Fields {
                            version,
                            blocks,
                            copies,
                            ..good
                        };
                        let expected = match (version, good.kind, blocks, copies) {
                            (_, _, 1, 1) => 0,
                            (1, 1.., 1, 2 | 4 | 5 | 7 | 11) => 11,
                            (2, 1.., 1, 2 | 4 | 5 | 7 | 11) => 0,
                            _ => 3,
                        };
                        assert_eq!(written(fields), expected, "{fields:?}");
                        // 3 goes before 5, and 5 before 11.
                        let without_room = match expected {
                            3 => Report::refused(3, 0),
                            _ => Report::refused(5, 10 + version),
                        };
                        assert_eq!(written_to(0, fields).0, without_room);
                        let spare = 1;
                        assert_eq!(written(Fields { spare, ..fields }), 2);
                    }
                }
            }
        }
    }

    #[test]
    fn eleven_is_last_and_for_version_1_alone() {
        for (code, copies) in CODES.into_iter().skip(1) {
            let second = Fields {
                copies,
                ..SECOND_EXAMPLE
            };
            let bytes = with_byte(&pack(&SECOND_EXAMPLE, Version::Two), 3, code * 8);
            let first = Fields {
                version: 1,
                ..second
            };
            for room in 0..=ROOM {
                let (to_first, to_second) = match room {
                    ..11 => (Report::refused(5, 11), Report::refused(5, 12)),
                    11 => (Report::refused(11, 0), Report::refused(5, 12)),
                    _ => (Report::refused(11, 0), Report::done(12)),
                };
                assert_eq!(written_to(room, first).0, to_first);
                assert_eq!(moved_to(room, &bytes, 1).0, to_first);
                for (report, out) in [written_to(room, second), moved_to(room, &bytes, 2)] {
                    assert_eq!(report, to_second);
                    assert!(out.is_empty() || out == bytes);
                }
                assert_eq!(moved_to(room, &bytes, 3).0, Report::refused(2, 0));
            }
            assert_eq!(read(&bytes).unwrap().fields(), second);
            assert!(text(&bytes).contains(&format!("\nblocks 1\ncopies {copies}\nserial ")));
        }
    }

    /// No card that is read has more blocks yet, so such a card is put as no fields could say it.
    #[test]
    fn more_blocks_are_eleven_too() {
        let card = read(&good_card(Version::One)).unwrap();
        for blocks in 2..=4 {
            let put_into = |room, version| {
                let card = Card {
                    version,
                    blocks,
                    ..card
                };
                done_to(room, |out| {
                    put(&card, out).map_or_else(|refusal| refusal, Report::done)
                })
            };
            assert_eq!(put_into(10, Version::One).0, Report::refused(5, 11));
            assert_eq!(put_into(ROOM, Version::One).0, Report::refused(11, 0));
            let (report, bytes) = put_into(ROOM, Version::Two);
            assert_eq!((report, bytes[3]), (Report::done(12), (blocks - 1) * 64));
        }
    }

    #[test]
    fn cards_of_every_mode_move_there_and_back() {
        let mut random = Random::new(6);
        for mode in modes() {
            for version in Version::ALL {
                let taps = random.below(2048) as u16;
                let serial = random.word_of_any_size();
                check_moves(&mode.card_of(version, taps, serial), version);
            }
        }
    }

    #[test]
    fn moving_changes_the_version_and_the_fourth_byte_alone() {
        let mut random = Random::new(7);
        for mode in modes() {
            let (taps, serial) = (random.below(2048) as u16, random.word());
            let first = mode.card_of(Version::One, taps, serial);
            let mut expected = first.clone();
            expected[0] += 0x10;
            expected.insert(3, 0);
            assert_eq!(moved_to(ROOM, &first, 2), (Report::done(12), expected));
        }
    }

    /// Cards, versions asked for and rooms that are wrong at once: which row is named.
    #[test]
    fn where_two_causes_meet_the_first_row_is_named() {
        let on = |layout, version, kind, spare| {
            let fields = Fields {
                version,
                kind,
                spare,
                rate: 0,
                ..GOOD
            };
            pack(&fields, layout)
        };
        let with_byte_3 = |byte| with_byte(&on(Version::Two, 2, 4, 0), 3, byte);
        let thirteen = [on(Version::Two, 3, 5, 1), vec![1]].concat();
        // The card, its number when it is read, and its numbers when it is moved to version 2 and
        // to version 3.
        let cases = [
            (thirteen, 1, 1, 1),
            (on(Version::One, 3, 5, 0), 2, 2, 2),
            (on(Version::Two, 0, 5, 0), 2, 2, 2),
            (on(Version::One, 2, 4, 1), 2, 2, 2),
            (on(Version::Two, 1, 4, 1), 2, 2, 2),
            (on(Version::One, 2, 5, 0), 10, 10, 2),
            (on(Version::Two, 1, 5, 0), 10, 10, 2),
            (on(Version::One, 1, 5, 0), 3, 3, 2),
            (on(Version::Two, 2, 5, 0), 3, 3, 2),
            (with_byte_3(0x39), 2, 2, 2),
            (with_byte_3(0xC1), 2, 2, 2),
            (with_byte_3(0xF8), 3, 3, 2),
            (with_byte_3(0x48), 3, 3, 2),
            // Good cards: the room or the version asked for is wrong.
            (on(Version::One, 1, 4, 0), 0, 5, 2),
            (on(Version::Two, 2, 4, 0), 0, 5, 2),
            (with_byte_3(0x28), 0, 5, 2),
        ];
        for (card, when_read, to_second, to_third) in cases {
            assert_eq!(number_of(&card), when_read, "{card:02x?}");
            for room in 0..12 {
                assert_eq!(moved_to(room, &card, 2).0.number, to_second);
                assert_eq!(moved_to(room, &card, 3).0.number, to_third);
            }
            assert_eq!(moved_to(ROOM, &card, 2).0.number, when_read);
            assert_eq!(moved_to(ROOM, &card, 3).0.number, to_third);
        }
    }
}
