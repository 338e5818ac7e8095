//! The labelled records: the cases that 01 wants run by a program ("Bench checks"), for both
//! versions of the card (02, T-03), slices about the edges of what is lost (02, T-02), and copied
//! payloads (02, T-06), each under a name to look for.

use reference::card::{self, pack, Fields, Version};
use reference::cases::{
    frame_controls, modes, with_byte, Mode, Random, Reception, EXAMPLE, MODULATION_NAMES,
    SECOND_EXAMPLE,
};
use reference::copies::COPY_NUM;
use reference::interface::{Entry, CARD_FIELDS};
use reference::points::{
    BPSK, BPSK_EIGHTH, BPSK_FACTOR, QAM16, QAM16_EIGHTH, QAM16_FACTOR, QAM16_HIGH_END,
    QAM16_LOW_END, QPSK, QPSK_EIGHTH, QPSK_FACTOR,
};

use crate::record::{slice_card, write_card, Call, Record};

const SEED: u64 = 1;

/// Room for any printed card.
const TEXT_ROOM: usize = 192;

/// Room for the items of any carrier.
const ITEMS_ROOM: usize = 4;

/// The modes of the cases for which one of each will do.
const FRAME_CONTROL: Mode = Mode::frame_control(0);
const PAYLOAD: Mode = Mode::new(0, 1, 0, 1);
/// The mode of check P12: 4,680 coded bits and a pad of 252.
const PADDED: Mode = Mode::new(0, 4, 1, 1);
/// The payloads with cards of version 2: each kind and rate once, on any band and modulation.
const SECOND_PAYLOADS: [Mode; 5] = [
    PAYLOAD,
    Mode::new(1, 2, 0, 2),
    Mode::new(2, 3, 0, 0),
    Mode::new(3, 4, 0, 1),
    PADDED,
];
/// A payload of 72 bytes with each count of copies above one, on every band and in every modulation.
const COPIED: [Mode; 5] = [
    PAYLOAD.copied(2),
    Mode::new(3, 1, 0, 0).copied(4),
    Mode::new(1, 1, 0, 0).copied(5),
    PAYLOAD.copied(7),
    Mode::new(2, 1, 0, 2).copied(11),
];
/// A payload with the most items.
const LONGEST: Mode = Mode::new(3, 4, 0, 2).copied(11);

/// All labelled records.
pub fn records() -> Vec<Record> {
    let mut cases = Cases(Vec::new());
    cases.cards_read();
    cases.second_cards_read();
    cases.cards_printed();
    cases.second_cards_printed();
    cases.cards_written();
    cases.second_cards_written();
    cases.cards_moved();
    cases.cards_not_moved();
    let entries = [FRAME_CONTROL, PAYLOAD].map(|mode| both_ways(Version::One, mode));
    for good in entries.as_flattened() {
        cases.cards_at(good);
    }
    for good in entries.as_flattened() {
        cases.second_cards_at(good);
    }
    for mode in modes() {
        for good in both_ways(Version::One, mode) {
            cases.lengths_and_rooms(&good);
        }
    }
    for mode in frame_controls().chain(SECOND_PAYLOADS) {
        for good in both_ways(Version::Two, mode) {
            cases.lengths_and_rooms(&good);
        }
    }
    cases.two_causes();
    cases.illegal_items();
    for rare in &RARE {
        cases.copies(rare);
    }
    cases.pad_copies();
    cases.slices();
    cases.copies_written();
    cases.copies_moved();
    cases.copy_codes();
    for mode in COPIED {
        for good in both_ways(Version::Two, mode) {
            cases.lengths_and_rooms(&good);
        }
    }
    for good in both_ways(Version::Two, LONGEST) {
        cases.done(&good);
    }
    for mode in COPIED {
        cases.copied_bits(mode);
    }
    cases.unused_carriers();
    cases.0
}

// Cards by what they say.

/// A field, by its place among the fields, and the value it is given.
type Change = (usize, u64);

const NAMES: [&str; CARD_FIELDS] = [
    "version",
    "band",
    "kind",
    "rate",
    "modulation",
    "taps",
    "spare",
    "serial",
    "blocks",
    "copies",
];
const VERSION: usize = 0;
const BAND: usize = 1;
const KIND: usize = 2;
const RATE: usize = 3;
const MODULATION: usize = 4;
const TAPS: usize = 5;
const SPARE: usize = 6;
const SERIAL: usize = 7;
const BLOCKS: usize = 8;
const COPIES: usize = 9;

/// What eleven bytes are refused for.
const REFUSED: [&[Change]; 8] = [
    &[(VERSION, 0)],
    &[(VERSION, 2)],
    &[(SPARE, 1)],
    &[(VERSION, 2), (KIND, 5), (SPARE, 1)],
    &[(KIND, 5)],
    &[(KIND, 6)],
    &[(KIND, 7)],
    &[(MODULATION, 3)],
];

/// Fields that are defined, but not together.
const NOT_TOGETHER: [&[Change]; 4] = [
    &[(KIND, 3), (RATE, 1)],
    &[(KIND, 0), (RATE, 1)],
    &[(KIND, 0), (MODULATION, 0)],
    &[(KIND, 0), (MODULATION, 2)],
];

/// Good cards: the other bands, then taps and serials at their ends.
const TAKEN: [&[Change]; 8] = [
    &[(BAND, 1)],
    &[(BAND, 2)],
    &[(BAND, 3)],
    &[(TAPS, 0)],
    &[(TAPS, 2047)],
    &[(SERIAL, 0)],
    &[(SERIAL, (1 << 53) + 1)],
    &[(SERIAL, u64::MAX)],
];

/// All of these: the values fit their bits.
fn fitting() -> impl Iterator<Item = &'static [Change]> {
    REFUSED.into_iter().chain(NOT_TOGETHER).chain(TAKEN)
}

const TOO_LARGE: [&[Change]; 7] = [
    &[(VERSION, 17)],
    &[(BAND, 4)],
    &[(KIND, 8)],
    &[(RATE, 2)],
    &[(MODULATION, 4)],
    &[(TAPS, 2048)],
    &[(SPARE, 2)],
];

/// What eleven bytes are refused for since there is a second card: version 2 with something that
/// goes before it or behind it, and the first version that is none.
const REFUSED_ON_11_BYTES: [&[Change]; 3] = [
    &[(VERSION, 2), (SPARE, 1)],
    &[(VERSION, 2), (KIND, 5)],
    &[(VERSION, 3)],
];

/// What twelve bytes are refused for. They are of version 2 where nothing else is said.
const REFUSED_ON_12_BYTES: [&[Change]; 10] = [
    &[(VERSION, 1), (SPARE, 1)],
    &[(VERSION, 1), (KIND, 5)],
    &[(VERSION, 0)],
    &[(VERSION, 3)],
    &[(SPARE, 1)],
    &[(SPARE, 1), (KIND, 5)],
    &[(KIND, 5)],
    &[(KIND, 6)],
    &[(KIND, 7)],
    &[(MODULATION, 3)],
];

/// Fourth bytes of version 2 other than one and one: all copy codes and block counts that say more
/// or nothing, each bit of the padding, and padding beside a code.
const OTHER_BYTES_3: [u8; 14] = [
    0x08, 0x10, 0x18, 0x20, 0x28, 0x30, 0x38, 0x40, 0x80, 0xC0, 0x01, 0x02, 0x04, 0x39,
];

/// Counts other than one and one: defined, not defined, or said by no bits of theirs.
const OTHER_COUNTS: [&[Change]; 20] = [
    &[(BLOCKS, 0)],
    &[(BLOCKS, 2)],
    &[(BLOCKS, 3)],
    &[(BLOCKS, 4)],
    &[(BLOCKS, 5)],
    &[(BLOCKS, (1 << 32) + 1)],
    &[(BLOCKS, u64::MAX)],
    &[(COPIES, 0)],
    &[(COPIES, 2)],
    &[(COPIES, 3)],
    &[(COPIES, 4)],
    &[(COPIES, 5)],
    &[(COPIES, 6)],
    &[(COPIES, 7)],
    &[(COPIES, 8)],
    &[(COPIES, 11)],
    &[(COPIES, 12)],
    &[(COPIES, (1 << 32) + 1)],
    &[(COPIES, u64::MAX)],
    &[(BLOCKS, 4), (COPIES, 11)],
];

/// Versions asked for that are none, some with the low bits of one.
const NO_VERSIONS: [u64; 8] = [0, 3, 15, 16, 17, 18, (1 << 32) + 1, u64::MAX];

/// The example at rate 1/2, so that a kind which is refused is refused for itself.
const GOOD: Fields = Fields { rate: 0, ..EXAMPLE };

/// The changes as a name, and the fields they make of good ones.
fn changed(good: Fields, changes: &[Change]) -> (String, Fields) {
    let mut fields = good.to_array();
    for &(field, value) in changes {
        fields[field] = value;
    }
    let names: Vec<String> = changes
        .iter()
        .map(|&(field, value)| format!("{} {value}", NAMES[field]))
        .collect();
    let label = names.join(" and ").replacen(" and ", " with ", 1);
    (label, Fields::from_array(fields))
}

/// A card by its bytes, and its name.
type Named = (String, Vec<u8>);

/// A card of version 1 cut, or with zeros after it. Its version is named where the length is one of
/// version 2.
fn card_of(length: usize, mut card: Vec<u8>) -> Named {
    card.resize(length, 0);
    let label = if length == Version::Two.bytes() {
        format!("version 1 on {length} bytes")
    } else {
        format!("card of {length} bytes")
    };
    (label, card)
}

/// The bytes that changes make of a good card in a layout, named with their number. They are of the
/// layout's version where the changes say no other.
fn on_bytes(layout: Version, good: Fields, changes: &[Change]) -> Named {
    let version = layout.number();
    let (label, fields) = changed(Fields { version, ..good }, changes);
    let label = format!("{label} on {} bytes", layout.bytes());
    (label, pack(&fields, layout))
}

/// The eleven bytes that changes make of a good card, named by the changes. Their number is named
/// where version 2 alone would mean twelve.
fn eleven_bytes(good: Fields, changes: &[Change]) -> Named {
    if changes == [(VERSION, 2)] {
        return on_bytes(Version::One, good, changes);
    }
    let (label, fields) = changed(good, changes);
    (label, pack(&fields, Version::One))
}

/// A card of twelve bytes with another fourth byte.
fn with_byte_3((label, mut card): Named, byte: u8) -> Named {
    card[3] = byte;
    (format!("{label}, byte 3 of {byte:02X}"), card)
}

/// Twelve bytes of a version with another fourth byte.
fn twelve_bytes_with(version: u64, good: Fields, byte: u8) -> Named {
    let card = on_bytes(Version::Two, good, &[(VERSION, version)]);
    with_byte_3(card, byte)
}

/// A card of version 2 cut, or with zeros after it.
fn second_card_of(length: usize, good: Fields) -> Named {
    let (_, mut card) = on_bytes(Version::Two, good, &[]);
    card.resize(length, 0);
    (format!("version 2 on {length} bytes"), card)
}

/// Cards that are refused because there are two versions, or that are of version 2: lengths,
/// versions, spare bits, modes and fourth bytes. Those that say more copies alone are taken.
fn second_others() -> Vec<Named> {
    let mut cards = vec![card_of(13, pack(&GOOD, Version::One))];
    cards.extend([10, 13].map(|length| second_card_of(length, GOOD)));
    let eleven = REFUSED_ON_11_BYTES.iter();
    cards.extend(eleven.map(|changes| on_bytes(Version::One, GOOD, changes)));
    let twelve = REFUSED_ON_12_BYTES.iter().chain(&NOT_TOGETHER);
    cards.extend(twelve.map(|changes| on_bytes(Version::Two, GOOD, changes)));
    cards.extend(OTHER_BYTES_3.map(|byte| twelve_bytes_with(2, GOOD, byte)));
    let of_first = [0x01, 0x08, 0x38, 0xC0, 0xFF];
    cards.extend(of_first.map(|byte| twelve_bytes_with(1, GOOD, byte)));
    let of_kind_0 = on_bytes(Version::Two, GOOD, &[(KIND, 0)]);
    cards.extend([0x08, 0x40].map(|byte| with_byte_3(of_kind_0.clone(), byte)));
    cards
}

/// Good cards of version 2.
fn second_taken() -> Vec<Named> {
    let also: [&[Change]; 2] = [&[(VERSION, 2)], &[(KIND, 0)]];
    let taken = also.iter().chain(&TAKEN);
    taken
        .map(|changes| on_bytes(Version::Two, GOOD, changes))
        .collect()
}

/// The example in both versions, by name.
const EXAMPLES: [(&str, Fields, Version); 2] = [
    ("example card", EXAMPLE, Version::One),
    ("example card of version 2", SECOND_EXAMPLE, Version::Two),
];

/// The bytes of the examples.
fn examples() -> [Named; 2] {
    EXAMPLES.map(|(label, fields, version)| (label.to_string(), pack(&fields, version)))
}

/// The example of version 1 cut, or with zeros after it.
fn example_of(length: usize) -> Named {
    card_of(length, pack(&EXAMPLE, Version::One))
}

/// Both sides of the room that is needed.
const fn about(needed: usize) -> [usize; 3] {
    [needed - 1, needed, needed + 1]
}

/// The end of a label that names the room.
fn room_of(room: usize) -> String {
    format!(", room of {room} bytes")
}

const NO_ROOM: &str = ", no room";

// Bits by what happens to their copies.

/// How many copies of a bit are wrong, how many of the next are lost, and the name of this.
type Damage = (usize, usize, &'static str);

/// What is lost with a copy.
#[derive(Clone, Copy, PartialEq, Eq)]
enum Loss {
    Item,
    Carrier,
}

/// A frame-control bit with the fewest copies of its band, about the limit of its majority.
struct Rare {
    band: u8,
    bit: usize,
    loss: Loss,
    damages: &'static [Damage],
}

const RARE: [Rare; 4] = [
    Rare {
        band: 0,
        bit: 27,
        loss: Loss::Item,
        damages: &OF_12_COPIES,
    },
    Rare {
        band: 1,
        bit: 3,
        loss: Loss::Item,
        damages: &OF_12_COPIES,
    },
    Rare {
        band: 2,
        bit: 1,
        loss: Loss::Carrier,
        damages: &OF_7_CARRIERS,
    },
    Rare {
        band: 3,
        bit: 1,
        loss: Loss::Carrier,
        damages: &OF_3_CARRIERS,
    },
];

const OF_12_COPIES: [Damage; 7] = [
    (0, 11, "11 of 12 copies lost"),
    (0, 12, "12 of 12 copies lost"),
    (5, 0, "5 of 12 copies wrong"),
    (6, 0, "6 of 12 copies wrong"),
    (12, 0, "12 of 12 copies wrong"),
    (5, 1, "5 of 12 copies wrong, 1 lost"),
    (5, 2, "5 of 12 copies wrong, 2 lost"),
];

const OF_7_CARRIERS: [Damage; 2] = [
    (0, 6, "6 of 7 carriers lost"),
    (0, 7, "7 of 7 carriers lost"),
];

const OF_3_CARRIERS: [Damage; 4] = [
    (0, 2, "2 of 3 carriers lost"),
    (0, 3, "3 of 3 carriers lost"),
    (1, 0, "wrong on 1 of 3 carriers"),
    (1, 1, "wrong on 1 of 3 carriers, another lost"),
];

/// Numbers of wrong and lost copies, of so many: one copy decides, and none does.
const fn about_a_tie(copies: usize) -> [(usize, usize); 2] {
    [
        ((copies - 1) / 2, (copies - 1) % 2),
        (copies / 2, copies % 2),
    ]
}

fn damage_name(wrong: usize, lost: usize, copies: usize) -> String {
    match (wrong, lost) {
        (0, _) => format!("{lost} of {copies} copies lost"),
        (_, 0) => format!("{wrong} of {copies} copies wrong"),
        (_, _) => format!("{wrong} of {copies} copies wrong, {lost} lost"),
    }
}

// Coordinates by their size.

/// A size and its name.
type Size = (&'static str, f64);

/// The largest size that is lost about 0, and the next one.
fn about_zero(eighth: f64) -> Vec<Size> {
    vec![("f/8", eighth), ("just above f/8", eighth.next_up())]
}

/// Both sides of 16QAM's ends about 2f.
const ENDS: [Size; 4] = [
    ("just below 2f - f/8", QAM16_LOW_END.next_down()),
    ("2f - f/8", QAM16_LOW_END),
    ("2f + f/8", QAM16_HIGH_END),
    ("just above 2f + f/8", QAM16_HIGH_END.next_up()),
];

/// The coordinates of these sizes, by name.
fn both_signs(sizes: Vec<Size>) -> impl Iterator<Item = (String, f64)> {
    sizes.into_iter().flat_map(|(name, size)| {
        [("positive", size), ("negative", -size)]
            .map(|(sign, x)| (format!("{sign} of size {name}"), x))
    })
}

// Entries that do their work.

/// An entry with a card, an input and a room that it does its work with.
struct Good {
    name: String,
    mode: Mode,
    entry: Entry,
    card: Vec<u8>,
    input: Vec<u8>,
    room: usize,
}

/// The fields of a mode's card of version 1, with the example's taps and serial.
fn fields(mode: Mode) -> Fields {
    mode.fields(Version::One, EXAMPLE.taps as u16, EXAMPLE.serial)
}

/// A block that is received as it was sent, with a card of a version.
fn reception_of(version: Version, mode: Mode) -> Reception {
    let block = Random::new(SEED).bytes(mode.bytes());
    let card = mode.card_of(version, EXAMPLE.taps as u16, EXAMPLE.serial);
    Reception::new(mode, card, block)
}

/// The same with a card of version 1.
fn reception(mode: Mode) -> Reception {
    reception_of(Version::One, mode)
}

fn both_ways(version: Version, mode: Mode) -> [Good; 2] {
    let reception = reception_of(version, mode);
    let card = reception.card;
    let (send, read) = mode.entries();
    let out = Good {
        name: name_of(version, mode, "out"),
        mode,
        entry: send,
        card: card.clone(),
        input: reception.block,
        room: mode.items(),
    };
    let back = Good {
        name: name_of(version, mode, "back"),
        mode,
        entry: read,
        card,
        input: reception.items,
        room: mode.bytes(),
    };
    [out, back]
}

/// A mode that a mode's entries don't serve.
const fn other_mode(mode: Mode) -> Mode {
    if mode.kind == 0 {
        PAYLOAD
    } else {
        FRAME_CONTROL
    }
}

/// The words for what a mode sends, and for its bytes.
const fn words(mode: Mode) -> (&'static str, &'static str) {
    if mode.kind == 0 {
        ("frame control", "word")
    } else {
        ("payload", "block")
    }
}

/// A way on a mode, by name.
fn name(mode: Mode, way: &str) -> String {
    let (what, band) = (words(mode).0, mode.band);
    if mode.kind == 0 {
        return format!("{what} {way}, band {band}");
    }
    let (kind, rate, modulation) = (mode.kind, mode.rate_name(), mode.modulation_name());
    format!("{what} {way}, band {band}, kind {kind}, rate {rate}, {modulation}")
}

/// A way on a mode with a card of a version, by name. With version 2 a payload's band and
/// modulation are left out, and with more copies its version, kind and rate: a label has no room
/// for them.
fn name_of(version: Version, mode: Mode, way: &str) -> String {
    if mode.copies > 1 {
        let (what, copies, band) = (words(mode).0, mode.copies, mode.band);
        let modulation = mode.modulation_name();
        return format!("{what} {way}, {copies} copies, band {band}, {modulation}");
    }
    let way_of_second = format!("{way}, version 2");
    match version {
        Version::One => name(mode, way),
        Version::Two if mode.kind == 0 => name(mode, &way_of_second),
        Version::Two => {
            let (what, kind, rate) = (words(mode).0, mode.kind, mode.rate_name());
            format!("{what} {way_of_second}, kind {kind}, rate {rate}")
        }
    }
}

impl Good {
    /// The name without the mode.
    fn entry_name(&self) -> &str {
        self.name.split(',').next().unwrap_or_default()
    }

    /// Names for an input that is one shorter, right and one longer.
    fn input_names(&self) -> [String; 3] {
        if !self.entry.sends() {
            return ["one item less", "all items", "one item more"].map(String::from);
        }
        let (block, bytes) = (words(self.mode).1, self.mode.bytes());
        [bytes - 1, bytes, bytes + 1].map(|length| format!("{block} of {length} bytes"))
    }
}

/// The records so far.
struct Cases(Vec<Record>);

impl Cases {
    fn add(&mut self, label: &str, call: Call, card: &[u8], input: &[u8], room: usize) {
        self.0.push(Record::new(label, call, card, input, room));
    }

    /// A card read with room for so many fields.
    fn card_read(&mut self, label: &str, card: &[u8], room: usize) {
        self.add(label, Call::CardRead, card, &[], room);
    }

    fn cards_read(&mut self) {
        for room in [7, 8, 9] {
            let label = format!("example card, room of {room} fields");
            self.card_read(&label, &pack(&EXAMPLE, Version::One), room);
        }
        for length in [0, 10, 12, 40] {
            let (label, card) = example_of(length);
            self.card_read(&label, &card, CARD_FIELDS);
        }
        for changes in fitting() {
            let (label, card) = eleven_bytes(GOOD, changes);
            self.card_read(&label, &card, CARD_FIELDS);
        }
    }

    /// Both sides of the ten fields, and cards of version 2.
    fn second_cards_read(&mut self) {
        for ((label, card), rooms) in examples().iter().zip([&[10, 11][..], &[9, 10, 11]]) {
            for &room in rooms {
                self.card_read(&format!("{label}, room of {room} fields"), card, room);
            }
        }
        for (label, card) in second_others().into_iter().chain(second_taken()) {
            self.card_read(&label, &card, CARD_FIELDS);
        }
    }

    /// A card printed with so much room and its name.
    fn card_printed(&mut self, (label, card): &Named, room: usize, room_name: &str) {
        let label = format!("{label} printed{room_name}");
        self.add(&label, Call::CardText, card, &[], room);
    }

    /// A card printed with room about the length of its text.
    fn printed_about(&mut self, card: &Named) {
        for room in about(card::text(&card.1).len()) {
            self.card_printed(card, room, &room_of(room));
        }
    }

    fn cards_printed(&mut self) {
        let [example, _] = examples();
        self.printed_about(&example);
        for length in [10, 12] {
            self.card_printed(&example_of(length), TEXT_ROOM, "");
        }
        for changes in fitting() {
            self.card_printed(&eleven_bytes(GOOD, changes), TEXT_ROOM, "");
        }
    }

    /// Both sides of the length of a text with the lines of version 2, and of a refusal by 10; then
    /// cards of version 2.
    fn second_cards_printed(&mut self) {
        let [_, example] = examples();
        self.printed_about(&example);
        self.printed_about(&eleven_bytes(GOOD, &[(VERSION, 2)]));
        for card in second_others().iter().chain(&second_taken()) {
            self.card_printed(card, TEXT_ROOM, "");
        }
    }

    /// Fields written with so much room and its name.
    fn written(&mut self, (label, fields): (String, Fields), room: usize, room_name: &str) {
        let label = format!("{label} written{room_name}");
        self.add(&label, Call::CardWrite, &write_card(&fields), &[], room);
    }

    /// An example written with room about its length.
    fn example_written(&mut self, (label, fields, version): (&str, Fields, Version)) {
        for room in about(version.bytes()) {
            self.written((label.to_string(), fields), room, &room_of(room));
        }
    }

    fn cards_written(&mut self) {
        let needed = Version::One.bytes();
        self.example_written(EXAMPLES[0]);
        for changes in TOO_LARGE.into_iter().chain(fitting()) {
            // Nothing is wrong with version 2 but the room.
            let room_name = if changes == [(VERSION, 2)] {
                room_of(needed)
            } else {
                String::new()
            };
            self.written(changed(GOOD, changes), needed, &room_name);
        }
        for changes in [&[(BAND, 4)][..], &[(SPARE, 2), (BAND, 4)]] {
            self.written(changed(GOOD, changes), 0, NO_ROOM);
        }
    }

    /// Fields of version 2, then counts of both versions that are not one and one.
    fn second_cards_written(&mut self) {
        let needed = Version::Two.bytes();
        let second: &[Change] = &[(VERSION, 2)];
        for room in [needed, needed + 1] {
            self.written(changed(GOOD, second), room, &room_of(room));
        }
        self.example_written(EXAMPLES[1]);
        for version in [3, 16, 18, (1 << 32) + 1, u64::MAX] {
            self.written(changed(GOOD, &[(VERSION, version)]), needed, "");
        }
        let other_fields = TOO_LARGE.into_iter().chain(fitting());
        for changes in other_fields.filter(|changes| changes[0].0 != VERSION) {
            let changes = [second, changes].concat();
            self.written(changed(GOOD, &changes), needed, "");
        }
        for version in [&[], second] {
            for kind in [&[][..], &[(KIND, 0)]] {
                for counts in OTHER_COUNTS {
                    let changes = [version, kind, counts].concat();
                    self.written(changed(GOOD, &changes), needed, "");
                }
            }
            let kind_0 = [version, &[(KIND, 0)]].concat();
            self.written(changed(GOOD, &kind_0), needed, "");
            for wrong in [
                &[(BLOCKS, 2)][..],
                &[(COPIES, 3)],
                &[(SPARE, 1), (COPIES, 2)],
            ] {
                let changes = [version, wrong].concat();
                self.written(changed(GOOD, &changes), 0, NO_ROOM);
            }
        }
    }

    /// A card moved to a version, with so much room and its name.
    fn moved(&mut self, (label, card): &Named, version: u64, room: usize, room_name: &str) {
        let label = format!("{label} moved to version {version}{room_name}");
        let asked = version.to_be_bytes();
        self.add(&label, Call::CardMove, card, &asked, room);
    }

    /// Good cards moved to their own version and to the other: both sides of the room, then all
    /// good cards.
    fn cards_moved(&mut self) {
        for example in examples() {
            for version in Version::ALL {
                for room in about(version.bytes()) {
                    self.moved(&example, version.number(), room, &room_of(room));
                }
            }
        }
        let taken = [&[(KIND, 0)][..]].into_iter().chain(TAKEN);
        let mut cards: Vec<Named> = taken.map(|changes| eleven_bytes(GOOD, changes)).collect();
        cards.extend(second_taken());
        for card in &cards {
            for version in Version::ALL {
                self.moved(card, version.number(), version.bytes(), "");
            }
        }
    }

    /// Cards and versions asked for that are refused, one cause at a time and two at once; also
    /// cards that say more copies, which move to version 2 alone.
    fn cards_not_moved(&mut self) {
        let needed = Version::Two.bytes();
        for example in examples() {
            for version in NO_VERSIONS {
                self.moved(&example, version, needed, "");
            }
            self.moved(&example, 3, 0, NO_ROOM);
        }
        let mut cards = [0, 10, 12, 40].map(example_of).to_vec();
        let eleven = REFUSED.iter().chain(&NOT_TOGETHER);
        cards.extend(eleven.map(|changes| eleven_bytes(GOOD, changes)));
        cards.extend(second_others());
        for card in &cards {
            for version in [1, 2, 3] {
                self.moved(card, version, needed, "");
            }
            self.moved(card, 1, 0, NO_ROOM);
        }
    }

    /// A card at an entry, all else being right.
    fn card_at(&mut self, good: &Good, (label, card): &Named) {
        let label = format!("{label} at {}", good.entry_name());
        let call = Call::Entry(good.entry);
        self.add(&label, call, card, &good.input, good.room);
    }

    /// Cards that an entry refuses.
    fn cards_at(&mut self, good: &Good) {
        for length in [0, 10, 12] {
            self.card_at(good, &card_of(length, good.card.clone()));
        }
        let served = |changes: &&&[Change]| (changes[0] == (KIND, 0)) == (good.mode.kind == 0);
        for changes in REFUSED.iter().chain(NOT_TOGETHER.iter().filter(served)) {
            self.card_at(good, &eleven_bytes(fields(good.mode), changes));
        }
        self.other_card_at(good, Version::One, "card");
    }

    /// A card of a version that an entry doesn't serve, and what it is called.
    fn other_card_at(&mut self, good: &Good, version: Version, what: &str) {
        let other = other_mode(good.mode);
        let label = format!("{} {what}", words(other).0);
        let (_, card) = on_bytes(version, fields(other), &[]);
        self.card_at(good, &(label, card));
    }

    /// The same because there are two versions, or of cards of version 2.
    fn second_cards_at(&mut self, good: &Good) {
        let this = fields(good.mode);
        self.card_at(good, &card_of(13, good.card.clone()));
        self.card_at(good, &second_card_of(13, this));
        let [spare, ..] = REFUSED_ON_11_BYTES;
        self.card_at(good, &on_bytes(Version::One, this, spare));
        for changes in [
            &[(VERSION, 1), (SPARE, 1)][..],
            &[(VERSION, 0)],
            &[(SPARE, 1)],
            &[(KIND, 5)],
            &[(MODULATION, 3)],
        ] {
            self.card_at(good, &on_bytes(Version::Two, this, changes));
        }
        for byte in [0x08, 0x28, 0x30, 0x38, 0x40, 0xC0, 0x01, 0x04] {
            self.card_at(good, &twelve_bytes_with(2, this, byte));
        }
        self.card_at(good, &twelve_bytes_with(1, this, 0xFF));
        self.other_card_at(good, Version::Two, "card of version 2");
    }

    /// Both sides of the input's length, then both sides of the room.
    fn lengths_and_rooms(&mut self, good: &Good) {
        let (right, needed) = (good.input.len(), good.room);
        let [less, exact, more] = good.input_names();
        let mut input = good.input.clone();
        input.push(1);
        for (what, length, room) in [
            (less, right - 1, needed),
            (exact + ", exact room", right, needed),
            (more, right + 1, needed),
            ("room one short".to_string(), right, needed - 1),
            ("room one more".to_string(), right, needed + 1),
        ] {
            let label = format!("{}, {what}", good.name);
            let call = Call::Entry(good.entry);
            self.add(&label, call, &good.card, &input[..length], room);
        }
    }

    /// Neighbours in the row order, both at once.
    fn two_causes(&mut self) {
        let label = "card of 12 bytes with version 15";
        self.add(label, Call::CardRead, &[0xFF; 12], &[], CARD_FIELDS);

        let [out, back] = both_ways(Version::One, FRAME_CONTROL);
        let (label, fields) = changed(fields(FRAME_CONTROL), &[(KIND, 5)]);
        let label = format!("{label} at frame control out, word of 15 bytes");
        let (call, card) = (Call::Entry(out.entry), pack(&fields, Version::One));
        self.add(&label, call, &card, &out.input[..15], out.room);

        for good in [out, back] {
            let [less, ..] = good.input_names();
            let label = format!("{}, {less}, room one short", good.name);
            let input = &good.input[..good.input.len() - 1];
            let call = Call::Entry(good.entry);
            self.add(&label, call, &good.card, input, good.room - 1);
        }

        let label = "card of 13 bytes with version 15";
        self.add(label, Call::CardRead, &[0xFF; 13], &[], CARD_FIELDS);
        for good in both_ways(Version::Two, FRAME_CONTROL) {
            let [less, ..] = good.input_names();
            let label = format!("version 2 on 11 bytes at {}, {less}", good.entry_name());
            let (card, input) = (&good.card[..11], &good.input[..good.input.len() - 1]);
            self.add(&label, Call::Entry(good.entry), card, input, good.room);
        }
    }

    /// An entry that does its work, with exact room.
    fn done(&mut self, good: &Good) {
        let [_, exact, _] = good.input_names();
        let label = format!("{}, {exact}, exact room", good.name);
        let call = Call::Entry(good.entry);
        self.add(&label, call, &good.card, &good.input, good.room);
    }

    /// A reception read with so much room.
    fn read(&mut self, reception: &Reception, what: &str, room: usize) {
        let mode = reception.mode;
        let label = format!("{}, {what}", name_of(mode.versions()[0], mode, "back"));
        let call = Call::Entry(mode.entries().1);
        self.add(&label, call, &reception.card, &reception.items, room);
    }

    /// Illegal items before lost bits, and these before wrong ones.
    fn illegal_items(&mut self) {
        let mut damaged = reception(FRAME_CONTROL);
        damaged.items[1234] = 9;
        damaged.items[3001] = 3;
        self.read(&damaged, "items 1234 of 9 and 3001 of 3", 16);
        let label = "items 1234 of 9 and 3001 of 3, room of 15 bytes";
        self.read(&damaged, label, 15);

        let mut damaged = reception(FRAME_CONTROL);
        damaged.lose_bit(27);
        damaged.flip_bit(99);
        self.read(&damaged, "bit 27 lost and bit 99 wrong", 16);
        damaged.items[3001] = 3;
        let label = "item 3001 of 3, bit 27 lost and bit 99 wrong";
        self.read(&damaged, label, 16);
    }

    /// A bit of frame control about the limit of its majority.
    fn copies(&mut self, rare: &Rare) {
        let (mode, bit) = (Mode::frame_control(rare.band), rare.bit);
        let copies = mode.items_of(bit);
        for &(wrong, lost, what) in rare.damages {
            let mut damaged = reception(mode);
            damaged.damage_items(&copies[..wrong + lost], wrong);
            if rare.loss == Loss::Carrier {
                for item in &copies[wrong..wrong + lost] {
                    damaged.lose(item ^ 1);
                }
            }
            self.read(&damaged, &format!("bit {bit}, {what}"), mode.bytes());
        }
    }

    /// The last bit that a payload's pad repeats, and the first that it doesn't.
    fn pad_copies(&mut self) {
        let pad = PADDED.repeated();
        for (bit, wrong, what) in [
            (pad - 1, 0, "1 of 2 copies lost"),
            (pad - 1, 1, "1 of 2 copies wrong"),
            (pad, 0, "its only copy lost"),
            (pad, 1, "its only copy wrong"),
        ] {
            let mut damaged = reception(PADDED);
            damaged.damage_items(&[bit], wrong);
            self.read(&damaged, &format!("bit {bit}, {what}"), PADDED.bytes());
        }
    }

    /// Counts of copies written about the room of each version, where 5 goes before 11; then what
    /// goes before both.
    fn copies_written(&mut self) {
        for copies in COPY_NUM[1..].iter().map(|&copies| copies.into()) {
            let second = [(VERSION, 2), (COPIES, copies)];
            for (changes, rooms) in [(&second[1..], [10, 11]), (&second, [11, 12])] {
                for room in rooms {
                    self.written(changed(GOOD, changes), room, &room_of(room));
                }
            }
        }
        for wrong in [(SPARE, 1), (KIND, 0), (BLOCKS, 2)] {
            let fields = changed(GOOD, &[wrong, (COPIES, 2)]);
            self.written(fields, 10, &room_of(10));
        }
    }

    /// Cards that say more copies moved about the room of each version, likewise.
    fn copies_moved(&mut self) {
        for copies in COPY_NUM[1..].iter().map(|&copies| copies.into()) {
            let card = on_bytes(Version::Two, GOOD, &[(COPIES, copies)]);
            for (version, rooms) in [(1, [10, 11]), (2, [11, 12])] {
                for room in rooms {
                    self.moved(&card, version, room, &room_of(room));
                }
            }
            self.moved(&card, 3, 10, &room_of(10));
        }
        for wrong in [(SPARE, 1), (KIND, 0), (BLOCKS, 2)] {
            let card = on_bytes(Version::Two, GOOD, &[wrong, (COPIES, 2)]);
            self.moved(&card, 1, 10, &room_of(10));
        }
    }

    /// Every copy code at every entry, with the input and the room that it asks for, or those of
    /// one copy where it is refused; then a code beside more blocks.
    fn copy_codes(&mut self) {
        for mode in [Mode::frame_control(3), PAYLOAD] {
            for code in 0..8u8 {
                let copies = match COPY_NUM.get(usize::from(code)) {
                    Some(&copies) if mode.kind > 0 => copies,
                    _ => 1,
                };
                for good in both_ways(Version::Two, mode.copied(copies)) {
                    let card = with_byte(&good.card, 3, code << 3);
                    self.card_at(&good, &(format!("copy code {code}"), card));
                }
            }
            for good in both_ways(Version::Two, mode) {
                let card = with_byte(&good.card, 3, 0x48);
                self.card_at(&good, &("2 blocks with copy code 1".to_string(), card));
            }
        }
    }

    /// The last bit of a copied payload: one copy left, one that decides it, tied and all wrong.
    /// Then, where pads give it a copy more, the first bit decided by one copy and tied.
    fn copied_bits(&mut self, mode: Mode) {
        let mut last = vec![(0, usize::from(mode.copies) - 1)];
        last.extend(about_a_tie(mode.copies.into()));
        last.push((mode.copies.into(), 0));
        // Of two copies one lost is the same as one left.
        last.dedup();
        self.copied_bit(mode, mode.coded() - 1, &last);
        if mode.repeated() > 0 {
            self.copied_bit(mode, 0, &about_a_tie(usize::from(mode.copies) + 1));
        }
    }

    /// A bit of a copied payload with so many copies wrong and so many lost.
    fn copied_bit(&mut self, mode: Mode, bit: usize, damages: &[(usize, usize)]) {
        let items = mode.items_of(bit);
        for &(wrong, lost) in damages {
            let mut damaged = reception_of(Version::Two, mode);
            damaged.damage_items(&items[..wrong + lost], wrong);
            let what = damage_name(wrong, lost, items.len());
            self.read(&damaged, &format!("bit {bit}, {what}"), mode.bytes());
        }
    }

    /// Items of unused carriers: legal ones have no vote, and of illegal ones the lowest is named.
    fn unused_carriers(&mut self) {
        let [mode, ..] = COPIED;
        let (good, unused) = (reception_of(Version::Two, mode), mode.unused());
        let (first, last) = (unused[0], mode.items() - 1);
        for (items, item, what) in [
            (&unused[..1], 1, format!("unused item {first} of 1")),
            (&unused[..1], 2, format!("unused item {first} of 2")),
            (&unused[..1], 3, format!("unused item {first} of 3")),
            (&[last], 255, format!("unused item {last} of 255")),
            (&unused, 1, "all unused items of 1".to_string()),
            (&unused, 2, "all unused items of 2".to_string()),
            (
                &[first - 1, first],
                9,
                format!("items {} and {first} of 9", first - 1),
            ),
        ] {
            let mut damaged = good.clone();
            for &index in items {
                damaged.items[index] = item;
            }
            self.read(&damaged, &what, mode.bytes());
        }
        let mut damaged = good;
        damaged.lose_bit(0);
        for index in unused {
            damaged.items[index] = 1;
        }
        self.read(&damaged, "bit 0 lost, all unused items of 1", mode.bytes());
    }

    /// A carrier heard at (i, q).
    fn slice(&mut self, modulation: u64, at: [f64; 2], what: &str) {
        let label = format!("{} sliced, {what}", MODULATION_NAMES[modulation as usize]);
        let card = slice_card(modulation as u8, 1, at);
        self.add(&label, Call::Slice, &card, &[], ITEMS_ROOM);
    }

    /// Each axis about the edges of what is lost, the other one decided. BPSK does not look at Q,
    /// which is anything there.
    fn slices(&mut self) {
        for (what, i) in both_signs(about_zero(BPSK_EIGHTH)) {
            for (name, q) in [("0", 0.0), ("f", BPSK_FACTOR), ("NaN", f64::NAN)] {
                self.slice(BPSK, [i, q], &format!("I {what}, Q at {name}"));
            }
        }
        let of_16qam = [about_zero(QAM16_EIGHTH), ENDS.to_vec()].concat();
        for (modulation, f, sizes) in [
            (QPSK, QPSK_FACTOR, about_zero(QPSK_EIGHTH)),
            (QAM16, QAM16_FACTOR, of_16qam),
        ] {
            for (what, x) in both_signs(sizes) {
                self.slice(modulation, [x, f], &format!("I {what}, Q at f"));
                self.slice(modulation, [f, x], &format!("I at f, Q {what}"));
            }
        }
    }
}

#[cfg(test)]
mod tests {
    use super::*;
    use crate::record::{printed, slice_bits};
    use crate::text::digits;
    use reference::cases::frame_controls;
    use std::collections::HashSet;

    #[test]
    fn labels_are_there_and_all_differ() {
        let records = records();
        let labels: HashSet<&str> = records.iter().map(|record| &record.label[..]).collect();
        assert_eq!(labels.len(), records.len());
        assert!(!labels.contains(""));
    }

    #[test]
    fn each_band_has_a_bit_with_its_fewest_copies() {
        assert_eq!(RARE.len(), frame_controls().count());
        for (rare, mode) in RARE.iter().zip(frame_controls()) {
            assert_eq!(rare.band, mode.band);
            assert!(mode.rarest_bits().contains(&rare.bit));
        }
    }

    /// Each of the answers is among the lines.
    fn check_answers(answers: &str, lines: &HashSet<String>) {
        for answer in answers.lines() {
            assert!(lines.contains(answer), "{answer}");
        }
    }

    /// By hand from 01, 02 (T-01, T-03, T-06) and D27.
    const ANSWERS: &str = "\
example card, room of 7 fields: 5 10
example card, room of 8 fields: 5 10
example card, room of 9 fields: 5 10
card of 10 bytes: 1 10
version 1 on 12 bytes: 10 0
version 2 on 11 bytes: 10 0
card of 40 bytes: 1 40
version 0: 2 0
spare 1: 2 0
version 2 with kind 5 and spare 1: 2 0
kind 5: 3 0
kind 0 with modulation 0: 3 0
band 1: 0 10
band 2: 0 10
band 3: 0 10
serial 18446744073709551615: 0 10
example card, room of 10 fields: 0 10
example card, room of 11 fields: 0 10
example card of version 2, room of 9 fields: 5 10
example card of version 2, room of 10 fields: 0 10
example card of version 2, room of 11 fields: 0 10
card of 13 bytes: 1 13
version 2 on 10 bytes: 1 10
version 2 on 13 bytes: 1 13
version 2 with spare 1 on 11 bytes: 2 0
version 2 with kind 5 on 11 bytes: 10 0
version 3 on 11 bytes: 2 0
version 1 with spare 1 on 12 bytes: 2 0
version 1 with kind 5 on 12 bytes: 10 0
version 0 on 12 bytes: 2 0
version 3 on 12 bytes: 2 0
spare 1 on 12 bytes: 2 0
spare 1 with kind 5 on 12 bytes: 2 0
kind 5 on 12 bytes: 3 0
kind 7 on 12 bytes: 3 0
modulation 3 on 12 bytes: 3 0
kind 3 with rate 1 on 12 bytes: 3 0
kind 0 with modulation 2 on 12 bytes: 3 0
version 2 on 12 bytes, byte 3 of 08: 0 10
version 2 on 12 bytes, byte 3 of 10: 0 10
version 2 on 12 bytes, byte 3 of 18: 0 10
version 2 on 12 bytes, byte 3 of 20: 0 10
version 2 on 12 bytes, byte 3 of 28: 0 10
version 2 on 12 bytes, byte 3 of 30: 3 0
version 2 on 12 bytes, byte 3 of 38: 3 0
version 2 on 12 bytes, byte 3 of 40: 3 0
version 2 on 12 bytes, byte 3 of 80: 3 0
version 2 on 12 bytes, byte 3 of C0: 3 0
version 2 on 12 bytes, byte 3 of 01: 2 0
version 2 on 12 bytes, byte 3 of 02: 2 0
version 2 on 12 bytes, byte 3 of 04: 2 0
version 2 on 12 bytes, byte 3 of 39: 2 0
version 1 on 12 bytes, byte 3 of 01: 10 0
version 1 on 12 bytes, byte 3 of 38: 10 0
version 1 on 12 bytes, byte 3 of FF: 10 0
kind 0 on 12 bytes, byte 3 of 08: 3 0
kind 0 on 12 bytes, byte 3 of 40: 3 0
version 2 on 12 bytes: 0 10
kind 0 on 12 bytes: 0 10
band 3 on 12 bytes: 0 10
serial 18446744073709551615 on 12 bytes: 0 10
example card printed, room of 84 bytes: 5 85
example card printed, room of 85 bytes: 0 85
example card printed, room of 86 bytes: 0 85
card of 10 bytes printed: 0 10
band 2 printed: 0 85
band 3 printed: 0 85
serial 0 printed: 0 70
version 1 on 12 bytes printed: 0 11
version 2 on 11 bytes printed: 0 11
example card of version 2 printed, room of 102 bytes: 5 103
example card of version 2 printed, room of 103 bytes: 0 103
example card of version 2 printed, room of 104 bytes: 0 103
version 2 on 11 bytes printed, room of 10 bytes: 5 11
version 2 on 11 bytes printed, room of 11 bytes: 0 11
version 2 on 12 bytes, byte 3 of 01 printed: 0 10
version 2 on 12 bytes, byte 3 of 28 printed: 0 104
version 2 on 12 bytes, byte 3 of 38 printed: 0 10
version 1 on 12 bytes, byte 3 of FF printed: 0 11
serial 0 on 12 bytes printed: 0 88
example card written, room of 10 bytes: 5 11
example card written, room of 12 bytes: 0 11
version 17 written: 2 0
spare 2 written: 2 0
taps 2048 written: 3 0
band 4 written: 3 0
band 2 written: 0 11
band 3 written: 0 11
spare 2 with band 4 written, no room: 2 0
band 4 written, no room: 3 0
version 2 written, room of 11 bytes: 5 12
version 2 written, room of 12 bytes: 0 12
version 2 written, room of 13 bytes: 0 12
example card of version 2 written, room of 11 bytes: 5 12
example card of version 2 written, room of 12 bytes: 0 12
version 3 written: 2 0
version 18 written: 2 0
version 4294967297 written: 2 0
version 2 with spare 2 written: 2 0
version 2 with taps 2048 written: 3 0
version 2 with kind 5 written: 3 0
version 2 with kind 0 and modulation 0 written: 3 0
version 2 with band 3 written: 0 12
version 2 with serial 18446744073709551615 written: 0 12
blocks 0 written: 3 0
blocks 2 written: 3 0
blocks 5 written: 3 0
copies 2 written: 11 0
copies 3 written: 3 0
copies 11 written: 11 0
copies 12 written: 3 0
blocks 4 with copies 11 written: 3 0
version 2 with blocks 2 written: 3 0
version 2 with blocks 5 written: 3 0
version 2 with blocks 4294967297 written: 3 0
version 2 with copies 0 written: 3 0
version 2 with copies 2 written: 0 12
version 2 with copies 3 written: 3 0
version 2 with copies 11 written: 0 12
version 2 with blocks 4 and copies 11 written: 3 0
kind 0 with blocks 2 written: 3 0
kind 0 with copies 2 written: 3 0
version 2 with kind 0 and blocks 2 written: 3 0
version 2 with kind 0 and copies 2 written: 3 0
version 2 with kind 0 and copies 18446744073709551615 written: 3 0
kind 0 written: 0 11
version 2 with kind 0 written: 0 12
blocks 2 written, no room: 3 0
version 2 with copies 3 written, no room: 3 0
spare 1 with copies 2 written, no room: 2 0
example card moved to version 1, room of 10 bytes: 5 11
example card moved to version 1, room of 11 bytes: 0 11
example card moved to version 1, room of 12 bytes: 0 11
example card moved to version 2, room of 11 bytes: 5 12
example card moved to version 2, room of 12 bytes: 0 12
example card moved to version 2, room of 13 bytes: 0 12
example card of version 2 moved to version 1, room of 10 bytes: 5 11
example card of version 2 moved to version 1, room of 11 bytes: 0 11
example card of version 2 moved to version 1, room of 12 bytes: 0 11
example card of version 2 moved to version 2, room of 11 bytes: 5 12
example card of version 2 moved to version 2, room of 12 bytes: 0 12
example card of version 2 moved to version 2, room of 13 bytes: 0 12
kind 0 moved to version 2: 0 12
kind 0 on 12 bytes moved to version 1: 0 11
band 3 moved to version 1: 0 11
serial 18446744073709551615 on 12 bytes moved to version 2: 0 12
example card moved to version 0: 2 0
example card moved to version 3: 2 0
example card moved to version 4294967297: 2 0
example card of version 2 moved to version 18: 2 0
example card of version 2 moved to version 18446744073709551615: 2 0
example card of version 2 moved to version 3, no room: 2 0
card of 0 bytes moved to version 1: 1 0
card of 10 bytes moved to version 2: 1 10
card of 13 bytes moved to version 1: 1 13
card of 13 bytes moved to version 3: 1 13
version 2 on 13 bytes moved to version 3: 1 13
version 0 moved to version 1: 2 0
version 1 on 12 bytes moved to version 1: 10 0
version 1 on 12 bytes moved to version 2: 10 0
version 1 on 12 bytes moved to version 3: 2 0
version 1 on 12 bytes moved to version 1, no room: 10 0
version 2 on 11 bytes moved to version 1: 10 0
version 2 on 11 bytes moved to version 2: 10 0
version 2 on 11 bytes moved to version 3: 2 0
version 2 with spare 1 on 11 bytes moved to version 1: 2 0
version 1 with spare 1 on 12 bytes moved to version 2: 2 0
version 1 on 12 bytes, byte 3 of FF moved to version 2: 10 0
kind 5 moved to version 2: 3 0
kind 5 moved to version 3: 2 0
kind 5 moved to version 1, no room: 3 0
kind 5 on 12 bytes moved to version 1: 3 0
version 2 on 12 bytes, byte 3 of 01 moved to version 1: 2 0
version 2 on 12 bytes, byte 3 of 08 moved to version 1: 11 0
version 2 on 12 bytes, byte 3 of 08 moved to version 2: 0 12
version 2 on 12 bytes, byte 3 of 08 moved to version 3: 2 0
version 2 on 12 bytes, byte 3 of 28 moved to version 1, no room: 5 11
version 2 on 12 bytes, byte 3 of 40 moved to version 1, no room: 3 0
version 1 on 12 bytes at payload out: 10 0
version 2 on 11 bytes at frame control back: 10 0
card of 13 bytes at frame control out: 1 13
version 2 on 13 bytes at payload back: 1 13
version 2 with spare 1 on 11 bytes at payload out: 2 0
version 1 with spare 1 on 12 bytes at frame control out: 2 0
spare 1 on 12 bytes at frame control back: 2 0
kind 5 on 12 bytes at payload back: 3 0
version 2 on 12 bytes, byte 3 of 08 at payload out: 5 2466
version 2 on 12 bytes, byte 3 of 28 at payload back: 4 1644
version 2 on 12 bytes, byte 3 of 28 at frame control back: 3 0
version 2 on 12 bytes, byte 3 of 30 at frame control out: 3 0
version 2 on 12 bytes, byte 3 of 40 at payload out: 3 0
version 2 on 12 bytes, byte 3 of 04 at payload back: 2 0
version 1 on 12 bytes, byte 3 of FF at frame control back: 10 0
payload card of version 2 at frame control back: 3 0
frame control card of version 2 at payload out: 3 0
kind 5 at payload back: 3 0
payload card at frame control out: 3 0
frame control card at payload back: 3 0
frame control out, band 0, word of 15 bytes: 4 15
frame control out, band 0, word of 16 bytes, exact room: 0 3288
frame control out, band 1, word of 16 bytes, exact room: 0 3144
frame control out, band 2, word of 16 bytes, exact room: 0 2136
frame control out, band 3, word of 16 bytes, exact room: 0 1176
frame control out, band 1, room one short: 5 3144
frame control out, band 2, word of 17 bytes: 4 17
frame control out, band 2, room one short: 5 2136
frame control out, band 3, room one more: 0 1176
frame control back, band 1, room one more: 0 16
frame control back, band 2, all items, exact room: 0 16
frame control back, band 2, one item more: 4 2137
frame control back, band 3, one item less: 4 1175
frame control back, band 3, room one short: 5 16
payload out, band 0, kind 4, rate 16/18, QPSK, room one short: 5 4932
payload back, band 1, kind 4, rate 16/18, 16QAM, one item less: 4 4715
payload out, band 2, kind 4, rate 16/18, 16QAM, block of 520 bytes, exact room: 0 4984
payload back, band 2, kind 2, rate 1/2, QPSK, one item more: 4 2315
payload out, band 3, kind 1, rate 1/2, BPSK, room one short: 5 1176
payload back, band 3, kind 4, rate 1/2, 16QAM, one item less: 4 8427
payload back, band 3, kind 3, rate 1/2, BPSK, all items, exact room: 0 264
frame control out, version 2, band 0, word of 15 bytes: 4 15
frame control out, version 2, band 0, word of 16 bytes, exact room: 0 3288
frame control out, version 2, band 3, room one short: 5 1176
frame control back, version 2, band 1, one item more: 4 3145
frame control back, version 2, band 2, all items, exact room: 0 16
payload out, version 2, kind 1, rate 1/2, block of 72 bytes, exact room: 0 1644
payload out, version 2, kind 3, rate 1/2, room one short: 5 4272
payload out, version 2, kind 4, rate 16/18, block of 520 bytes, exact room: 0 4932
payload back, version 2, kind 2, rate 1/2, all items, exact room: 0 136
payload back, version 2, kind 4, rate 1/2, one item less: 4 8329
payload back, version 2, kind 4, rate 16/18, room one short: 5 520
card of 12 bytes with version 15: 2 0
card of 13 bytes with version 15: 1 13
version 2 on 11 bytes at frame control out, word of 15 bytes: 10 0
version 2 on 11 bytes at frame control back, one item less: 10 0
kind 5 at frame control out, word of 15 bytes: 3 0
frame control out, band 0, word of 15 bytes, room one short: 4 15
frame control back, band 0, one item less, room one short: 4 3287
frame control back, band 0, items 1234 of 9 and 3001 of 3: 6 1234
frame control back, band 0, items 1234 of 9 and 3001 of 3, room of 15 bytes: 5 16
frame control back, band 0, bit 27 lost and bit 99 wrong: 7 27
frame control back, band 0, item 3001 of 3, bit 27 lost and bit 99 wrong: 6 3001
frame control back, band 0, bit 27, 11 of 12 copies lost: 0 16
frame control back, band 0, bit 27, 12 of 12 copies lost: 7 27
frame control back, band 0, bit 27, 5 of 12 copies wrong: 0 16
frame control back, band 1, bit 3, 6 of 12 copies wrong: 7 3
frame control back, band 1, bit 3, 5 of 12 copies wrong, 1 lost: 0 16
frame control back, band 1, bit 3, 5 of 12 copies wrong, 2 lost: 7 3
frame control back, band 2, bit 1, 6 of 7 carriers lost: 0 16
frame control back, band 2, bit 1, 7 of 7 carriers lost: 7 1
frame control back, band 3, bit 1, 2 of 3 carriers lost: 0 16
frame control back, band 3, bit 1, 3 of 3 carriers lost: 7 1
frame control back, band 3, bit 1, wrong on 1 of 3 carriers: 0 16
frame control back, band 3, bit 1, wrong on 1 of 3 carriers, another lost: 7 1
payload back, band 0, kind 4, rate 16/18, QPSK, bit 251, 1 of 2 copies lost: 0 520
payload back, band 0, kind 4, rate 16/18, QPSK, bit 251, 1 of 2 copies wrong: 7 251
payload back, band 0, kind 4, rate 16/18, QPSK, bit 252, its only copy lost: 7 252
copies 2 written, room of 10 bytes: 5 11
copies 2 written, room of 11 bytes: 11 0
copies 11 written, room of 11 bytes: 11 0
version 2 with copies 7 written, room of 11 bytes: 5 12
version 2 with copies 7 written, room of 12 bytes: 0 12
spare 1 with copies 2 written, room of 10 bytes: 2 0
kind 0 with copies 2 written, room of 10 bytes: 3 0
blocks 2 with copies 2 written, room of 10 bytes: 3 0
copies 4 on 12 bytes moved to version 1, room of 10 bytes: 5 11
copies 4 on 12 bytes moved to version 1, room of 11 bytes: 11 0
copies 5 on 12 bytes moved to version 2, room of 11 bytes: 5 12
copies 5 on 12 bytes moved to version 2, room of 12 bytes: 0 12
copies 11 on 12 bytes moved to version 3, room of 10 bytes: 2 0
spare 1 with copies 2 on 12 bytes moved to version 1, room of 10 bytes: 2 0
kind 0 with copies 2 on 12 bytes moved to version 1, room of 10 bytes: 3 0
blocks 2 with copies 2 on 12 bytes moved to version 1, room of 10 bytes: 3 0
copy code 0 at frame control out: 0 1176
copy code 1 at frame control out: 3 0
copy code 5 at frame control back: 3 0
copy code 7 at frame control back: 3 0
copy code 0 at payload out: 0 1644
copy code 1 at payload out: 0 2466
copy code 2 at payload back: 0 72
copy code 3 at payload out: 0 6576
copy code 4 at payload back: 0 72
copy code 5 at payload out: 0 13152
copy code 6 at payload out: 3 0
copy code 7 at payload back: 3 0
2 blocks with copy code 1 at payload back: 3 0
payload out, 2 copies, band 0, QPSK, block of 71 bytes: 4 71
payload out, 2 copies, band 0, QPSK, block of 72 bytes, exact room: 0 2466
payload out, 4 copies, band 3, BPSK, room one short: 5 4704
payload out, 5 copies, band 1, BPSK, room one more: 0 5895
payload back, 7 copies, band 0, QPSK, one item less: 4 8219
payload back, 11 copies, band 2, 16QAM, one item more: 4 12817
payload back, 11 copies, band 2, 16QAM, room one short: 5 72
payload out, 11 copies, band 3, 16QAM, block of 520 bytes, exact room: 0 101920
payload back, 11 copies, band 3, 16QAM, all items, exact room: 0 520
payload back, 2 copies, band 0, QPSK, bit 1151, 1 of 2 copies lost: 0 72
payload back, 2 copies, band 0, QPSK, bit 1151, 1 of 2 copies wrong: 7 1151
payload back, 2 copies, band 0, QPSK, bit 0, 1 of 3 copies wrong: 0 72
payload back, 2 copies, band 0, QPSK, bit 0, 1 of 3 copies wrong, 1 lost: 7 0
payload back, 4 copies, band 3, BPSK, bit 1151, 1 of 4 copies wrong, 1 lost: 0 72
payload back, 4 copies, band 3, BPSK, bit 1151, 2 of 4 copies wrong: 7 1151
payload back, 5 copies, band 1, BPSK, bit 1151, 2 of 5 copies wrong: 0 72
payload back, 5 copies, band 1, BPSK, bit 1151, 2 of 5 copies wrong, 1 lost: 7 1151
payload back, 5 copies, band 1, BPSK, bit 0, 3 of 6 copies wrong: 7 0
payload back, 7 copies, band 0, QPSK, bit 0, 4 of 8 copies wrong: 7 0
payload back, 11 copies, band 2, 16QAM, bit 1151, 10 of 11 copies lost: 0 72
payload back, 11 copies, band 2, 16QAM, bit 1151, 5 of 11 copies wrong, 1 lost: 7 1151
payload back, 2 copies, band 0, QPSK, unused item 816 of 1: 0 72
payload back, 2 copies, band 0, QPSK, unused item 816 of 2: 0 72
payload back, 2 copies, band 0, QPSK, unused item 816 of 3: 6 816
payload back, 2 copies, band 0, QPSK, unused item 2465 of 255: 6 2465
payload back, 2 copies, band 0, QPSK, items 815 and 816 of 9: 6 815
payload back, 2 copies, band 0, QPSK, bit 0 lost, all unused items of 1: 7 0
";

    #[test]
    fn cases_are_answered_as_01_says() {
        let text = printed(&records());
        let lines: HashSet<String> = text.lines().map(String::from).collect();
        check_answers(ANSWERS, &lines);
        let wrong = lines
            .iter()
            .filter(|line| line.contains("12 of 12 copies wrong: 8 "));
        assert_eq!(wrong.count(), 2);
    }

    /// By hand from 02 (T-03): the bytes of cards and what becomes of them.
    const MOVED: &str = "\
example card moved to version 1, room of 11 bytes: 12588e0020000000000001 12588e0020000000000001
example card moved to version 2, room of 12 bytes: 12588e0020000000000001 22588e000020000000000001
example card of version 2 moved to version 1, room of 11 bytes: \
22588e000020000000000001 12588e0020000000000001
example card of version 2 moved to version 2, room of 12 bytes: \
22588e000020000000000001 22588e000020000000000001
band 3 moved to version 2: 1e188e0020000000000001 2e188e000020000000000001
serial 18446744073709551615 moved to version 2: 12188effffffffffffffff 22188e00ffffffffffffffff
kind 0 on 12 bytes moved to version 1: 20188e000020000000000001 10188e0020000000000001
taps 2047 on 12 bytes moved to version 1: 221ffe000020000000000001 121ffe0020000000000001
version 1 on 12 bytes moved to version 2: 12588e002000000000000100 nothing
version 2 on 12 bytes, byte 3 of 28 moved to version 1: 22188e280020000000000001 nothing
version 2 on 12 bytes, byte 3 of 28 moved to version 2: \
22188e280020000000000001 22188e280020000000000001
copies 7 on 12 bytes moved to version 2, room of 12 bytes: \
22188e200020000000000001 22188e200020000000000001
";

    #[test]
    fn cards_are_moved_as_02_says() {
        let hex = |bytes: &[u8]| match bytes {
            [] => "nothing".to_string(),
            _ => bytes.iter().map(|byte| format!("{byte:02x}")).collect(),
        };
        let records = records();
        let moves = records
            .iter()
            .filter(|record| record.call == Call::CardMove);
        let lines: HashSet<String> = moves
            .map(|record| {
                let (card, output) = (hex(&record.card), hex(&record.output));
                format!("{}: {card} {output}", record.label)
            })
            .collect();
        check_answers(MOVED, &lines);
    }

    #[test]
    fn the_example_of_version_2_is_printed_as_02_says() {
        let records = records();
        let label = "example card of version 2 printed, room of 103 bytes";
        let record = records.iter().find(|record| record.label == label);
        let text = "version 2\nband 0\nkind 4\nrate 1\nmodulation 1\ntaps 10001000111\n\
                    blocks 1\ncopies 1\nserial 9007199254740993\n";
        let card = [0x22, 0x58, 0x8E, 0, 0, 0x20, 0, 0, 0, 0, 0, 1];
        let printed = record.map(|record| (&record.card[..], &record.output[..]));
        assert_eq!(printed, Some((&card[..], text.as_bytes())));
    }

    /// By hand from 02 (T-02): the bits of I and Q, and the items.
    const SLICED: &str = "\
BPSK sliced, I positive of size f/8, Q at f: 3fc0000000000000 3ff0000000000000 2
BPSK sliced, I positive of size f/8, Q at NaN: 3fc0000000000000 7ff8000000000000 2
BPSK sliced, I negative of size f/8, Q at 0: bfc0000000000000 0000000000000000 2
BPSK sliced, I positive of size just above f/8, Q at 0: 3fc0000000000001 0000000000000000 1
BPSK sliced, I positive of size just above f/8, Q at NaN: 3fc0000000000001 7ff8000000000000 1
BPSK sliced, I negative of size just above f/8, Q at f: bfc0000000000001 3ff0000000000000 0
QPSK sliced, I positive of size f/8, Q at f: 3fb6a09e667f3bcd 3fe6a09e667f3bcd 21
QPSK sliced, I at f, Q positive of size f/8: 3fe6a09e667f3bcd 3fb6a09e667f3bcd 12
QPSK sliced, I positive of size just above f/8, Q at f: 3fb6a09e667f3bce 3fe6a09e667f3bcd 11
QPSK sliced, I at f, Q positive of size just above f/8: 3fe6a09e667f3bcd 3fb6a09e667f3bce 11
QPSK sliced, I at f, Q negative of size just above f/8: 3fe6a09e667f3bcd bfb6a09e667f3bce 10
16QAM sliced, I positive of size f/8, Q at f: 3fa43d136248490f 3fd43d136248490f 2201
16QAM sliced, I negative of size f/8, Q at f: bfa43d136248490f 3fd43d136248490f 2201
16QAM sliced, I positive of size just above f/8, Q at f: 3fa43d1362484910 3fd43d136248490f 0101
16QAM sliced, I negative of size just above f/8, Q at f: bfa43d1362484910 3fd43d136248490f 0001
16QAM sliced, I positive of size just below 2f - f/8, Q at f: 3fe2f9422c23c47d 3fd43d136248490f 0101
16QAM sliced, I negative of size just below 2f - f/8, Q at f: bfe2f9422c23c47d 3fd43d136248490f 0001
16QAM sliced, I positive of size 2f - f/8, Q at f: 3fe2f9422c23c47e 3fd43d136248490f 2201
16QAM sliced, I negative of size 2f - f/8, Q at f: bfe2f9422c23c47e 3fd43d136248490f 2201
16QAM sliced, I positive of size 2f + f/8, Q at f: 3fe580e4986ccda0 3fd43d136248490f 2201
16QAM sliced, I negative of size 2f + f/8, Q at f: bfe580e4986ccda0 3fd43d136248490f 2201
16QAM sliced, I positive of size just above 2f + f/8, Q at f: 3fe580e4986ccda1 3fd43d136248490f 1101
16QAM sliced, I negative of size just above 2f + f/8, Q at f: bfe580e4986ccda1 3fd43d136248490f 1001
16QAM sliced, I at f, Q positive of size 2f - f/8: 3fd43d136248490f 3fe2f9422c23c47e 0122
16QAM sliced, I at f, Q negative of size just above 2f + f/8: 3fd43d136248490f bfe580e4986ccda1 0110
";

    /// A slice's label, the bits of its coordinates, and its items.
    fn sliced(record: &Record) -> String {
        let [i, q] = slice_bits(&record.card);
        let items = digits(&record.output);
        format!("{}: {i:016x} {q:016x} {items}", record.label)
    }

    #[test]
    fn slices_are_answered_as_02_says() {
        let records = records();
        let slices = records.iter().filter(|record| record.call == Call::Slice);
        let lines: HashSet<String> = slices.map(sliced).collect();
        assert_eq!(lines.len(), 44);
        check_answers(SLICED, &lines);
    }
}
