//! The format of entries.bin, which README.md describes.

use std::fmt::{self, Display, Formatter};

use reference::card::Fields;
use reference::interface::{self, Entry, CARD_FIELDS};
use reference::{big_endian, Report};

pub const MAX_LABEL: usize = 80;
pub const MAX_CARD: usize = 8 * CARD_FIELDS;
pub const MAX_INPUT: usize = 131_072;
pub const MAX_OUTPUT: usize = 131_072;

/// The calls by their numbers.
#[derive(Clone, Copy, Debug, PartialEq, Eq)]
pub enum Call {
    Entry(Entry),
    CardRead,
    CardText,
    Map,
    Slice,
    CardWrite,
    CardMove,
}

impl Call {
    pub const ALL: [Call; 10] = [
        Call::Entry(Entry::FcSend),
        Call::Entry(Entry::FcRead),
        Call::Entry(Entry::PayloadSend),
        Call::Entry(Entry::PayloadRead),
        Call::CardRead,
        Call::CardText,
        Call::Map,
        Call::Slice,
        Call::CardWrite,
        Call::CardMove,
    ];

    pub fn number(self) -> u8 {
        let place = Call::ALL.iter().position(|&call| call == self);
        place.map_or(u8::MAX, |number| number as u8)
    }

    fn name(self) -> &'static str {
        match self {
            Call::Entry(entry) => entry.name().trim_start_matches("hplc_"),
            Call::CardRead => "card_read",
            Call::CardText => "card_text",
            Call::Map => "map",
            Call::Slice => "slice",
            Call::CardWrite => "card_write",
            Call::CardMove => "card_move",
        }
    }
}

/// A call and its right answer. The label is empty where nobody looks for the record by name.
#[derive(Clone, Debug, PartialEq, Eq)]
pub struct Record {
    pub label: String,
    pub call: Call,
    pub card: Vec<u8>,
    pub input: Vec<u8>,
    pub room: usize,
    pub number: u8,
    pub value: u64,
    pub output: Vec<u8>,
}

/// The number of 8 bytes that starts at a byte of a card or an input.
fn number_at(bytes: &[u8], at: usize) -> u64 {
    big_endian(&bytes[at..at + 8])
}

/// The card of a record that writes one: its fields.
pub fn write_card(fields: &Fields) -> Vec<u8> {
    fields.to_array().map(u64::to_be_bytes).concat()
}

/// A slice's card: the modulation, `heard`, and the bits of I and Q.
pub fn slice_card(modulation: u8, heard: u8, at: [f64; 2]) -> Vec<u8> {
    let mut card = vec![modulation, heard];
    card.extend(at.iter().flat_map(|x| x.to_bits().to_be_bytes()));
    card
}

/// The bits of I and Q on a slice's card.
pub fn slice_bits(card: &[u8]) -> [u64; 2] {
    [2, 10].map(|at| number_at(card, at))
}

/// The call by the reference, on an output of zeros. Gives the report and the written bytes.
fn answer(call: Call, card: &[u8], input: &[u8], room: usize) -> (Report, Vec<u8>) {
    let mut bytes = vec![0; room];
    let mut words = vec![0; room];
    let report = match call {
        Call::Entry(entry) => entry.call(card, input, &mut bytes),
        Call::CardRead => interface::card_read(card, &mut words),
        Call::CardText => interface::card_text(card, &mut bytes),
        Call::Map => interface::map(card[0].into(), input, &mut words),
        Call::Slice => {
            let [i, q] = slice_bits(card).map(f64::from_bits);
            interface::slice(card[0].into(), card[1].into(), i, q, &mut bytes)
        }
        Call::CardWrite => {
            let fields: [u64; CARD_FIELDS] = std::array::from_fn(|n| number_at(card, 8 * n));
            interface::card_write(&fields, &mut bytes)
        }
        Call::CardMove => interface::card_move(card, number_at(input, 0), &mut bytes),
    };
    let written = if report.number == 0 {
        report.value as usize
    } else {
        0
    };
    let output = match call {
        Call::CardRead | Call::Map => words[..written]
            .iter()
            .flat_map(|w| w.to_be_bytes())
            .collect(),
        _ => bytes[..written].to_vec(),
    };
    (report, output)
}

impl Record {
    /// A record with the answer of the reference.
    pub fn new(label: &str, call: Call, card: &[u8], input: &[u8], room: usize) -> Record {
        let (report, output) = answer(call, card, input, room);
        let record = Record {
            label: label.to_string(),
            call,
            card: card.to_vec(),
            input: input.to_vec(),
            room,
            number: report.number as u8,
            value: report.value,
            output,
        };
        assert!(record.fits(), "{record}");
        record
    }

    fn fits(&self) -> bool {
        self.label.len() <= MAX_LABEL
            && self.label.bytes().all(|byte| (b' '..=b'~').contains(&byte))
            && self.card.len() <= MAX_CARD
            && self.input.len() <= MAX_INPUT
            && self.room <= MAX_OUTPUT
            && self.output.len() <= MAX_OUTPUT
    }

    fn append_to(&self, bytes: &mut Vec<u8>) {
        bytes.push(self.label.len() as u8);
        bytes.extend(self.label.as_bytes());
        bytes.push(self.call.number());
        append_with_length(bytes, &self.card);
        append_with_length(bytes, &self.input);
        append_length(bytes, self.room);
        bytes.push(self.number);
        bytes.extend(self.value.to_be_bytes());
        append_with_length(bytes, &self.output);
    }

    /// Takes a record off the front of the bytes.
    fn take_from(bytes: &mut &[u8]) -> Option<Record> {
        let label = take_number(bytes, 1)? as usize;
        let record = Record {
            label: String::from_utf8(take(bytes, label)?.to_vec()).ok()?,
            call: *Call::ALL.get(take_number(bytes, 1)? as usize)?,
            card: take_with_length(bytes)?,
            input: take_with_length(bytes)?,
            room: take_length(bytes)?,
            number: take_number(bytes, 1)? as u8,
            value: take_number(bytes, 8)?,
            output: take_with_length(bytes)?,
        };
        record.fits().then_some(record)
    }
}

fn append_length(bytes: &mut Vec<u8>, length: usize) {
    bytes.extend((length as u32).to_be_bytes());
}

fn append_with_length(bytes: &mut Vec<u8>, part: &[u8]) {
    append_length(bytes, part.len());
    bytes.extend(part);
}

fn take<'a>(bytes: &mut &'a [u8], length: usize) -> Option<&'a [u8]> {
    let (part, rest) = bytes.split_at_checked(length)?;
    *bytes = rest;
    Some(part)
}

fn take_number(bytes: &mut &[u8], length: usize) -> Option<u64> {
    take(bytes, length).map(big_endian)
}

fn take_length(bytes: &mut &[u8]) -> Option<usize> {
    take_number(bytes, 4).map(|length| length as usize)
}

fn take_with_length(bytes: &mut &[u8]) -> Option<Vec<u8>> {
    let length = take_length(bytes)?;
    Some(take(bytes, length)?.to_vec())
}

/// A file's contents.
pub fn to_bytes(records: &[Record]) -> Vec<u8> {
    let mut bytes = Vec::new();
    for record in records {
        record.append_to(&mut bytes);
    }
    bytes
}

/// The records of a file's contents, or None where they are no whole records.
pub fn from_bytes(mut bytes: &[u8]) -> Option<Vec<Record>> {
    let mut records = Vec::new();
    while !bytes.is_empty() {
        records.push(Record::take_from(&mut bytes)?);
    }
    Some(records)
}

/// What a program that finds no mismatch prints of the records.
pub fn printed(records: &[Record]) -> String {
    let mut text = String::new();
    for record in records.iter().filter(|record| !record.label.is_empty()) {
        text += &format!("{}: {} {}\n", record.label, record.number, record.value);
    }
    for call in Call::ALL {
        let count = records.iter().filter(|record| record.call == call).count();
        text += &format!("{} {count} records, 0 mismatches\n", call.name());
    }
    text + &format!("{} records, 0 mismatches\n", records.len())
}

/// The first bytes in hexadecimal digits, and how many there are.
fn beginning(bytes: &[u8]) -> String {
    const SHOWN: usize = 24;
    let digits = bytes.iter().take(SHOWN).map(|byte| format!("{byte:02x}"));
    let more = if bytes.len() > SHOWN { ".." } else { "" };
    format!("[{}: {}{more}]", bytes.len(), digits.collect::<String>())
}

impl Display for Record {
    fn fmt(&self, f: &mut Formatter) -> fmt::Result {
        let (card, input) = (beginning(&self.card), beginning(&self.input));
        let (name, room, number, value) = (self.call.name(), self.room, self.number, self.value);
        let output = beginning(&self.output);
        if !self.label.is_empty() {
            write!(f, "{}: ", self.label)?;
        }
        write!(
            f,
            "{name} card {card} input {input} room {room} gives {number} {value} {output}"
        )
    }
}

#[cfg(test)]
mod tests {
    use super::*;
    use reference::card::{pack, Version};
    use reference::cases::{Mode, EXAMPLE, SECOND_EXAMPLE};
    use reference::interface::COORDINATES;

    #[test]
    fn a_record_is_as_the_table_says() {
        let record = Record::new("", Call::Map, &[0], &[1], 3);
        let mut bytes = vec![0, 6, 0, 0, 0, 1, 0, 0, 0, 0, 1, 1, 0, 0, 0, 3, 0];
        bytes.extend(2u64.to_be_bytes());
        bytes.extend([0, 0, 0, 16]);
        bytes.extend(1f64.to_bits().to_be_bytes());
        bytes.extend([0; 8]);
        assert_eq!(to_bytes(&[record]), bytes);

        let record = Record::new("ten", Call::CardRead, &[1; 10], &[], CARD_FIELDS);
        let mut bytes = vec![3, b't', b'e', b'n', 4, 0, 0, 0, 10];
        bytes.extend([1; 10]);
        bytes.extend([0, 0, 0, 0, 0, 0, 0, 10, 1]);
        bytes.extend([0, 0, 0, 0, 0, 0, 0, 10, 0, 0, 0, 0]);
        assert_eq!(to_bytes(&[record]), bytes);

        let (first, asked) = (pack(&EXAMPLE, Version::One), 2u64.to_be_bytes());
        let record = Record::new("to 2", Call::CardMove, &first, &asked, 14);
        let mut bytes = vec![4, b't', b'o', b' ', b'2', 9, 0, 0, 0, 11];
        bytes.extend(&first);
        bytes.extend([0, 0, 0, 8, 0, 0, 0, 0, 0, 0, 0, 2, 0, 0, 0, 14, 0]);
        bytes.extend([0, 0, 0, 0, 0, 0, 0, 12, 0, 0, 0, 12]);
        bytes.extend(pack(&SECOND_EXAMPLE, Version::Two));
        assert_eq!(to_bytes(&[record]), bytes);
    }

    #[test]
    fn lengths_have_four_bytes_and_a_limit() {
        let send = Call::Entry(Entry::PayloadSend);
        let longest = Mode::new(3, 4, 0, 2).copied(11);
        let record = Record::new("", send, &longest.card(0, 0), &[9; 520], 131_072);
        let bytes = to_bytes(std::slice::from_ref(&record));
        // Behind label and call: 12 bytes of card, 520 of input, the room, the answer.
        assert_eq!(bytes[2 + 4 + 12..][..4], [0, 0, 2, 8]);
        let room = 2 + 4 + 12 + 4 + 520;
        assert_eq!(bytes[room..][..4], [0, 2, 0, 0]);
        assert_eq!(bytes[room + 4..][..9], [0, 0, 0, 0, 0, 0, 1, 0x8E, 0x20]);
        assert_eq!(bytes[room + 13..][..4], [0, 1, 0x8E, 0x20]);
        assert_eq!(bytes.len(), room + 17 + 101_920);

        assert_eq!(from_bytes(&bytes), Some(vec![record.clone()]));
        let more_room = Record {
            room: 131_073,
            ..record
        };
        assert_eq!(from_bytes(&to_bytes(&[more_room])), None);
    }

    #[test]
    fn slices_take_their_coordinates_from_the_card() {
        let mut card = vec![1, 1];
        card.extend((-0.5f64).to_bits().to_be_bytes());
        card.extend(f64::NAN.to_bits().to_be_bytes());
        assert_eq!(slice_card(1, 1, [-0.5, f64::NAN]), card);
        let record = Record::new("", Call::Slice, &card, &[], COORDINATES);
        assert_eq!(record.output, [0, 2]);
    }

    #[test]
    fn writing_takes_its_fields_from_the_card() {
        for (example, version) in [(EXAMPLE, Version::One), (SECOND_EXAMPLE, Version::Two)] {
            let card = write_card(&example);
            assert_eq!(card.len(), 80);
            let record = Record::new("", Call::CardWrite, &card, &[], 12);
            assert_eq!(record.output, pack(&example, version));
        }
    }

    #[test]
    fn labelled_records_are_printed_before_the_counts() {
        let records = [
            Record::new("two", Call::Map, &[1], &[1, 0], 2),
            Record::new("", Call::Map, &[1], &[1], 2),
            Record::new("ten", Call::CardRead, &[1; 10], &[], 0),
        ];
        let text = printed(&records);
        let lines: Vec<&str> = text.lines().collect();
        assert_eq!(lines[..2], ["two: 0 2", "ten: 1 10"]);
        assert_eq!(lines[2], "fc_send 0 records, 0 mismatches");
        assert_eq!(lines[6], "card_read 1 records, 0 mismatches");
        assert_eq!(lines[8], "map 2 records, 0 mismatches");
        assert_eq!(lines[10], "card_write 0 records, 0 mismatches");
        assert_eq!(lines[11], "card_move 0 records, 0 mismatches");
        assert_eq!(lines[12..], ["3 records, 0 mismatches"]);
    }

    #[test]
    fn labels_are_short_and_printable() {
        let mut record = Record::new("", Call::Map, &[1], &[1, 0], 2);
        for (label, fits) in [
            ("a".repeat(80), true),
            ("a".repeat(81), false),
            ("a\n".into(), false),
        ] {
            record.label = label;
            assert_eq!(from_bytes(&to_bytes(&[record.clone()])).is_some(), fits);
        }
    }

    #[test]
    fn cut_files_are_no_records() {
        let bytes = to_bytes(&[Record::new("", Call::Map, &[1], &[1, 0], 2)]);
        assert_eq!(from_bytes(&bytes).map(|records| records.len()), Some(1));
        for length in 1..bytes.len() {
            assert_eq!(from_bytes(&bytes[..length]), None);
        }
    }
}
