//! The programs `encode`, `decode` and `print_card` over the reference, to be compared with those
//! over the core. Each takes cards of both versions, with every count of copies.
//!
//! `job encode CARD BLOCK` writes the items, a byte an item; `job decode CARD ITEMS` writes the
//! bytes as a line of hex. The card's kind says whether it is a frame control or a payload block. A
//! refusal is written as its number and what comes with it, a line each. Of a file the first
//! 131,072 bytes are taken, and one that cannot be read counts as empty (D19). `job print_card`
//! prints the card on standard input, or its refusal (01; D11).

use std::fs::File;
use std::io::{self, Read, Write};
use std::process::ExitCode;

use reference::card;
use reference::copies::MAX_ITEMS;
use reference::interface::Entry;
use reference::{number, Report};

const USAGE: &str = "usage: job encode CARD BLOCK
       job decode CARD ITEMS
       job print_card < CARD";

/// What is taken of a file.
const FILE_BYTES: u64 = 131_072;

/// The entries that send and read with a card. One that is refused goes to frame control (D19).
fn entries(card: &[u8]) -> (Entry, Entry) {
    Entry::of_kind(card::read(card).map_or(0, |card| card.kind))
}

/// What an entry wrote, or its refusal.
fn call(entry: Entry, card: &[u8], input: &[u8]) -> Result<Vec<u8>, Report> {
    let mut out = vec![0; MAX_ITEMS];
    let report = entry.call(card, input, &mut out);
    if report.number != number::DONE {
        return Err(report);
    }
    out.truncate(report.value as usize);
    Ok(out)
}

fn refused(report: Report) -> Vec<u8> {
    format!("refused {}\nvalue {}\n", report.number, report.value).into_bytes()
}

fn hex_line(bytes: Vec<u8>) -> Vec<u8> {
    let digits: String = bytes.iter().map(|byte| format!("{byte:02x}")).collect();
    format!("{digits}\n").into_bytes()
}

fn encode(card: &[u8], block: &[u8]) -> Vec<u8> {
    call(entries(card).0, card, block).unwrap_or_else(refused)
}

fn decode(card: &[u8], items: &[u8]) -> Vec<u8> {
    call(entries(card).1, card, items).map_or_else(refused, hex_line)
}

fn print_card(card: &[u8]) -> Vec<u8> {
    card::text(card).into_bytes()
}

fn file(name: &str) -> Vec<u8> {
    let mut bytes = Vec::new();
    let read = File::open(name).and_then(|file| file.take(FILE_BYTES).read_to_end(&mut bytes));
    match read {
        Ok(_) => bytes,
        Err(_) => Vec::new(),
    }
}

fn standard_input() -> io::Result<Vec<u8>> {
    let mut bytes = Vec::new();
    io::stdin().read_to_end(&mut bytes)?;
    Ok(bytes)
}

fn main() -> ExitCode {
    let arguments: Vec<String> = std::env::args().skip(1).collect();
    let arguments: Vec<&str> = arguments.iter().map(String::as_str).collect();
    let written = match arguments[..] {
        ["--help" | "-h", ..] => Ok(format!("{USAGE}\n").into_bytes()),
        ["encode", card, block] => Ok(encode(&file(card), &file(block))),
        ["decode", card, items] => Ok(decode(&file(card), &file(items))),
        ["print_card"] => standard_input().map(|card| print_card(&card)),
        _ => {
            eprintln!("{USAGE}");
            return ExitCode::from(2);
        }
    };
    match written.and_then(|bytes| io::stdout().write_all(&bytes)) {
        Ok(()) => ExitCode::SUCCESS,
        Err(error) => {
            eprintln!("job: {error}");
            ExitCode::FAILURE
        }
    }
}

#[cfg(test)]
mod tests {
    use super::*;
    use reference::card::Version;
    use reference::cases::{all_modes, modes, with_byte};

    #[test]
    fn what_is_encoded_is_decoded() {
        for mode in all_modes() {
            for &version in mode.versions() {
                let card = mode.card_of(version, 1095, 5);
                let block = vec![0xA5; mode.bytes()];
                let items = encode(&card, &block);
                assert_eq!(items.len(), mode.items());
                assert_eq!(decode(&card, &items), hex_line(block));
            }
        }
    }

    #[test]
    fn of_a_file_the_first_131072_bytes_are_taken() {
        let folder = std::env::temp_dir();
        let name = folder.join(format!("job-{}", std::process::id()));
        let path = name.to_str().unwrap();
        let mut lengths = Vec::new();
        for length in [0, 101_920, 131_071, 131_072, 131_073, 200_000] {
            std::fs::write(&name, vec![7; length]).unwrap();
            lengths.push(file(path).len());
        }
        assert_eq!(lengths, [0, 101_920, 131_071, 131_072, 131_072, 131_072]);
        std::fs::remove_file(&name).unwrap();
        // No such file, and a folder.
        assert!(file(path).is_empty());
        assert!(file(folder.to_str().unwrap()).is_empty());
    }

    #[test]
    fn refusals_are_two_lines() {
        let card = modes()[0].card(0, 0);
        assert_eq!(encode(&card, &[0; 15]), b"refused 4\nvalue 15\n");
        assert_eq!(decode(&card[..10], &[]), b"refused 1\nvalue 10\n");
        for mode in modes() {
            let card = mode.card_of(Version::Two, 0, 0);
            assert_eq!(encode(&card[..11], &[]), b"refused 10\nvalue 0\n");
            let two_blocks = with_byte(&card, 3, 0x40);
            assert_eq!(decode(&two_blocks, &[]), b"refused 3\nvalue 0\n");
            let padded = with_byte(&card, 3, 0x41);
            assert_eq!(decode(&padded, &[]), b"refused 2\nvalue 0\n");
        }
    }

    #[test]
    fn a_card_is_printed_with_its_version() {
        let card = modes()[0].card_of(Version::Two, 5, 6);
        let text = "version 2\nband 0\nkind 0\nrate 0\nmodulation 1\ntaps 00000000101\n\
                    blocks 1\ncopies 1\nserial 6\n";
        assert_eq!(print_card(&card), text.as_bytes());
        assert_eq!(print_card(&card[..11]), b"refused 10\n");
        let copied = modes()[1].copied(11).card(5, 6);
        let text = "version 2\nband 0\nkind 1\nrate 0\nmodulation 0\ntaps 00000000101\n\
                    blocks 1\ncopies 11\nserial 6\n";
        assert_eq!(print_card(&copied), text.as_bytes());
    }
}
