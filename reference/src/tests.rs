//! The numbers, the bench checks P1 to P12 of 01, the narrow bands, the second card, the puncturing
//! and the copied payload of 02 (T-01, T-03, T-04, T-06), and the entries in all defined modes.

use crate::card::{self, Fields, Version};
use crate::carriers::{self, BANDS};
use crate::cases::{
    all_modes, altered_and_lost, copied_modes, frame_controls, modes, with_byte, Mode, Random,
    Reception, EXAMPLE, SECOND_EXAMPLE, TAPS,
};
use crate::copies::tests::listed;
use crate::interface::{place_of_sub_carrier, sub_carrier_of_place, Entry};
use crate::scrambler::{scramble, Scrambler};
use crate::turbo::{interleaved_from, PUNCTURE_ROW, SIZES};
use crate::{interleaver, turbo, Report};

const SERIAL: u64 = 0xFEDC_BA98_7654_3210;

/// Carriers and frame-control symbols by band (01; 02, T-01).
const CARRIERS: [(usize, usize); 4] = [(411, 4), (131, 12), (89, 12), (49, 12)];

/// The coded bit of every item, straight from 01 and 02 (T-01, T-06); None on unused carriers.
fn item_bits(mode: Mode) -> Vec<Option<usize>> {
    let (carriers, symbols) = CARRIERS[usize::from(mode.band)];
    if mode.copies > 1 {
        return copied_bits(mode);
    }
    if mode.kind > 0 {
        let coded = coded_bits(mode);
        let per_symbol = carriers * bits_per_carrier(mode);
        let items = usize::div_ceil(coded, per_symbol) * per_symbol;
        return (0..items).map(|n| Some(n % coded)).collect();
    }
    let offsets = [0, 192, 160, 96, 144, 80, 48, 240, 24, 184, 136, 40];
    let mut bits = Vec::new();
    for o in &offsets[..symbols] {
        for c in 0..carriers {
            bits.extend([Some((c + o) % 256), Some((c + o + 128) % 256)]);
        }
    }
    bits
}

fn coded_bits(mode: Mode) -> usize {
    match mode.rate {
        0 => 16 * [16, 72, 136, 264, 520][usize::from(mode.kind)],
        _ => 4680,
    }
}

fn bits_per_carrier(mode: Mode) -> usize {
    [1, 2, 4][usize::from(mode.modulation)]
}

/// The same with more than one copy: the section of 000 step by step, on lists (D27).
fn copied_bits(mode: Mode) -> Vec<Option<usize>> {
    let (carriers, bpc, data_bits_len) = (
        CARRIERS[usize::from(mode.band)].0,
        bits_per_carrier(mode),
        coded_bits(mode),
    );
    let copy_num = usize::from(mode.copies);
    let (inter_num, inter_num_per_group) = match copy_num {
        2 => (8, 4),
        4 => (8, 2),
        5 => (10, 2),
        7 => (14, 2),
        _ => (11, 1),
    };
    let n = carriers / inter_num;
    let bits_per_group = bpc * inter_num_per_group * n;
    let last_ofdm = match data_bits_len % (bits_per_group * copy_num) {
        0 => copy_num,
        rest => rest.div_ceil(bits_per_group),
    };
    let pad = data_bits_len.next_multiple_of(bits_per_group) - data_bits_len;
    let step = match n / (2 * inter_num) {
        0 => 0,
        1 => 1,
        2..4 => 2,
        _ => 4,
    };
    let addresses: Vec<Vec<usize>> = (0..inter_num).map(|k| listed(k + 1, step, n)).collect();

    let mut out = Vec::new();
    for copy in 0..copy_num {
        let mut data: Vec<usize> = (0..data_bits_len).collect();
        data.extend(copy * pad..(copy + 1) * pad);
        let mut groups = Vec::new();
        for group in data.chunks(bits_per_group) {
            let mut interleaved: Vec<usize> = Vec::new();
            for (span, k) in group.chunks(bpc * n).zip(copy * inter_num_per_group..) {
                let carriers: Vec<&[usize]> = span.chunks(bpc).collect();
                let at = |address: &usize| carriers[address - 1];
                interleaved.extend(addresses[k].iter().flat_map(at));
            }
            groups.push(interleaved);
        }
        // How many groups the last symbol would have of a single copy says how to shift.
        groups.rotate_right(match (copy_num, last_ofdm) {
            (4, 2) => [0, 0, 1, 1][copy],
            _ if last_ofdm == copy_num => copy,
            _ => 0,
        });
        out.extend(groups.concat());
    }
    let unused = vec![None; bpc * (carriers - inter_num * n)];
    let mut bits = Vec::new();
    for symbol in out.chunks(bpc * inter_num * n) {
        bits.extend(symbol.iter().map(|&bit| Some(bit)));
        bits.extend(&unused);
    }
    bits
}

/// What a coded bit's value is on each item; 0 on unused carriers.
fn on_items<'a>(bits: &'a [Option<usize>], coded: &'a [u8]) -> impl Iterator<Item = u8> + 'a {
    bits.iter().map(|bit| bit.map_or(0, |bit| coded[bit]))
}

/// Sends a block and gives exactly the items.
fn sent(mode: Mode, taps: u16, block: &[u8]) -> Vec<u8> {
    let (card, (send, _)) = (mode.card(taps, SERIAL), mode.entries());
    let mut out = vec![7; item_bits(mode).len()];
    let report = send.call(&card, block, &mut out);
    assert_eq!(report, Report::done(out.len()));
    out
}

fn bits_of(bytes: &[u8]) -> Vec<u8> {
    bytes
        .iter()
        .flat_map(|byte| (0..8).map(move |k| byte >> (7 - k) & 1))
        .collect()
}

/// The kept parity bits of the bytes that go into the encoders.
fn parity_of(mode: Mode, taps: u16, block: &[u8]) -> Vec<u8> {
    let mut parity = vec![0; turbo::kept_parity(mode.kind, mode.rate)];
    turbo::encode(mode.kind, mode.rate, taps, block, &mut parity);
    parity
}

/// The items of a block; `parity` makes its kept parity bits of what goes into the encoders.
fn items_with(mode: Mode, block: &[u8], parity: impl Fn(&[u8]) -> Vec<u8>) -> Vec<u8> {
    let mut input = block.to_vec();
    if mode.kind > 0 {
        scramble(&mut input);
    }
    let joined = [bits_of(&input), parity(&input)].concat();
    let mut coded = vec![0; mode.coded()];
    interleaver::shuffle(mode.kind, mode.rate, &joined, &mut coded);
    on_items(&item_bits(mode), &coded).collect()
}

/// What a reading side must answer, by the words of 01 and by other code than the entries'.
fn plain_read(mode: Mode, taps: u16, items: &[u8]) -> Result<Vec<u8>, Report> {
    if let Some(n) = (0..items.len()).find(|&n| ![0, 1, 2].contains(&items[n])) {
        return Err(Report::refused(6, n as u64));
    }
    let mut counts = vec![[0; 3]; mode.coded()];
    for (&item, bit) in items.iter().zip(item_bits(mode)) {
        if let Some(bit) = bit {
            counts[bit][usize::from(item)] += 1;
        }
    }
    if let Some(bit) = counts.iter().position(|count| count[0] == count[1]) {
        return Err(Report::refused(7, bit as u64));
    }
    let mut joined = vec![0; mode.coded()];
    interleaver::for_each_coded(mode.kind, mode.rate, |to, from| {
        joined[from] = u8::from(counts[to][1] > counts[to][0]);
    });
    let (data, parity) = joined.split_at(8 * mode.bytes());
    let mut block: Vec<u8> = data
        .chunks(8)
        .map(|bits| (0..8).map(|k| bits[k] << (7 - k)).sum())
        .collect();
    let anew = parity_of(mode, taps, &block);
    let wrong = (0..parity.len()).filter(|&n| anew[n] != parity[n]).count();
    if wrong > 0 {
        return Err(Report::refused(8, wrong as u64));
    }
    if mode.kind > 0 {
        scramble(&mut block);
    }
    Ok(block)
}

/// Reads items and holds the answer and every byte of the output against `plain_read`.
fn check_read(mode: Mode, taps: u16, items: &[u8]) -> Report {
    let (card, (_, read)) = (mode.card(taps, SERIAL), mode.entries());
    let mut out = vec![0xA5; mode.bytes() + 3];
    let report = read.call(&card, items, &mut out);
    match plain_read(mode, taps, items) {
        Ok(block) => {
            assert_eq!(report, Report::done(mode.bytes()), "{mode:?}");
            assert_eq!(out[..mode.bytes()], block);
            assert_eq!(out[mode.bytes()..], [0xA5; 3]);
        }
        Err(refusal) => {
            assert_eq!(report, refusal, "{mode:?}");
            assert!(out.iter().all(|&byte| byte == 0xA5));
        }
    }
    report
}

#[test]
fn the_numbers_are_those_of_the_table_in_its_order() {
    // Taken from the source, so that a number too many shows as well (D9).
    let constants = include_str!("lib.rs").lines();
    let numbers: Vec<u32> = constants
        .filter_map(|line| line.split_once(": u32 = "))
        .map(|(_, number)| number.trim_end_matches(';').parse().unwrap())
        .collect();
    assert_eq!(numbers, [0, 1, 2, 10, 3, 4, 5, 6, 7, 8, 11]);
}

// The bench checks.

#[test]
fn p1_first_sixteen_scrambler_bits() {
    let mut block = [0, 0];
    scramble(&mut block);
    assert_eq!(block, [0x1C, 0x4E]);
    let mut register = Scrambler::new();
    for expected in bits_of(&[0x1C, 0x4E]) {
        let (bit, next) = register.step();
        assert_eq!(bit, expected);
        register = next;
    }
}

#[test]
fn p2_interleaver_of_size_16() {
    let from: Vec<usize> = interleaved_from(&SIZES[0]).collect();
    assert_eq!((from[0], from[8], from[63]), (53, 45, 26));
}

#[test]
fn p3_interleaver_of_size_72() {
    assert_eq!(interleaved_from(&SIZES[1]).nth(18), Some(271));
}

#[test]
fn p4_second_start_of_size_16() {
    assert_eq!(SIZES[0].second_start(0b100), 0b001);
}

#[test]
fn p5_second_start_of_size_136() {
    assert_eq!(SIZES[2].second_start(0b100), 0b011);
}

#[test]
fn p6_turns_of_nibbles() {
    let mut order = Vec::new();
    interleaver::for_each_coded(0, 0, |_, from| order.push(from));
    // Nibble 2 is data row 4, nibble 8 is data row 16; R is 32, and b3 is 96 beyond b0.
    assert_eq!(order[8..12], [4 + 96, 4, 4 + 32, 4 + 64]);
    assert_eq!(order[32..36], [16, 16 + 32, 16 + 64, 16 + 96]);
}

#[test]
fn p7_lanes_of_symbol_2_place_64() {
    assert_eq!(carriers::lanes(2, 64), (0, 128));
}

#[test]
fn p8_lanes_of_symbol_1_place_410() {
    assert_eq!(carriers::lanes(1, 410), (154, 26));
}

fn copies(band: usize, bit: usize) -> usize {
    BANDS[band].copies()[bit]
}

#[test]
fn p9_copies_on_band_0() {
    assert_eq!((copies(0, 0), copies(0, 27)), (13, 12));
}

#[test]
fn p10_copies_on_band_1() {
    assert_eq!((copies(1, 0), copies(1, 3)), (13, 12));
}

#[test]
fn copies_on_the_narrow_bands() {
    assert_eq!((copies(2, 1), copies(2, 56)), (7, 10));
    assert_eq!((copies(3, 1), copies(3, 48)), (3, 7));
}

#[test]
fn fewest_and_most_copies_of_each_band() {
    // By band: fewest, most, and how many bits have the fewest (02, T-01; D16).
    let known = [(12, 13, 40), (12, 13, 184), (7, 10, 70), (3, 7, 58)];
    for (mode, (fewest, most, with_fewest)) in frame_controls().zip(known) {
        let bits = item_bits(mode);
        let copies = BANDS[usize::from(mode.band)].copies();
        for (bit, &count) in copies.iter().enumerate() {
            assert_eq!(
                bits.iter().filter(|&&carried| carried == Some(bit)).count(),
                count
            );
            assert_eq!(mode.carriers(bit), mode.carriers((bit + 128) % 256));
        }
        assert_eq!(copies.iter().min(), Some(&fewest));
        assert_eq!(copies.iter().max(), Some(&most));
        assert_eq!(mode.fewest_copies(), fewest);
        assert_eq!(mode.rarest_bits().len(), with_fewest);
    }
}

#[test]
fn ends_of_the_narrow_bands() {
    let place = |band, sub_carrier| {
        let report = place_of_sub_carrier(band, sub_carrier);
        (report.number, report.value)
    };
    let sub_carrier = |band, place| {
        let report = sub_carrier_of_place(band, place);
        (report.number, report.value)
    };
    assert_eq!((place(2, 32), place(2, 120)), ((0, 0), (0, 88)));
    assert_eq!((place(2, 31), place(2, 121)), ((4, 31), (4, 121)));
    assert_eq!((sub_carrier(2, 0), sub_carrier(2, 88)), ((0, 32), (0, 120)));
    assert_eq!(sub_carrier(2, 89), (4, 89));
    assert_eq!((place(3, 72), place(3, 120)), ((0, 0), (0, 48)));
    assert_eq!((place(3, 71), place(3, 121)), ((4, 71), (4, 121)));
    assert_eq!(
        (sub_carrier(3, 48), sub_carrier(3, 49)),
        ((0, 120), (4, 49))
    );
    assert_eq!((place(4, 100), sub_carrier(4, 0)), ((3, 0), (3, 0)));
}

/// The bytes of the example card of 01, and of the same card of version 2 (02, T-03).
const FIRST: [u8; 11] = [0x12, 0x58, 0x8E, 0x00, 0x20, 0, 0, 0, 0, 0, 1];
const SECOND: [u8; 12] = [0x22, 0x58, 0x8E, 0x00, 0x00, 0x20, 0, 0, 0, 0, 0, 1];

/// A card's bytes are printed as the text, and its fields are written as the bytes.
fn check_card(bytes: &[u8], fields: &Fields, text: &str) {
    assert_eq!(card::text(bytes), text);
    let mut out = vec![0; bytes.len()];
    assert_eq!(card::write(fields, &mut out), Report::done(bytes.len()));
    assert_eq!(out, bytes);
}

/// Each case puts a byte at an index of a card, which must then print that number alone.
fn check_refused(card: &[u8], cases: &[(usize, u8, u32)]) {
    for &(index, byte, expected) in cases {
        let text = card::text(&with_byte(card, index, byte));
        assert_eq!(text, format!("refused {expected}\n"));
    }
}

#[test]
fn p11_the_card_of_the_example() {
    let text = "version 1\nband 0\nkind 4\nrate 1\nmodulation 1\ntaps 10001000111\n\
                serial 9007199254740993\n";
    check_card(&FIRST, &EXAMPLE, text);
    for (byte, band) in [(0x16, "band 1"), (0x1A, "band 2"), (0x1E, "band 3")] {
        let other = with_byte(&FIRST, 0, byte);
        assert_eq!(card::text(&other), text.replace("band 0", band));
    }
    // Kind 5, version 2 on eleven bytes, spare 1.
    check_refused(&FIRST, &[(1, 0xD8, 3), (0, 0x22, 10), (2, 0x8F, 2)]);
    assert_eq!(card::text(&FIRST[..10]), "refused 1\n");
}

#[test]
fn the_example_as_a_card_of_version_2() {
    let text = "version 2\nband 0\nkind 4\nrate 1\nmodulation 1\ntaps 10001000111\n\
                blocks 1\ncopies 1\nserial 9007199254740993\n";
    check_card(&SECOND, &SECOND_EXAMPLE, text);

    // There and back from either end.
    let moved = |card: &[u8], version: u64| {
        let mut out = [0xA5; 12];
        let report = card::move_to(card, version, &mut out);
        assert_eq!(report, Report::done(10 + version as usize));
        out[..10 + version as usize].to_vec()
    };
    for card in [&FIRST[..], &SECOND] {
        assert_eq!(moved(card, 1), FIRST);
        assert_eq!(moved(card, 2), SECOND);
    }
    assert_eq!(moved(&moved(&FIRST, 2), 1), FIRST);
    assert_eq!(moved(&moved(&SECOND, 1), 2), SECOND);

    // Kind 5, version 1 on twelve bytes, spare 1, padding, two blocks, copy codes 6 and 7.
    let others = [
        (1, 0xD8, 3),
        (0, 0x12, 10),
        (2, 0x8F, 2),
        (3, 0x01, 2),
        (3, 0x02, 2),
        (3, 0x04, 2),
        (3, 0x40, 3),
        (3, 0x30, 3),
        (3, 0x38, 3),
    ];
    check_refused(&SECOND, &others);
    for (byte, copies) in [(8, 2), (16, 4), (24, 5), (32, 7), (40, 11)] {
        let copied = with_byte(&SECOND, 3, byte);
        let line = format!("copies {copies}");
        check_card(
            &copied,
            &Fields {
                copies,
                ..SECOND_EXAMPLE
            },
            &text.replace("copies 1", &line),
        );
    }
    assert_eq!(card::text(&SECOND[..11]), "refused 10\n");
    assert_eq!(card::text(&[&SECOND[..], &[0]].concat()), "refused 1\n");
}

#[test]
fn p12_layout_of_4680_coded_bits() {
    let layout = Mode::new(0, 4, 1, 1).layout().unwrap();
    assert_eq!((layout.groups, layout.pad_bits_num), (6, 252));
}

// The entries.

/// The modes with the taps they are tried with: all with one copy, one in turn with more.
fn all_modes_and_taps() -> impl Iterator<Item = (Mode, u16)> {
    all_modes().into_iter().enumerate().flat_map(|(n, mode)| {
        let taps = match mode.copies {
            1 => &TAPS[..],
            _ => &TAPS[n % TAPS.len()..][..1],
        };
        taps.iter().map(move |&taps| (mode, taps))
    })
}

#[test]
fn round_trips_in_all_defined_modes() {
    let mut random = Random::new(1);
    for (mode, taps) in all_modes_and_taps() {
        let (send, read) = mode.entries();
        let block = random.bytes(mode.bytes());
        let needed = item_bits(mode).len();
        for &version in mode.versions() {
            let card = mode.card_of(version, taps, SERIAL);
            let mut items = vec![7; needed + 5];
            let report = send.call(&card, &block, &mut items);
            assert_eq!(report, Report::done(needed), "{mode:?}");
            assert_eq!(items[needed..], [7; 5]);
            assert!(items[..needed].iter().all(|&item| item < 2));
            let mut back = vec![0xA5; mode.bytes() + 1];
            let report = read.call(&card, &items[..needed], &mut back);
            assert_eq!(report, Report::done(mode.bytes()), "{mode:?}");
            assert_eq!(back[..mode.bytes()], block);
            assert_eq!(back[mode.bytes()], 0xA5);
        }
    }
}

#[test]
fn both_versions_of_a_card_send_and_read_alike() {
    let mut random = Random::new(6);
    for mode in modes() {
        let (taps, (send, read)) = (random.below(2048) as u16, mode.entries());
        let cards = Version::ALL.map(|version| mode.card_of(version, taps, SERIAL));
        let mut damaged = Reception::new(mode, cards[0].clone(), random.bytes(mode.bytes()));
        for round in 0..4 {
            // As it was sent, a bit wrong, a bit lost besides, and an illegal item besides.
            match round {
                0 => {}
                1 => damaged.flip_bit(random.below(mode.coded())),
                2 => damaged.lose_bit(random.below(mode.coded())),
                _ => damaged.items[9] = 3,
            }
            let answers = cards.each_ref().map(|card| {
                let mut items = vec![7; mode.items() + 1];
                let sent = send.call(card, &damaged.block, &mut items);
                let mut block = vec![7; mode.bytes() + 1];
                let report = read.call(card, &damaged.items, &mut block);
                (sent, items, report, block)
            });
            assert_eq!(answers[0], answers[1], "{mode:?}");
        }
    }
}

#[test]
fn items_are_the_coded_bits_of_the_scrambled_block() {
    let mut random = Random::new(2);
    let taps = 731;
    for mode in all_modes() {
        let block = random.bytes(mode.bytes());
        let expected = items_with(mode, &block, |input| parity_of(mode, taps, input));
        assert_eq!(sent(mode, taps, &block), expected);
    }
}

#[test]
fn blocks_punctured_by_the_old_reading_differ_in_parity_nibbles_and_are_refused() {
    // By T-04 the printed row's lowest place comes first, by the old reading its highest (D7).
    let lowest_first = |t: usize| PUNCTURE_ROW >> (t % 16) & 1 == 1;
    let highest_first = |t: usize| PUNCTURE_ROW >> (15 - t % 16) & 1 == 1;
    let mut random = Random::new(7);
    for mode in modes().into_iter().filter(|mode| mode.rate == 1) {
        for taps in TAPS {
            let block = random.bytes(mode.bytes());
            let punctured = |reading: fn(usize) -> bool| {
                items_with(mode, &block, |input| {
                    let all = parity_of(Mode { rate: 0, ..mode }, taps, input);
                    let kept = (0..all.len() / 2).filter(|&t| reading(t));
                    kept.flat_map(|t| [all[2 * t], all[2 * t + 1]]).collect()
                })
            };
            let (new, old) = (punctured(lowest_first), punctured(highest_first));
            assert_eq!(sent(mode, taps, &block), new);

            // Parity is the fourth nibble of each group of nine (D4).
            let differs = |bit: &usize| old[*bit] != new[*bit];
            let differing: Vec<usize> = (0..mode.coded()).filter(differs).collect();
            assert!(differing.iter().all(|bit| bit / 4 % 9 == 3));

            let mut out = vec![0xA5; mode.bytes()];
            let (card, (_, read)) = (mode.card(taps, SERIAL), mode.entries());
            let report = read.call(&card, &old, &mut out);
            if taps == 0 {
                // All parity is 0 by either reading.
                assert!(differing.is_empty());
                assert_eq!((report, out), (Report::done(block.len()), block));
            } else {
                assert!(!differing.is_empty());
                assert_eq!(report, Report::refused(8, differing.len() as u64));
                assert!(out.iter().all(|&byte| byte == 0xA5));
            }
        }
    }
}

#[test]
fn counts_of_items() {
    for mode in all_modes() {
        assert_eq!(mode.items(), item_bits(mode).len());
    }
    let count = |band, kind, rate, modulation| Mode::new(band, kind, rate, modulation).items();
    assert_eq!(count(0, 0, 0, 1), 3288);
    assert_eq!(count(1, 0, 0, 1), 3144);
    assert_eq!(count(2, 0, 0, 1), 2136);
    assert_eq!(count(3, 0, 0, 1), 1176);
    assert_eq!(count(0, 4, 1, 1), 4932);
    assert_eq!(count(0, 1, 0, 2), 1644);
    assert_eq!(count(1, 4, 0, 0), 64 * 131);
    assert_eq!(count(2, 4, 1, 2), 14 * 4 * 89);
    assert_eq!(count(3, 1, 0, 0), 24 * 49);
}

#[test]
fn both_sides_of_each_length() {
    for mode in all_modes() {
        let (card, (send, read)) = (mode.card(1365, SERIAL), mode.entries());
        let (bytes, items) = (mode.bytes(), item_bits(mode).len());
        for (entry, input, output) in [(send, bytes, items), (read, items, bytes)] {
            for length in [0, input - 1, input + 1] {
                let mut out = vec![0xA5; output];
                let report = entry.call(&card, &vec![0; length], &mut out);
                assert_eq!(report, Report::refused(4, length as u64));
                assert!(out.iter().all(|&byte| byte == 0xA5));
            }
            for length in [0, output - 1] {
                let mut out = vec![0xA5; length];
                let report = entry.call(&card, &vec![0; input], &mut out);
                assert_eq!(report, Report::refused(5, output as u64));
                assert!(out.iter().all(|&byte| byte == 0xA5));
            }
        }
    }
}

/// Cards of frame control and of a payload, the one first that the entry serves.
fn served_and_not(entry: Entry, version: Version) -> [Vec<u8>; 2] {
    let (frame_control, payload) = (Mode::frame_control(0), Mode::new(0, 1, 0, 1));
    let modes = match entry {
        Entry::FcSend | Entry::FcRead => [frame_control, payload],
        Entry::PayloadSend | Entry::PayloadRead => [payload, frame_control],
    };
    modes.map(|mode| mode.card_of(version, 5, SERIAL))
}

/// The refusal of a card at an entry, with an input and a room that are wrong besides.
fn refusal_at(entry: Entry, card: &[u8]) -> (u32, u64) {
    let mut out = [0xA5; 3];
    let report = entry.call(card, &[9; 5], &mut out);
    assert_eq!(out, [0xA5; 3]);
    (report.number, report.value)
}

#[test]
fn cards_are_refused_before_all_else() {
    for entry in Entry::ALL {
        let [good, other] = served_and_not(entry, Version::One);
        let number = |card: &[u8]| refusal_at(entry, card);
        assert_eq!(number(&good[..10]), (1, 10));
        assert_eq!(number(&[0xFF; 12]), (2, 0));
        assert_eq!(number(&[0xFF; 13]), (1, 13));
        assert_eq!(number(&[0xFF; 11]), (2, 0));
        let modulation_3 = [0x10, 0xB0, 0, 0, 0, 0, 0, 0, 0, 0, 0];
        let kind_5 = [0x12, 0x90, 0, 0, 0, 0, 0, 0, 0, 0, 0];
        assert_eq!(number(&modulation_3), (3, 0));
        assert_eq!(number(&kind_5), (3, 0));
        assert_eq!(number(&other), (3, 0));
    }
}

#[test]
fn cards_of_version_2_are_refused_before_all_else() {
    for entry in Entry::ALL {
        let [good, other] = served_and_not(entry, Version::Two);
        let number = |card: &[u8]| refusal_at(entry, card);
        // The card itself is served: the input's length is judged next.
        assert_eq!(number(&good), (4, 5));
        assert_eq!(number(&good[..10]), (1, 10));
        assert_eq!(number(&[&good[..], &[0]].concat()), (1, 13));
        assert_eq!(number(&good[..11]), (10, 0));
        let with = |index: usize, byte: u8| number(&with_byte(&good, index, byte));
        // Version 1 on twelve bytes, whatever the fourth; the spare bit goes before it.
        let first = with_byte(&good, 0, good[0] - 0x10);
        assert_eq!(number(&first), (10, 0));
        assert_eq!(number(&with_byte(&first, 3, 0xFF)), (10, 0));
        assert_eq!(number(&with_byte(&first, 2, first[2] | 1)), (2, 0));
        assert_eq!(with(2, good[2] | 1), (2, 0));
        for byte in [0x01, 0x02, 0x04, 0x39, 0xFF] {
            assert_eq!(with(3, byte), (2, 0));
        }
        for byte in [0x30, 0x38, 0x40, 0x80, 0xC0, 0x48, 0xE8] {
            assert_eq!(with(3, byte), (3, 0));
        }
        // More copies are for payloads alone; with them the input's length is judged next.
        for byte in [0x08, 0x10, 0x18, 0x20, 0x28] {
            let expected = match Mode::of(&good).unwrap().kind {
                0 => (3, 0),
                _ => (4, 5),
            };
            assert_eq!(with(3, byte), expected);
        }
        // Modulation 3, and a kind that the entry doesn't serve.
        assert_eq!(with(1, good[1] | 0x30), (3, 0));
        assert_eq!(number(&other), (3, 0));
    }
}

#[test]
fn reading_refuses_in_row_order() {
    for mode in all_modes() {
        let card = mode.card(1095, SERIAL);
        let read = |items: &[u8], out: &mut [u8]| mode.entries().1.call(&card, items, out);
        let sent = sent(mode, 1095, &vec![0x3C; mode.bytes()]);
        let mut out = vec![0xA5; mode.bytes()];
        let short = mode.bytes() - 1;

        // Everything wrong at once: the length, the room, the items.
        let mut items = sent.clone();
        items[7] = 255;
        items[5] = 3;
        items.push(9);
        let report = read(&items, &mut out[..short]);
        assert_eq!(report, Report::refused(4, items.len() as u64));
        items.pop();
        let report = read(&items, &mut out[..short]);
        assert_eq!(report, Report::refused(5, mode.bytes() as u64));
        assert_eq!(read(&items, &mut out), Report::refused(6, 5));
        items[5] = 2;
        assert_eq!(read(&items, &mut out), Report::refused(6, 7));

        // All copies of bits 100 and 40 lost, and parity wrong besides.
        let bits = item_bits(mode);
        let mut parity_place = 0;
        interleaver::for_each_coded(mode.kind, mode.rate, |to, from| {
            if from == 8 * mode.bytes() + 3 {
                parity_place = to;
            }
        });
        let mut items = sent.clone();
        for (item, &bit) in items.iter_mut().zip(&bits) {
            if bit == Some(parity_place) {
                *item ^= 1;
            } else if bit == Some(100) || bit == Some(40) {
                *item = 2;
            }
        }
        assert_eq!(read(&items, &mut out), Report::refused(7, 40));
        for (item, (&bit, &was)) in items.iter_mut().zip(bits.iter().zip(&sent)) {
            if bit != Some(parity_place) {
                *item = was;
            }
        }
        assert_eq!(read(&items, &mut out), Report::refused(8, 1));
        assert!(out.iter().all(|&byte| byte == 0xA5));

        let all_lost = vec![2; sent.len()];
        assert_eq!(read(&all_lost, &mut out), Report::refused(7, 0));
        let report = read(&sent, &mut out);
        assert_eq!(report, Report::done(mode.bytes()));
        assert!(out.iter().all(|&byte| byte == 0x3C));
    }
}

#[test]
fn the_count_of_refusal_8() {
    // The encoder is linear: wrong data bits alter the parity by the parity of the change.
    let mut random = Random::new(3);
    for (mode, taps) in all_modes_and_taps() {
        let mut change = vec![0; mode.bytes()];
        for _ in 0..3 {
            change[random.below(mode.bytes())] ^= 1 << random.below(8);
        }
        let parity = parity_of(mode, taps, &change);
        let count = parity.iter().filter(|&&bit| bit == 1).count();

        let block = random.bytes(mode.bytes());
        let wrong: Vec<u8> = block.iter().zip(&change).map(|(a, b)| a ^ b).collect();
        let data = bits_of(&change);
        let mut flip = vec![0; mode.coded()];
        interleaver::for_each_coded(mode.kind, mode.rate, |to, from| {
            flip[to] = data.get(from).copied().unwrap_or(0);
        });
        let items: Vec<u8> = sent(mode, taps, &block)
            .iter()
            .zip(on_items(&item_bits(mode), &flip))
            .map(|(item, flip)| item ^ flip)
            .collect();
        let mut out = vec![0xA5; mode.bytes()];
        let (card, (_, read)) = (mode.card(taps, SERIAL), mode.entries());
        let report = read.call(&card, &items, &mut out);
        if count > 0 {
            assert_eq!(report, Report::refused(8, count as u64));
            assert!(out.iter().all(|&byte| byte == 0xA5));
        } else {
            // Wrong data comes back as done where no parity tells, as with taps 0 (D12).
            assert_eq!(report, Report::done(mode.bytes()));
            assert_eq!(out, wrong);
        }
        assert_eq!(check_read(mode, taps, &items), report);
    }
}

#[test]
fn damage_is_judged_as_the_words_of_01_say() {
    let mut random = Random::new(4);
    let mut seen = [0; 12];
    for round in 0..60 {
        let taps = TAPS[round % TAPS.len()];
        for mode in all_modes() {
            // Long lists in a few rounds only.
            let last = match (mode.kind, mode.copies) {
                (0 | 1, 1) => 60,
                (_, 1) => 6,
                (1, _) => 4,
                (_, _) => 1,
            };
            if round >= last {
                continue;
            }
            let block = random.bytes(mode.bytes());
            let mut items = sent(mode, taps, &block);
            // From a few items to about a third, set to anything legal.
            let hits = if round % 2 == 0 {
                items.len() / (3 + round)
            } else {
                round / 6
            };
            for _ in 0..hits {
                let at = random.below(items.len());
                items[at] = random.below(3) as u8;
            }
            if round % 10 == 9 {
                let at = random.below(items.len());
                items[at] = 3 + random.below(253) as u8;
            }
            seen[check_read(mode, taps, &items).number as usize] += 1;
        }
    }
    assert!(
        [0, 6, 7, 8].iter().all(|&number| seen[number] > 0),
        "{seen:?}"
    );
}

#[test]
fn few_wrong_frame_control_copies_are_outvoted() {
    for mode in frame_controls() {
        let taps = 1095;
        let word: Vec<u8> = (0..16).map(|n| n * 17).collect();
        let sent = sent(mode, taps, &word);
        let bits = item_bits(mode);
        for bit in 0..256 {
            let carries = |n: &usize| bits[*n] == Some(bit);
            let places: Vec<usize> = (0..bits.len()).filter(carries).collect();
            for wrong in 0..=places.len() {
                let mut items = sent.clone();
                for &place in &places[..wrong] {
                    items[place] ^= 1;
                }
                let report = check_read(mode, taps, &items);
                if 2 * wrong < places.len() {
                    assert_eq!(report, Report::done(16));
                } else if 2 * wrong == places.len() {
                    assert_eq!(report, Report::refused(7, bit as u64));
                } else {
                    assert_ne!(report.number, 7);
                }
            }
        }
    }
}

/// The answer to a frame control, and the word.
fn read_back(reception: &Reception) -> (Report, Vec<u8>) {
    let mut word = vec![0xA5; 16];
    let report = Entry::FcRead.call(&reception.card, &reception.items, &mut word);
    (report, word)
}

#[test]
fn demand_3_on_every_band() {
    let mut random = Random::new(5);
    for (mode, fewest) in frame_controls().zip([12, 12, 7, 3]) {
        for bit in 0..256 {
            for weight in 0..fewest {
                let mut reception = Reception::random(mode, &mut random);
                let (altered, lost) = altered_and_lost(weight, &mut random);
                reception.damage_carriers(&mode.carriers(bit), altered, lost, &mut random);
                let answer = read_back(&reception);
                assert_eq!(answer, (Report::done(16), reception.block));
            }
        }
        // It is the best possible: exactly so many lost carriers undo a bit.
        for bit in mode.rarest_bits() {
            let mut reception = Reception::random(mode, &mut random);
            assert_eq!(mode.carriers(bit).len(), fewest);
            reception.lose_bit(bit);
            let (report, word) = read_back(&reception);
            assert_eq!(report, Report::refused(7, bit as u64));
            assert_eq!(word, [0xA5; 16]);
            reception.lose_bit((bit + 128) % 256);
            let (report, _) = read_back(&reception);
            assert_eq!(report, Report::refused(7, bit as u64 % 128));
        }
    }
}

#[test]
fn pad_copies_vote() {
    let taps = 2047;
    for mode in modes().into_iter().filter(|mode| mode.kind > 0) {
        let sent = sent(mode, taps, &vec![0x77; mode.bytes()]);
        let pad = sent.len() - mode.coded();
        for bit in [0, pad / 2, pad - 1] {
            // One wrong copy of two is a tie; one lost copy of two leaves the other to decide.
            for place in [bit, mode.coded() + bit] {
                let mut items = sent.clone();
                items[place] ^= 1;
                assert_eq!(
                    check_read(mode, taps, &items),
                    Report::refused(7, bit as u64)
                );
                items[place] = 2;
                assert_eq!(check_read(mode, taps, &items), Report::done(mode.bytes()));
            }
        }
        // A bit without a second copy that is lost has no majority.
        let mut items = sent.clone();
        items[pad] = 2;
        assert_eq!(
            check_read(mode, taps, &items),
            Report::refused(7, pad as u64)
        );
    }
}

// Copied payload (02, T-06; D27).

/// A payload read with the room it needs: the answer, and the block.
fn payload_back(reception: &Reception) -> (Report, Vec<u8>) {
    let mut block = vec![0xA5; reception.mode.bytes()];
    let report = Entry::PayloadRead.call(&reception.card, &reception.items, &mut block);
    (report, block)
}

/// A payload comes back as it was sent.
fn comes_back(reception: &Reception) -> bool {
    let done = Report::done(reception.mode.bytes());
    payload_back(reception) == (done, reception.block.clone())
}

/// A payload is refused, and nothing is written.
fn check_refusal(reception: &Reception, number: u32, value: usize) {
    let (report, block) = payload_back(reception);
    let mode = reception.mode;
    assert_eq!(report, Report::refused(number, value as u64), "{mode:?}");
    assert!(block.iter().all(|&byte| byte == 0xA5));
}

/// A reception with all coded bits damaged to just below the count of copies.
fn damaged_to_the_limit(mode: Mode, random: &mut Random) -> Reception {
    let mut reception = Reception::random(mode, random);
    reception.damage_all_bits(usize::from(mode.copies) - 1, random);
    reception
}

#[test]
fn damage_below_the_count_of_copies_comes_back() {
    let mut random = Random::new(8);
    for mode in copied_modes() {
        let reception = damaged_to_the_limit(mode, &mut random);
        assert!(comes_back(&reception), "{mode:?}");
        // Nothing of it is left out: at least half as many copies as the weight are changed.
        let pairs = reception.items.iter().zip(&reception.sent);
        let changed = pairs.filter(|(a, b)| a != b).count();
        assert!(2 * changed >= mode.coded() * (usize::from(mode.copies) - 1));
    }
}

#[test]
fn a_bit_at_the_count_of_its_own_copies_is_refused_by_7() {
    let mut random = Random::new(9);
    for mode in copied_modes() {
        let mut reception = damaged_to_the_limit(mode, &mut random);
        // From the highest down, so that each is the lowest. The first bits have a copy more.
        let last = mode.coded() - 1;
        for bit in [last, mode.repeated().min(last), mode.repeated() / 2, 0] {
            reception.undo_bit(bit, &mut random);
            check_refusal(&reception, 7, bit);
        }
    }
}

#[test]
fn unused_carriers_go_out_as_0_and_have_no_vote() {
    let mut random = Random::new(10);
    for mode in copied_modes() {
        let mut reception = Reception::random(mode, &mut random);
        let bits = item_bits(mode);
        let is_unused = |item: &usize| bits[*item].is_none();
        let unused: Vec<usize> = (0..bits.len()).filter(is_unused).collect();
        assert!(!unused.is_empty() && unused == mode.unused());
        assert!(unused.iter().all(|&item| reception.sent[item] == 0));

        for legal in [1, 2] {
            for &item in &unused {
                reception.items[item] = legal;
            }
            assert!(comes_back(&reception), "{mode:?}");
        }
        reception.fill_unused(&mut random);
        assert!(comes_back(&reception), "{mode:?}");

        // Illegal ones from the last down, the lowest being named, whether it is used or not.
        let some = random.pick(&unused);
        for item in [*unused.last().unwrap(), some, unused[0], unused[0] - 1] {
            reception.items[item] = random.within(3..256) as u8;
            check_refusal(&reception, 6, item);
        }
    }
}

#[test]
fn outputs_keep_what_is_beyond_the_answer() {
    for mode in copied_modes() {
        let (card, needed) = (mode.card(682, SERIAL), mode.items());
        let mut out = vec![0xA5; needed + 9];
        let block = vec![0x5A; mode.bytes()];
        let report = Entry::PayloadSend.call(&card, &block, &mut out);
        assert_eq!(report, Report::done(needed));
        assert_eq!(out[needed..], [0xA5; 9]);
    }
}
