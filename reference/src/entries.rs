//! The four entries: frame control and payload, each sent and read, from bytes to items and back.
//!
//! Refusals go in the row order of 01's table, amended by 02 (T-03, T-05):
//! 1, 2, 10, 3, 4, 5, 6, 7, 8 (D9). Cards of both versions are taken. An entry writes its output
//! last, so a refusal leaves it as it was.

use crate::card::{self, Card};
use crate::carriers::{self, Balance, Band, BANDS, FRAME_CONTROL_BITS};
use crate::copies::Layout;
use crate::interleaver::{self, coded_bits, data_bits, MAX_CODED};
use crate::turbo::{self, MAX_PARITY};
use crate::{number, points, scrambler, Report};

/// Length of a frame control in bytes.
const FRAME_CONTROL_BYTES: usize = 16;
/// Length of the longest block in bytes.
const MAX_BYTES: usize = 520;

/// Sends a frame control: 16 bytes become the items of all symbols, by symbol, place, I then Q.
pub fn fc_send(card: &[u8], word: &[u8], out: &mut [u8]) -> Report {
    try_fc_send(card, word, out).map_or_else(|refusal| refusal, Report::done)
}

/// Reads a frame control: the items of all symbols become 16 bytes.
pub fn fc_read(card: &[u8], items: &[u8], out: &mut [u8]) -> Report {
    try_fc_read(card, items, out).map_or_else(|refusal| refusal, Report::done)
}

/// Sends a payload block: its bytes become coded bits, and copies of these the items of all symbols.
/// Items of unused carriers are 0.
pub fn payload_send(card: &[u8], block: &[u8], out: &mut [u8]) -> Report {
    try_payload_send(card, block, out).map_or_else(|refusal| refusal, Report::done)
}

/// Reads a payload block: the items of all symbols become its bytes. Pad copies vote (D12). Items of
/// unused carriers must be legal, and have no vote (D27).
pub fn payload_read(card: &[u8], items: &[u8], out: &mut [u8]) -> Report {
    try_payload_read(card, items, out).map_or_else(|refusal| refusal, Report::done)
}

fn try_fc_send(card: &[u8], word: &[u8], out: &mut [u8]) -> Result<usize, Report> {
    let (card, band) = frame_control_card(card)?;
    let needed = band.frame_control_items();
    check_lengths(word, FRAME_CONTROL_BYTES, out, needed)?;

    // Frame control is not scrambled (D5).
    let mut coded = [0; FRAME_CONTROL_BITS];
    encode(&card, word, &mut coded);
    let out = &mut out[..needed];
    band.for_each_lane(|item, bit| out[item] = coded[bit]);
    Ok(needed)
}

fn try_fc_read(card: &[u8], items: &[u8], out: &mut [u8]) -> Result<usize, Report> {
    let (card, band) = frame_control_card(card)?;
    check_lengths(items, band.frame_control_items(), out, FRAME_CONTROL_BYTES)?;
    check_items(items)?;

    let mut balances = [0; FRAME_CONTROL_BITS];
    band.for_each_lane(|item, bit| balances[bit] += carriers::vote(items[item]));
    let mut word = [0; FRAME_CONTROL_BYTES];
    decode(&card, &balances, &mut word)?;
    out[..FRAME_CONTROL_BYTES].copy_from_slice(&word);
    Ok(FRAME_CONTROL_BYTES)
}

fn try_payload_send(card: &[u8], block: &[u8], out: &mut [u8]) -> Result<usize, Report> {
    let plan = payload_plan(card)?;
    let layout = &plan.layout;
    check_lengths(block, plan.bytes, out, layout.items())?;

    let mut scrambled = [0; MAX_BYTES];
    let scrambled = &mut scrambled[..plan.bytes];
    scrambled.copy_from_slice(block);
    scrambler::scramble(scrambled);

    let mut coded = [0; MAX_CODED];
    let coded = &mut coded[..layout.data_bits_len];
    encode(&plan.card, scrambled, coded);

    let out = &mut out[..layout.items()];
    layout.for_each_run(|item, bit, length| {
        out[item..item + length].copy_from_slice(&coded[bit..bit + length]);
    });
    for symbol in out.chunks_exact_mut(layout.items_per_symbol()) {
        symbol[layout.bits_per_ofdm..].fill(0);
    }
    Ok(out.len())
}

fn try_payload_read(card: &[u8], items: &[u8], out: &mut [u8]) -> Result<usize, Report> {
    let plan = payload_plan(card)?;
    let layout = &plan.layout;
    check_lengths(items, layout.items(), out, plan.bytes)?;
    check_items(items)?;

    let mut balances = [0; MAX_CODED];
    let balances = &mut balances[..layout.data_bits_len];
    layout.for_each_run(|item, bit, length| {
        let copies = &items[item..item + length];
        for (balance, &copy) in balances[bit..bit + length].iter_mut().zip(copies) {
            *balance += carriers::vote(copy);
        }
    });

    let mut block = [0; MAX_BYTES];
    let block = &mut block[..plan.bytes];
    decode(&plan.card, balances, block)?;
    scrambler::scramble(block);
    out[..plan.bytes].copy_from_slice(block);
    Ok(plan.bytes)
}

/// A card as the frame-control entries take it: one of a payload is 3.
fn frame_control_card(card: &[u8]) -> Result<(Card, Band), Report> {
    let card = card::read(card)?;
    if card.kind != 0 {
        return Err(Report::refused(number::MODE, 0));
    }
    Ok((card, BANDS[usize::from(card.band)]))
}

/// What a payload card asks for.
struct PayloadPlan {
    card: Card,
    bytes: usize,
    layout: Layout,
}

/// A card as the payload entries take it: one of a frame control is 3.
fn payload_plan(card: &[u8]) -> Result<PayloadPlan, Report> {
    let card = card::read(card)?;
    if card.kind == 0 {
        return Err(Report::refused(number::MODE, 0));
    }
    let band = &BANDS[usize::from(card.band)];
    let coded = coded_bits(card.kind, card.rate);
    let layout = points::bits_per_carrier(card.modulation.into())
        .and_then(|bpc| Layout::new(band, bpc, coded, card.copies))
        .ok_or(Report::refused(number::MODE, 0))?;
    let bytes = turbo::SIZES[usize::from(card.kind)].bytes;
    Ok(PayloadPlan {
        card,
        bytes,
        layout,
    })
}

/// 4 with the input's length, then 5 with the needed length of the output.
fn check_lengths(input: &[u8], expected: usize, out: &[u8], needed: usize) -> Result<(), Report> {
    if input.len() != expected {
        return Err(Report::refused(number::INPUT, input.len() as u64));
    }
    if out.len() < needed {
        return Err(Report::refused(number::OUTPUT, needed as u64));
    }
    Ok(())
}

/// 6 with the lowest index of an item that is not 0, 1 or 2.
fn check_items(items: &[u8]) -> Result<(), Report> {
    match carriers::first_illegal(items) {
        Some(index) => Err(Report::refused(number::ITEM, index as u64)),
        None => Ok(()),
    }
}

/// From a block's bytes, scrambled where that is due, to its coded bits, one to a byte.
fn encode(card: &Card, block: &[u8], coded: &mut [u8]) {
    let mut bits = [0; MAX_CODED];
    let bits = &mut bits[..coded.len()];
    let (data, parity) = bits.split_at_mut(data_bits(card.kind));
    unpack_bits(block, data);
    turbo::encode(card.kind, card.rate, card.taps, block, parity);
    interleaver::shuffle(card.kind, card.rate, bits, coded);
}

/// From the coded bits' balances to the block's bytes, still scrambled where that is due: 7 with
/// the lowest bit that has no strict majority, then 8 with the count of kept parity bits that
/// differ from those computed anew.
fn decode(card: &Card, balances: &[Balance], block: &mut [u8]) -> Result<(), Report> {
    let mut coded = [0; MAX_CODED];
    let coded = &mut coded[..balances.len()];
    carriers::decide(balances, coded)
        .map_err(|bit| Report::refused(number::MAJORITY, bit as u64))?;

    let mut bits = [0; MAX_CODED];
    let bits = &mut bits[..coded.len()];
    interleaver::unshuffle(card.kind, card.rate, coded, bits);
    let (data, decided) = bits.split_at(data_bits(card.kind));
    pack_bits(data, block);

    let mut anew = [0; MAX_PARITY];
    let anew = &mut anew[..decided.len()];
    turbo::encode(card.kind, card.rate, card.taps, block, anew);
    match anew.iter().zip(decided).filter(|(a, b)| a != b).count() {
        0 => Ok(()),
        count => Err(Report::refused(number::PARITY, count as u64)),
    }
}

/// Bits are taken from bytes most significant first.
fn unpack_bits(bytes: &[u8], bits: &mut [u8]) {
    for (eight, &byte) in bits.chunks_exact_mut(8).zip(bytes) {
        for (k, bit) in eight.iter_mut().enumerate() {
            *bit = byte >> (7 - k) & 1;
        }
    }
}

/// The reverse of `unpack_bits`.
fn pack_bits(bits: &[u8], bytes: &mut [u8]) {
    for (eight, byte) in bits.chunks_exact(8).zip(bytes) {
        *byte = eight.iter().fold(0, |byte, &bit| byte << 1 | bit);
    }
}
