//! Vectors printed as text: parity, the order of shuffling, points and the scrambler.

use std::io::{self, Write};

use reference::cases::{all_bits, CODINGS, TAPS};
use reference::points::{self, Received, EDGES, QAM16_FACTOR, QPSK_FACTOR};
use reference::scrambler::Scrambler;
use reference::{interleaver, turbo};

/// Items or bits as digits.
pub fn digits(items: &[u8]) -> String {
    items.iter().map(|item| char::from(b'0' + item)).collect()
}

/// A block of bytes from the generator, set anew for each kind and taps.
fn block(kind: u8, taps: u16) -> Vec<u8> {
    let mut state = 12345 + 1000 * u32::from(kind) + u32::from(taps);
    let mut next_byte = || {
        state = state.wrapping_mul(1664525).wrapping_add(1013904223);
        (state >> 24) as u8
    };
    (0..turbo::SIZES[usize::from(kind)].bytes)
        .map(|_| next_byte())
        .collect()
}

pub fn print_turbo(out: &mut impl Write) -> io::Result<()> {
    for (kind, rate) in CODINGS {
        for taps in TAPS {
            let mut kept = vec![0; turbo::kept_parity(kind, rate)];
            turbo::encode(kind, rate, taps, &block(kind, taps), &mut kept);
            writeln!(out, "kind {kind} rate {rate} taps {taps} {}", digits(&kept))?;
        }
    }
    Ok(())
}

pub fn print_interleaver(out: &mut impl Write) -> io::Result<()> {
    for (kind, rate) in CODINGS {
        let mut order = Vec::new();
        interleaver::for_each_coded(kind, rate, |_, from| order.push(from.to_string()));
        writeln!(out, "kind {kind} rate {rate}")?;
        writeln!(out, "{}", order.join(" "))?;
    }
    Ok(())
}

/// An edge of what is lost between its neighbours, then the same three with the sign turned.
fn about(edge: f64) -> [f64; 6] {
    let (below, above) = (edge.next_down(), edge.next_up());
    [below, edge, above, -below, -edge, -above]
}

/// The coordinates that are sliced against each other: 21 of every sort, then six about each edge
/// of what is lost. The printed vectors name them by their indexes, so new ones go to the end.
pub fn coordinates() -> Vec<f64> {
    let f = QAM16_FACTOR;
    let two = 2.0 * f;
    let (above, below) = (two.next_up(), two.next_down());
    let three = 3.0 * f;
    let least = f64::from_bits(1);
    let mut coordinates = vec![
        0.0,
        -0.0,
        f64::INFINITY,
        f64::NEG_INFINITY,
        f64::NAN,
        least,
        -least,
        two,
        -two,
        above,
        below,
        -above,
        -below,
        f,
        -f,
        three,
        -three,
        f64::MAX,
        -f64::MAX,
        QPSK_FACTOR,
        -QPSK_FACTOR,
    ];
    coordinates.extend(EDGES.into_iter().flat_map(about));
    coordinates
}

/// Modulations 0, 1 and 2 with the bits a carrier holds.
pub fn modulations() -> impl Iterator<Item = (u64, usize)> {
    (0..3).filter_map(|modulation| Some((modulation, points::bits_per_carrier(modulation)?)))
}

/// A sliced carrier as a line's end: its items, or the refusal's number.
fn sliced(modulation: u64, received: Received) -> String {
    match points::slice(modulation, received) {
        Ok(items) => digits(items.as_slice()),
        Err(refusal) => format!("refused {}", refusal.number),
    }
}

/// A mapped carrier as a line's end: its coordinates' bits, or the refusal's number, with what
/// comes with it where it is 6.
fn mapped(modulation: u64, bits: &[u8]) -> String {
    match points::map(modulation, bits) {
        Ok(point) => format!("{:016x} {:016x}", point.i.to_bits(), point.q.to_bits()),
        Err(refusal) if refusal.number == 6 => format!("refused 6 {}", refusal.value),
        Err(refusal) => format!("refused {}", refusal.number),
    }
}

pub fn print_points(out: &mut impl Write) -> io::Result<()> {
    for (modulation, count) in modulations() {
        for bits in all_bits(count) {
            writeln!(
                out,
                "map {modulation} {} {}",
                digits(&bits),
                mapped(modulation, &bits)
            )?;
        }
    }
    let x = coordinates();
    for (modulation, _) in modulations() {
        for (a, &i) in x.iter().enumerate() {
            for (b, &q) in x.iter().enumerate() {
                let items = sliced(modulation, Received::Heard(i, q));
                writeln!(out, "slice {modulation} {a} {b} {items}")?;
            }
        }
    }
    for (modulation, _) in modulations() {
        writeln!(
            out,
            "slice {modulation} lost {}",
            sliced(modulation, Received::Lost)
        )?;
    }
    writeln!(out, "map 3 {}", mapped(3, &[0; 4]))?;
    writeln!(out, "slice 3 {}", sliced(3, Received::Lost))?;
    for (modulation, count) in modulations() {
        for k in 0..count {
            let mut bits = vec![0; count];
            bits[k] = 2;
            writeln!(
                out,
                "map {modulation} bad {k} {}",
                mapped(modulation, &bits)
            )?;
        }
    }
    Ok(())
}

pub fn print_scrambler(out: &mut impl Write) -> io::Result<()> {
    let mut register = Scrambler::new();
    let mut bits = Vec::new();
    for _ in 0..2046 {
        let (bit, next) = register.step();
        bits.push(bit);
        register = next;
    }
    writeln!(out, "{}", digits(&bits))
}

#[cfg(test)]
mod tests {
    use super::*;

    #[test]
    fn edges_follow_the_other_coordinates() {
        let bits: Vec<u64> = coordinates().into_iter().map(f64::to_bits).collect();
        assert_eq!(bits.len(), 51);
        assert_eq!(bits[20], 0xbfe6_a09e_667f_3bcd);
        let about_an_eighth = [
            0x3fbf_ffff_ffff_ffff,
            0x3fc0_0000_0000_0000,
            0x3fc0_0000_0000_0001,
            0xbfbf_ffff_ffff_ffff,
            0xbfc0_0000_0000_0000,
            0xbfc0_0000_0000_0001,
        ];
        assert_eq!(bits[21..27], about_an_eighth);
        assert_eq!(bits[28], 0x3fb6_a09e_667f_3bcd);
        assert_eq!(bits[34], 0x3fa4_3d13_6248_490f);
        assert_eq!(bits[40], 0x3fe2_f942_2c23_c47e);
        assert_eq!(bits[50], 0xbfe5_80e4_986c_cda1);
    }
}
