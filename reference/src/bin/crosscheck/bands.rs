//! Places and sub-carriers of a band, near it and far from it.

use reference::carriers::BANDS;
use reference::cases::Random;

use crate::checker::Checker;

/// Both calls have this form.
type Ask = fn(&mut Checker, u64, u64);

/// The bands, and the first number that is none.
const BAND_NUMBERS: u64 = BANDS.len() as u64 + 1;

/// Numbers after which an answer turns: every band's ends, as sub-carriers and as places.
fn turns() -> Vec<u64> {
    let mut turns = vec![0, 512];
    for band in &BANDS {
        let (first, places) = (u64::from(band.first), band.places as u64);
        turns.extend([first - 1, places - 1, first + places - 1]);
    }
    turns.sort_unstable();
    turns.dedup();
    turns
}

/// Every number up to 1,100 on every band up to 4, and the numbers about each power of two.
fn systematic(checker: &mut Checker, ask: Ask) {
    for band in 0..BAND_NUMBERS {
        for number in 0..=1100 {
            ask(checker, band, number);
        }
        for power in 8..64 {
            ask(checker, band, (1 << power) - 1);
            for low in turns() {
                ask(checker, band, (1 << power) + low);
                ask(checker, band, (1 << power) + low + 1);
            }
        }
        for less in 0..500 {
            ask(checker, band, u64::MAX - less);
        }
    }
    for power in 0..64 {
        // Bands of any size, most of them right in their low bits only; all four have this number.
        for band in 0..BAND_NUMBERS {
            ask(checker, (1 << power) + band, 100);
        }
        ask(checker, u64::MAX >> power, 100);
    }
}

fn any_band(random: &mut Random) -> u64 {
    if random.once_in(6) {
        random.word_of_any_size()
    } else {
        random.word() % BAND_NUMBERS
    }
}

fn any_number(random: &mut Random) -> u64 {
    let near = random.pick(&turns()).wrapping_add(random.below(9) as u64);
    match random.below(6) {
        0 => random.word(),
        1 => random.word_of_any_size(),
        2 => near.wrapping_sub(6),
        // Right in its low bits only.
        3 => near.wrapping_add(1 << random.below(64)),
        _ => random.below(600) as u64,
    }
}

fn at_random(checker: &mut Checker, ask: Ask) {
    let band = any_band(&mut checker.random);
    let number = any_number(&mut checker.random);
    ask(checker, band, number);
}

pub fn place_systematic(checker: &mut Checker) {
    systematic(checker, Checker::place_of_sub_carrier);
}

pub fn place_random(checker: &mut Checker) {
    at_random(checker, Checker::place_of_sub_carrier);
}

pub fn sub_carrier_systematic(checker: &mut Checker) {
    systematic(checker, Checker::sub_carrier_of_place);
}

pub fn sub_carrier_random(checker: &mut Checker) {
    at_random(checker, Checker::sub_carrier_of_place);
}
