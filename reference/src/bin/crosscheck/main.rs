//! Compares every call of the library under test with the reference.
//!
//! `crosscheck [--calls N] [--seed S] [--trace]`: first the systematic calls of every area, then
//! random ones of all areas in turn until there are N calls in all. Prints a line for each area and
//! the sum; the exit status is 1 where anything differs.

mod bands;
mod cards;
mod checker;
mod entries;
mod lent;
mod points;

use std::process::ExitCode;

use checker::Checker;

const DEFAULT_CALLS: u64 = 220_000;
const DEFAULT_SEED: u64 = 11612;
const USAGE: &str = "usage: crosscheck [--calls N] [--seed S] [--trace]";

/// Some calls.
type Calls = fn(&mut Checker);

/// An area: its name, the calls made once, random ones, and how often they are drawn.
struct Area {
    name: &'static str,
    systematic: Calls,
    random: Calls,
    weight: usize,
}

const fn area(name: &'static str, systematic: Calls, random: Calls, weight: usize) -> Area {
    Area {
        name,
        systematic,
        random,
        weight,
    }
}

/// For an area whose calls are all random.
fn nothing(_: &mut Checker) {}

const AREAS: [Area; 21] = [
    area("card read", cards::read_systematic, cards::read_random, 3),
    area(
        "card write",
        cards::write_systematic,
        cards::write_random,
        3,
    ),
    area("card text", cards::text_systematic, cards::text_random, 3),
    area("card move", cards::move_systematic, cards::move_random, 3),
    area("map", points::map_systematic, points::map_random, 2),
    area("slice", points::slice_systematic, points::slice_random, 4),
    area(
        "place of sub-carrier",
        bands::place_systematic,
        bands::place_random,
        1,
    ),
    area(
        "sub-carrier of place",
        bands::sub_carrier_systematic,
        bands::sub_carrier_random,
        1,
    ),
    area(
        "entries: cards",
        entries::cards_systematic,
        entries::cards_random,
        4,
    ),
    area(
        "entries: lengths and rooms",
        entries::lengths_systematic,
        entries::lengths_random,
        4,
    ),
    area(
        "entries: sending",
        entries::sending_systematic,
        entries::sending_random,
        4,
    ),
    area(
        "entries: there and back",
        entries::clean_systematic,
        entries::clean_random,
        3,
    ),
    area(
        "entries: illegal items",
        entries::illegal_systematic,
        entries::illegal_random,
        3,
    ),
    area(
        "entries: majority limit",
        entries::limit_systematic,
        entries::limit_random,
        4,
    ),
    area(
        "demand 3: comes back",
        nothing,
        entries::comes_back_random,
        5,
    ),
    area(
        "demand 3: refused by 7",
        entries::lost_bit_systematic,
        entries::lost_bit_random,
        2,
    ),
    area(
        "copies: comes back",
        entries::copies_come_back_systematic,
        entries::copies_come_back_random,
        2,
    ),
    area(
        "copies: refused by 7",
        entries::copies_undecided_systematic,
        entries::copies_undecided_random,
        2,
    ),
    area(
        "entries: undecided",
        entries::undecided_systematic,
        entries::undecided_random,
        4,
    ),
    area(
        "entries: parity",
        entries::parity_systematic,
        entries::parity_random,
        4,
    ),
    area("entries: any items", nothing, entries::any_items_random, 4),
];

/// What the arguments ask for.
struct Asked {
    calls: u64,
    seed: u64,
    trace: bool,
}

fn asked(mut arguments: impl Iterator<Item = String>) -> Option<Asked> {
    let mut asked = Asked {
        calls: DEFAULT_CALLS,
        seed: DEFAULT_SEED,
        trace: false,
    };
    while let Some(argument) = arguments.next() {
        match argument.as_str() {
            "--calls" => asked.calls = arguments.next()?.parse().ok()?,
            "--seed" => asked.seed = arguments.next()?.parse().ok()?,
            "--trace" => asked.trace = true,
            _ => return None,
        }
    }
    Some(asked)
}

/// Makes the systematic calls of each area, then random ones until there are enough.
fn run(asked: &Asked) -> Checker {
    let names = AREAS.iter().map(|area| area.name).collect();
    let mut checker = Checker::new(asked.seed, names, asked.trace);
    for (n, area) in AREAS.iter().enumerate() {
        checker.enter(n);
        (area.systematic)(&mut checker);
    }
    let drawn: Vec<usize> = AREAS
        .iter()
        .enumerate()
        .flat_map(|(n, area)| vec![n; area.weight])
        .collect();
    while checker.calls() < asked.calls {
        let n = checker.random.pick(&drawn);
        checker.enter(n);
        (AREAS[n].random)(&mut checker);
    }
    checker
}

fn main() -> ExitCode {
    let Some(asked) = asked(std::env::args().skip(1)) else {
        eprintln!("{USAGE}");
        return ExitCode::from(2);
    };
    let checker = run(&asked);
    for (name, calls) in checker.areas() {
        println!("{name}: {calls} calls");
    }
    let (calls, mismatches) = (checker.calls(), checker.mismatches());
    println!("{calls} calls, {mismatches} mismatches");
    ExitCode::from(u8::from(mismatches > 0))
}
