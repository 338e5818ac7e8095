//! Times the four entries of the library under test and of the reference in one run.
//!
//! `bench [--repetitions N]`: for every mode and count of copies, sent and read, the least time of a
//! call over N repetitions, or fewer where a call is long. In each repetition the library, the
//! reference and a plain copy take turns, each with a batch of calls that is long enough for the
//! clock.

use std::fs;
use std::hint::black_box;
use std::process::ExitCode;
use std::time::Instant;

use reference::cases::{modes, Mode, Random, Reception};
use reference::copies::COPY_NUM;
use reference::core_calls::{Core, Empty};
use reference::interface::Entry;
use reference::Report;

const DEFAULT_REPETITIONS: usize = 300;
const USAGE: &str = "usage: bench [--repetitions N]";

/// How long a batch should take, in nanoseconds.
const BATCH: f64 = 20_000.0;
/// Calls that take longer are repeated less often, so that all take about the same time.
const LONG: f64 = 100_000.0;
/// How often they are repeated at least, where that many repetitions are asked for.
const FEWEST: usize = 30;

/// One call to be timed. It succeeds with exactly its room.
struct Timed {
    entry: Entry,
    mode: Mode,
    card: Vec<u8>,
    input: Vec<u8>,
    room: usize,
}

/// Least times of a call, in nanoseconds.
struct Times {
    core: f64,
    reference: f64,
    copy: f64,
}

/// A mode's calls: its block sent, and its items read.
fn calls_of(mode: Mode, random: &mut Random) -> [Timed; 2] {
    let reception = Reception::random(mode, random);
    let (send, read) = mode.entries();
    let card = reception.card;
    let sent = Timed {
        entry: send,
        mode,
        card: card.clone(),
        input: reception.block,
        room: mode.items(),
    };
    let read = Timed {
        entry: read,
        mode,
        card,
        input: reception.items,
        room: mode.bytes(),
    };
    [sent, read]
}

impl Timed {
    fn core(&self, out: &mut [u8]) -> Report {
        let core = Core {
            empty: Empty::Pointer,
        };
        let mut values = [0; 2];
        let number = core.entry(self.entry, &self.card, &self.input, out, &mut values);
        Report::new(number, values)
    }

    fn reference(&self, out: &mut [u8]) -> Report {
        self.entry.call(&self.card, &self.input, out)
    }

    /// The output, where both sides give the same one.
    fn output(&self) -> Option<Vec<u8>> {
        let (mut core, mut reference) = (vec![3; self.room], vec![3; self.room]);
        let reports = (self.core(&mut core), self.reference(&mut reference));
        let done = Report::done(self.room);
        (reports == (done, done) && core == reference).then_some(core)
    }

    /// The least times over the repetitions.
    fn times(&self, output: &[u8], repetitions: usize) -> Times {
        let mut out = vec![0; self.room];
        let mut copy = vec![0; self.input.len() + self.room];
        let mut core_call = || {
            black_box(black_box(self).core(&mut out));
            black_box(&mut out);
        };
        let mut out = vec![0; self.room];
        let mut reference_call = || {
            black_box(black_box(self).reference(&mut out));
            black_box(&mut out);
        };
        let mut copying = || {
            let (input, output) = black_box((&self.input[..], output));
            let (front, back) = copy.split_at_mut(input.len());
            front.copy_from_slice(input);
            back.copy_from_slice(output);
            black_box(&mut copy);
        };
        let batches = [
            Batch::of(&mut core_call),
            Batch::of(&mut reference_call),
            Batch::of(&mut copying),
        ];
        let mut least = Times {
            core: f64::INFINITY,
            reference: f64::INFINITY,
            copy: f64::INFINITY,
        };
        let longest = batches.iter().fold(0.0, |most, batch| batch.once.max(most));
        for _ in 0..repetitions_of(longest, repetitions) {
            least.core = least.core.min(batches[0].time(&mut core_call));
            least.reference = least.reference.min(batches[1].time(&mut reference_call));
            least.copy = least.copy.min(batches[2].time(&mut copying));
        }
        least
    }
}

/// How many calls make a batch, and what one of them takes, in nanoseconds.
struct Batch {
    calls: usize,
    once: f64,
}

impl Batch {
    fn of(call: &mut impl FnMut()) -> Batch {
        time(10, call);
        let once = time(10, call).max(1.0);
        Batch {
            calls: (BATCH / once).ceil() as usize,
            once,
        }
    }

    fn time(&self, call: &mut impl FnMut()) -> f64 {
        time(self.calls, call)
    }
}

/// The time of one of so many calls, in nanoseconds.
fn time(calls: usize, call: &mut impl FnMut()) -> f64 {
    let start = Instant::now();
    for _ in 0..calls {
        call();
    }
    start.elapsed().as_nanos() as f64 / calls as f64
}

/// How often calls are repeated of which the longest takes so many nanoseconds.
fn repetitions_of(longest: f64, asked: usize) -> usize {
    let fewer = asked as f64 * (LONG / longest).min(1.0);
    (fewer as usize).max(asked.min(FEWEST))
}

/// How both sides were compiled.
fn print_how_compiled() {
    println!("reference: {}", env!("REFERENCE_BUILD"));
    println!("reference: Cargo.toml has {}", profile());
    if cfg!(debug_assertions) {
        println!("reference: NOT a release build, its times mean little");
    }
    if let Ok(data) = fs::metadata(env!("HPLC_LIB_FILE")) {
        println!("core: static library of {} bytes, as it came", data.len());
    }
}

/// The lines of the release profile.
fn profile() -> String {
    let manifest = include_str!("../../Cargo.toml").lines();
    let section = manifest.skip_while(|line| *line != "[profile.release]");
    let lines: Vec<&str> = section.take_while(|line| !line.is_empty()).collect();
    lines.join(", ").replacen("],", "]", 1)
}

fn print_table(repetitions: usize) -> bool {
    println!(
        "{:17} {:4} {:4} {:>5} {:10} {:>6} {:>8} {:>7} {:>12} {:>6} {:>8}",
        "call",
        "band",
        "kind",
        "rate",
        "modulation",
        "copies",
        "core ns",
        "an item",
        "reference ns",
        "ratio",
        "copy ns"
    );
    let mut random = Random::new(1);
    for mode in modes().into_iter().flat_map(with_every_count) {
        for timed in calls_of(mode, &mut random) {
            let Some(output) = timed.output() else {
                println!("{} differs on {mode:?}", timed.entry.name());
                return false;
            };
            print_row(&timed, &timed.times(&output, repetitions));
        }
    }
    true
}

/// A mode with each count of copies that it has.
fn with_every_count(mode: Mode) -> impl Iterator<Item = Mode> {
    let counts = match mode.kind {
        0 => &COPY_NUM[..1],
        _ => &COPY_NUM,
    };
    counts.iter().map(move |&copies| mode.copied(copies))
}

fn print_row(timed: &Timed, times: &Times) {
    let mode = timed.mode;
    let an_item = match mode.copies {
        1 => String::new(),
        _ => format!("{:.2}", times.core / mode.items() as f64),
    };
    println!(
        "{:17} {:4} {:4} {:>5} {:10} {:6} {:8.0} {an_item:>7} {:12.0} {:6.2} {:8.0}",
        timed.entry.name(),
        mode.band,
        mode.kind,
        mode.rate_name(),
        mode.modulation_name(),
        mode.copies,
        times.core,
        times.reference,
        times.core / times.reference,
        times.copy
    );
}

/// How many repetitions the arguments ask for.
fn asked() -> Option<usize> {
    let mut arguments = std::env::args().skip(1);
    match arguments.next().as_deref() {
        None => Some(DEFAULT_REPETITIONS),
        Some("--repetitions") => arguments.next()?.parse().ok().filter(|&n| n > 0),
        Some(_) => None,
    }
}

fn main() -> ExitCode {
    let Some(repetitions) = asked() else {
        eprintln!("{USAGE}");
        return ExitCode::from(2);
    };
    print_how_compiled();
    println!(
        "least of {repetitions} repetitions, or fewer where a call takes more than {} microseconds;",
        LONG / 1000.0
    );
    println!("an item is core ns by the call's items, with more than one copy; ratio is core by");
    println!("reference; copy is a plain copy of the call's input and output bytes");
    println!();
    if print_table(repetitions) {
        ExitCode::SUCCESS
    } else {
        ExitCode::FAILURE
    }
}

#[cfg(test)]
mod tests {
    use super::*;

    #[test]
    fn long_calls_are_repeated_less_often() {
        for (longest, asked, repetitions) in [
            (1.0, 300, 300),
            (100_000.0, 300, 300),
            (200_000.0, 300, 150),
            (5_000_000.0, 300, 30),
            (5_000_000.0, 3000, 60),
            (5_000_000.0, 7, 7),
            (1.0, 1, 1),
        ] {
            assert_eq!(repetitions_of(longest, asked), repetitions);
        }
    }

    #[test]
    fn every_mode_is_timed_with_every_count() {
        let counts: Vec<usize> = modes()
            .into_iter()
            .map(|mode| with_every_count(mode).count())
            .collect();
        assert_eq!(counts.iter().sum::<usize>(), 4 + 360);
    }
}
