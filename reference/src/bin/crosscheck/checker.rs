//! Makes each call on both sides and compares the number, both values and every lent element.

use std::fmt::{self, Display, Formatter};

use reference::cases::Random;
use reference::core_calls::{Core, Empty, Value};
use reference::interface::{self, Entry, CARD_FIELDS};
use reference::Report;

use crate::lent::{Element, Lent};

/// How many mismatches are printed in full.
const SHOWN: u64 = 5;

/// A call as it is printed: the function, its plain numbers, its inputs and the output's room.
struct Call<'a> {
    name: &'a str,
    numbers: &'a [u64],
    inputs: &'a [&'a [u8]],
    room: usize,
}

impl Display for Call<'_> {
    fn fmt(&self, f: &mut Formatter) -> fmt::Result {
        write!(f, "{}", self.name)?;
        for number in self.numbers {
            write!(f, " {number:#x}")?;
        }
        for input in self.inputs {
            write!(f, " [{} bytes: {}]", input.len(), hex(input))?;
        }
        write!(f, " room {}", self.room)
    }
}

fn hex(bytes: &[u8]) -> String {
    bytes.iter().map(|byte| format!("{byte:02x}")).collect()
}

fn printed(report: &Report) -> String {
    let Report {
        number,
        value,
        second,
    } = report;
    format!("number {number}, values {value} and {second}")
}

/// All that a call was lent, before it and after.
struct Loan<T> {
    inputs: Vec<Lent<u8>>,
    out: Lent<T>,
    value: Lent<u64>,
}

impl<T: Element> Loan<T> {
    fn new(inputs: &[&[u8]], out: &[T], random: &mut Random) -> Loan<T> {
        // Values that no call stores, so that one that is not stored is seen.
        let value = [random.word() | 1 << 63, random.word() | 1];
        Loan {
            inputs: inputs
                .iter()
                .map(|bytes| Lent::new(bytes, random))
                .collect(),
            out: Lent::new(out, random),
            value: Lent::new(&value, random),
        }
    }

    /// The library's side of a call.
    fn call(
        &mut self,
        core: &Core,
        call: impl FnOnce(&Core, &[Lent<u8>], &mut [T], &mut Value) -> u32,
    ) -> Report {
        let Ok(value) = <&mut Value>::try_from(self.value.contents_mut()) else {
            unreachable!("two values are lent");
        };
        let number = call(core, &self.inputs, self.out.contents_mut(), value);
        Report::new(number, *value)
    }

    /// Whatever was written that should not have been.
    fn complaints(&self, inputs: &[&[u8]], out: &[T]) -> Vec<String> {
        let mut complaints = Vec::new();
        for (n, (lent, was)) in self.inputs.iter().zip(inputs).enumerate() {
            if lent.contents() != *was {
                complaints.push(format!("input {n} was changed"));
            }
            complaints.extend(guard_complaint(&format!("input {n}"), lent));
        }
        complaints.extend(output_complaint(self.out.contents(), out));
        complaints.extend(guard_complaint("the output", &self.out));
        complaints.extend(guard_complaint("the values", &self.value));
        complaints
    }
}

fn guard_complaint<T: Element>(what: &str, lent: &Lent<T>) -> Option<String> {
    let place = lent.broken_guard()?;
    Some(format!("a guard of {what} was written, {place}"))
}

fn output_complaint<T: Element>(got: &[T], expected: &[T]) -> Option<String> {
    let differs = |n: &usize| got[*n] != expected[*n];
    let first = (0..got.len()).find(differs)?;
    let count = (0..got.len()).filter(differs).count();
    Some(format!(
        "the output differs in {count} of {} elements, first at {first}: {:#x}, expected {:#x}",
        got.len(),
        got[first],
        expected[first]
    ))
}

/// Counts calls and mismatches, area by area.
pub struct Checker {
    pub random: Random,
    seed: u64,
    areas: Vec<(&'static str, u64)>,
    current: usize,
    calls: u64,
    mismatches: u64,
    /// The last call that was counted as a mismatch; each counts once.
    last_mismatch: u64,
    trace: bool,
}

impl Checker {
    pub fn new(seed: u64, areas: Vec<&'static str>, trace: bool) -> Checker {
        Checker {
            random: Random::new(seed),
            seed,
            areas: areas.into_iter().map(|name| (name, 0)).collect(),
            current: 0,
            calls: 0,
            mismatches: 0,
            last_mismatch: 0,
            trace,
        }
    }

    /// The calls from here on belong to this area.
    pub fn enter(&mut self, area: usize) {
        self.current = area;
    }

    pub fn calls(&self) -> u64 {
        self.calls
    }

    pub fn mismatches(&self) -> u64 {
        self.mismatches
    }

    pub fn areas(&self) -> &[(&'static str, u64)] {
        &self.areas
    }

    /// Notes that the last call is a mismatch, and prints the first few.
    fn mismatch(&mut self, call: &str, complaints: &[String]) {
        if self.last_mismatch == self.calls {
            return;
        }
        self.last_mismatch = self.calls;
        self.mismatches += 1;
        if self.mismatches > SHOWN {
            return;
        }
        let (area, seed) = (self.areas[self.current].0, self.seed);
        println!("MISMATCH in call {} of seed {seed} ({area}):", self.calls);
        println!("  {call}");
        for complaint in complaints {
            println!("  {complaint}");
        }
    }

    /// Something that must hold of the last answer whatever the reference says.
    pub fn claim(&mut self, holds: bool, call: impl FnOnce() -> String, what: &str) {
        if !holds {
            self.mismatch(&call(), &[what.to_string()]);
        }
    }

    /// One call on both sides, on equal buffers, and the comparison. Gives what the library under
    /// test answered, and the output as it left it.
    fn check<T: Element>(
        &mut self,
        call: &Call,
        reference: impl FnOnce(&mut [T]) -> Report,
        core: impl FnOnce(&Core, &[Lent<u8>], &mut [T], &mut Value) -> u32,
    ) -> (Report, Vec<T>) {
        self.calls += 1;
        self.areas[self.current].1 += 1;
        if self.trace {
            eprintln!("call {}: {call}", self.calls);
        }
        let mut expected_out = T::random(&mut self.random, call.room);
        let mut loan = Loan::new(call.inputs, &expected_out, &mut self.random);
        let expected = reference(&mut expected_out);
        // hplc.h allows null for empty buffers, so half of the time they are lent so.
        let empty = self.random.pick(&[Empty::Pointer, Empty::Null]);
        let report = loan.call(&Core { empty }, core);

        let mut complaints = loan.complaints(call.inputs, &expected_out);
        if report != expected {
            let (got, expected) = (printed(&report), printed(&expected));
            complaints.insert(0, format!("answered {got}; expected {expected}"));
        }
        if !complaints.is_empty() {
            complaints.push(format!("empty buffers, if any, were lent as {empty:?}"));
            self.mismatch(&call.to_string(), &complaints);
        }
        (report, loan.out.contents().to_vec())
    }

    pub fn card_read(&mut self, card: &[u8], room: usize) {
        let call = Call {
            name: "hplc_card_read",
            numbers: &[],
            inputs: &[card],
            room,
        };
        self.check(
            &call,
            |fields| interface::card_read(card, fields),
            |core, lent, fields, value| core.card_read(lent[0].contents(), fields, value),
        );
    }

    pub fn card_write(&mut self, fields: &[u64; CARD_FIELDS], room: usize) {
        let call = Call {
            name: "hplc_card_write",
            numbers: fields,
            inputs: &[],
            room,
        };
        self.check(
            &call,
            |out| interface::card_write(fields, out),
            |core, _, out, value| core.card_write(fields, out, value),
        );
    }

    pub fn card_move(&mut self, card: &[u8], version: u64, room: usize) -> (Report, Vec<u8>) {
        let call = Call {
            name: "hplc_card_move",
            numbers: &[version],
            inputs: &[card],
            room,
        };
        self.check(
            &call,
            |out| interface::card_move(card, version, out),
            |core, lent, out, value| core.card_move(lent[0].contents(), version, out, value),
        )
    }

    pub fn card_text(&mut self, card: &[u8], room: usize) {
        let call = Call {
            name: "hplc_card_text",
            numbers: &[],
            inputs: &[card],
            room,
        };
        self.check(
            &call,
            |out| interface::card_text(card, out),
            |core, lent, out, value| core.card_text(lent[0].contents(), out, value),
        );
    }

    pub fn map(&mut self, modulation: u64, bits: &[u8], room: usize) {
        let call = Call {
            name: "hplc_map",
            numbers: &[modulation],
            inputs: &[bits],
            room,
        };
        self.check(
            &call,
            |point| interface::map(modulation, bits, point),
            |core, lent, point, value| core.map(modulation, lent[0].contents(), point, value),
        );
    }

    /// The coordinates are given as their bits.
    pub fn slice(&mut self, modulation: u64, heard: u64, at: [u64; 2], room: usize) {
        let [i, q] = at.map(f64::from_bits);
        let call = Call {
            name: "hplc_slice",
            numbers: &[modulation, heard, at[0], at[1]],
            inputs: &[],
            room,
        };
        self.check(
            &call,
            |items| interface::slice(modulation, heard, i, q, items),
            |core, _, items, value| core.slice(modulation, heard, (i, q), items, value),
        );
    }

    /// A number asked for by a band and a number.
    fn asked(
        &mut self,
        name: &str,
        numbers: [u64; 2],
        reference: fn(u64, u64) -> Report,
        core: fn(&Core, u64, u64, &mut Value) -> u32,
    ) {
        let [band, number] = numbers;
        let call = Call {
            name,
            numbers: &numbers,
            inputs: &[],
            room: 0,
        };
        self.check(
            &call,
            |_: &mut [u8]| reference(band, number),
            |library, _, _, value| core(library, band, number, value),
        );
    }

    pub fn place_of_sub_carrier(&mut self, band: u64, sub_carrier: u64) {
        self.asked(
            "hplc_place_of_sub_carrier",
            [band, sub_carrier],
            interface::place_of_sub_carrier,
            Core::place_of_sub_carrier,
        );
    }

    pub fn sub_carrier_of_place(&mut self, band: u64, place: u64) {
        self.asked(
            "hplc_sub_carrier_of_place",
            [band, place],
            interface::sub_carrier_of_place,
            Core::sub_carrier_of_place,
        );
    }

    pub fn entry(
        &mut self,
        entry: Entry,
        card: &[u8],
        input: &[u8],
        room: usize,
    ) -> (Report, Vec<u8>) {
        let call = Call {
            name: entry.name(),
            numbers: &[],
            inputs: &[card, input],
            room,
        };
        self.check(
            &call,
            |out| entry.call(card, input, out),
            |core, lent, out, value| {
                core.entry(entry, lent[0].contents(), lent[1].contents(), out, value)
            },
        )
    }
}
