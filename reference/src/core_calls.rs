//! The C functions of the library under test, behind safe functions over slices.
//!
//! Nothing here says which library is linked: build.rs links it to the binaries that call it.

use std::ptr;

use crate::card::CARD_FIELDS;
use crate::interface::Entry;

extern "C" {
    fn hplc_card_read(
        card: *const u8,
        card_len: usize,
        fields: *mut u64,
        fields_len: usize,
        value: *mut u64,
    ) -> u32;
    fn hplc_card_write(
        version: u64,
        band: u64,
        kind: u64,
        rate: u64,
        modulation: u64,
        taps: u64,
        spare: u64,
        serial: u64,
        blocks: u64,
        copies: u64,
        out: *mut u8,
        out_len: usize,
        value: *mut u64,
    ) -> u32;
    fn hplc_card_move(
        card: *const u8,
        card_len: usize,
        version: u64,
        out: *mut u8,
        out_len: usize,
        value: *mut u64,
    ) -> u32;
    fn hplc_card_text(
        card: *const u8,
        card_len: usize,
        out: *mut u8,
        out_len: usize,
        value: *mut u64,
    ) -> u32;
    fn hplc_map(
        modulation: u64,
        bits: *const u8,
        bits_len: usize,
        point: *mut f64,
        point_len: usize,
        value: *mut u64,
    ) -> u32;
    fn hplc_slice(
        modulation: u64,
        heard: u64,
        i: f64,
        q: f64,
        items: *mut u8,
        items_len: usize,
        value: *mut u64,
    ) -> u32;
    fn hplc_place_of_sub_carrier(band: u64, sub_carrier: u64, value: *mut u64) -> u32;
    fn hplc_sub_carrier_of_place(band: u64, place: u64, value: *mut u64) -> u32;
}

/// What the four entries look like.
type EntryFunction =
    unsafe extern "C" fn(*const u8, usize, *const u8, usize, *mut u8, usize, *mut u64) -> u32;

/// Declares functions that look so.
macro_rules! entries {
    ($($name:ident),*) => {
        extern "C" {
            $(
                fn $name(
                    card: *const u8,
                    card_len: usize,
                    input: *const u8,
                    input_len: usize,
                    out: *mut u8,
                    out_len: usize,
                    value: *mut u64,
                ) -> u32;
            )*
        }
    };
}

entries!(
    hplc_fc_send,
    hplc_fc_read,
    hplc_payload_send,
    hplc_payload_read
);

/// Two numbers, as the C side stores them.
pub type Value = [u64; 2];

/// How an empty buffer is lent. hplc.h allows null where the length is 0, and there alone.
#[derive(Clone, Copy, Debug, PartialEq, Eq)]
pub enum Empty {
    Pointer,
    Null,
}

/// The library under test.
///
/// Safety of all calls: a slice is valid for its length, no two arguments overlap because the
/// outputs are borrowed alone, and `value` points to two numbers. hplc.h assumes no more.
#[derive(Clone, Copy, Debug)]
pub struct Core {
    pub empty: Empty,
}

impl Core {
    fn input(&self, bytes: &[u8]) -> *const u8 {
        if bytes.is_empty() && self.empty == Empty::Null {
            ptr::null()
        } else {
            bytes.as_ptr()
        }
    }

    fn output<T>(&self, out: &mut [T]) -> *mut T {
        if out.is_empty() && self.empty == Empty::Null {
            ptr::null_mut()
        } else {
            out.as_mut_ptr()
        }
    }

    pub fn card_read(&self, card: &[u8], fields: &mut [u64], value: &mut Value) -> u32 {
        let (from, to) = (self.input(card), self.output(fields));
        unsafe { hplc_card_read(from, card.len(), to, fields.len(), value.as_mut_ptr()) }
    }

    pub fn card_write(
        &self,
        fields: &[u64; CARD_FIELDS],
        out: &mut [u8],
        value: &mut Value,
    ) -> u32 {
        let [a, b, c, d, e, f, g, h, i, j] = *fields;
        let (to, room, value) = (self.output(out), out.len(), value.as_mut_ptr());
        unsafe { hplc_card_write(a, b, c, d, e, f, g, h, i, j, to, room, value) }
    }

    pub fn card_move(&self, card: &[u8], version: u64, out: &mut [u8], value: &mut Value) -> u32 {
        let (from, to) = (self.input(card), self.output(out));
        let (room, value) = (out.len(), value.as_mut_ptr());
        unsafe { hplc_card_move(from, card.len(), version, to, room, value) }
    }

    pub fn card_text(&self, card: &[u8], out: &mut [u8], value: &mut Value) -> u32 {
        let (from, to) = (self.input(card), self.output(out));
        unsafe { hplc_card_text(from, card.len(), to, out.len(), value.as_mut_ptr()) }
    }

    /// The coordinates are lent as their bits, so that any contents can be compared.
    pub fn map(&self, modulation: u64, bits: &[u8], point: &mut [u64], value: &mut Value) -> u32 {
        let (from, to) = (self.input(bits), self.output(point).cast::<f64>());
        unsafe {
            hplc_map(
                modulation,
                from,
                bits.len(),
                to,
                point.len(),
                value.as_mut_ptr(),
            )
        }
    }

    pub fn slice(
        &self,
        modulation: u64,
        heard: u64,
        (i, q): (f64, f64),
        items: &mut [u8],
        value: &mut Value,
    ) -> u32 {
        let to = self.output(items);
        unsafe { hplc_slice(modulation, heard, i, q, to, items.len(), value.as_mut_ptr()) }
    }

    pub fn place_of_sub_carrier(&self, band: u64, sub_carrier: u64, value: &mut Value) -> u32 {
        unsafe { hplc_place_of_sub_carrier(band, sub_carrier, value.as_mut_ptr()) }
    }

    pub fn sub_carrier_of_place(&self, band: u64, place: u64, value: &mut Value) -> u32 {
        unsafe { hplc_sub_carrier_of_place(band, place, value.as_mut_ptr()) }
    }

    pub fn entry(
        &self,
        entry: Entry,
        card: &[u8],
        input: &[u8],
        out: &mut [u8],
        value: &mut Value,
    ) -> u32 {
        let function: EntryFunction = match entry {
            Entry::FcSend => hplc_fc_send,
            Entry::FcRead => hplc_fc_read,
            Entry::PayloadSend => hplc_payload_send,
            Entry::PayloadRead => hplc_payload_read,
        };
        unsafe {
            function(
                self.input(card),
                card.len(),
                self.input(input),
                input.len(),
                self.output(out),
                out.len(),
                value.as_mut_ptr(),
            )
        }
    }
}
