//! The payload's copies on the carriers (000, 5.1.5.5; 004, 5.1.5.5.6; 02, T-06; D27). Names are the
//! section's, and all numbers count from 0.
//!
//! A copy is the coded bits and a pad of its own, in groups. Its groups are shifted round and fill a
//! slot each. A symbol has as many slots as there are copies, and through all symbols the slots hold
//! the groups of copy 0, then those of copy 1, and so on. The carriers of a group are interleaved
//! among themselves, in spans that have an interleaver each.

use crate::carriers::{Band, BANDS};

/// The counts of copies, by their codes on the card.
pub const COPY_NUM: [u8; 6] = [1, 2, 4, 5, 7, 11];
/// Table 13 of 000, in the order of the counts. What one copy has there is D27's.
const INTER_NUM: [usize; 6] = [1, 8, 8, 10, 14, 11];
const INTER_NUM_PER_GROUP: [usize; 6] = [1, 4, 2, 2, 2, 1];

/// The most items of a payload: 520 bytes at rate 1/2 on band 3, 11 times, in any modulation.
pub const MAX_ITEMS: usize = 101_920;

/// The most carriers of a band.
const MAX_CARRIERS: usize = BANDS[0].places;

/// How a payload's copies fill the symbols.
#[derive(Clone, Copy, Debug, PartialEq, Eq)]
pub struct Layout {
    pub copy_num: usize,
    pub inter_num: usize,
    pub inter_num_per_group: usize,
    pub valid_carrier_num: usize,
    pub used_carrier_num: usize,
    pub carrier_num_per_group: usize,
    pub carrier_num_per_inter: usize,
    /// The bits that a carrier holds.
    pub bpc: usize,
    /// The coded bits.
    pub data_bits_len: usize,
    /// Items of a symbol's used carriers, which are its first ones.
    pub bits_per_ofdm: usize,
    pub bits_per_group: usize,
    pub bits_in_last_ofdm: usize,
    pub pad_bits_num: usize,
    /// The groups of a copy. All copies fill as many symbols.
    pub groups: usize,
}

impl Layout {
    /// So many coded bits on a band, each so many times; None where that is no count of copies.
    pub fn new(band: &Band, bpc: usize, data_bits_len: usize, copies: u8) -> Option<Layout> {
        let code = COPY_NUM.iter().position(|&count| count == copies)?;
        let copy_num = usize::from(copies);
        let inter_num = INTER_NUM[code];
        let valid_carrier_num = band.places;

        let carrier_num_per_inter = valid_carrier_num / inter_num;
        let used_carrier_num = inter_num * carrier_num_per_inter;
        let carrier_num_per_group = used_carrier_num / copy_num;
        let bits_per_ofdm = bpc * used_carrier_num;
        let bits_per_group = bpc * carrier_num_per_group;
        let bits_in_last_ofdm = match data_bits_len % bits_per_ofdm {
            0 => bits_per_ofdm,
            rest => rest,
        };
        let bits_in_last_group =
            bits_in_last_ofdm - bits_per_group * ((bits_in_last_ofdm - 1) / bits_per_group);
        let pad_bits_num = bits_per_group - bits_in_last_group;
        Some(Layout {
            copy_num,
            inter_num,
            inter_num_per_group: INTER_NUM_PER_GROUP[code],
            valid_carrier_num,
            used_carrier_num,
            carrier_num_per_group,
            carrier_num_per_inter,
            bpc,
            data_bits_len,
            bits_per_ofdm,
            bits_per_group,
            bits_in_last_ofdm,
            pad_bits_num,
            groups: (data_bits_len + pad_bits_num) / bits_per_group,
        })
    }

    pub const fn items(&self) -> usize {
        self.groups * self.items_per_symbol()
    }

    pub const fn items_per_symbol(&self) -> usize {
        self.bpc * self.valid_carrier_num
    }

    /// How far the groups of a copy are shifted round: less than there are groups.
    pub const fn group_shift_num(&self, copy: usize) -> usize {
        if self.last_ofdm_is_above(self.copy_num - 1) {
            copy
        } else if self.copy_num == 4 && self.last_ofdm_is_above(1) && !self.last_ofdm_is_above(2) {
            copy / 2
        } else {
            0
        }
    }

    const fn last_ofdm_is_above(&self, groups: usize) -> bool {
        self.bits_in_last_ofdm > groups * self.bits_per_group
    }

    /// Rounded down to 0 or a power of two; 0 for one copy.
    pub const fn inter_shift_step(&self) -> usize {
        let step = self.carrier_num_per_inter / (2 * self.inter_num);
        if self.copy_num == 1 || step == 0 {
            0
        } else {
            1 << step.ilog2()
        }
    }

    /// The addresses of all interleavers, one after another, each counted from the start of its
    /// group. Those of a copy are then the data carriers of a group, in the order of the places.
    fn addresses(&self) -> [u16; MAX_CARRIERS] {
        let mut addresses = [0; MAX_CARRIERS];
        let (n, step) = (self.carrier_num_per_inter, self.inter_shift_step());
        let spans = addresses.chunks_exact_mut(n).take(self.inter_num);
        for (k, span) in spans.enumerate() {
            inter_out_addr(k, step, span);
            let start = k % self.inter_num_per_group * n;
            for address in span {
                *address += start as u16;
            }
        }
        addresses
    }

    /// Calls `visit(item, bit, length)` for all items that carry a bit, in rising runs: so many
    /// items from `item` on carry the coded bits from `bit` on.
    pub fn for_each_run(&self, mut visit: impl FnMut(usize, usize, usize)) {
        match (self.copy_num, self.bpc) {
            // 000 lets one copy leave the step out: the coded bits in order, then the pad.
            (1, _) => {
                visit(0, 0, self.data_bits_len);
                visit(self.data_bits_len, 0, self.pad_bits_num);
            }
            (_, 1) => self.for_each_carrier::<1>(visit),
            (_, 2) => self.for_each_carrier::<2>(visit),
            (_, _) => self.for_each_carrier::<4>(visit),
        }
    }

    /// The same, a run for each used carrier. Its bits stand together in a pad as well: the coded
    /// bits and the groups are whole carriers, and so are the pads.
    fn for_each_carrier<const BPC: usize>(&self, mut visit: impl FnMut(usize, usize, usize)) {
        let addresses = self.addresses();
        let of_copies = addresses.chunks_exact(self.carrier_num_per_group);
        let mut slots = self.slots();
        for (copy, addresses) in of_copies.take(self.copy_num).enumerate() {
            // Shifted round upwards: the last groups come first.
            let first = self.groups - self.group_shift_num(copy);
            let groups = (first..self.groups).chain(0..first);
            for (group, slot) in groups.zip(slots.by_ref()) {
                for (carrier, &address) in addresses.iter().enumerate() {
                    let bit = group * self.bits_per_group + BPC * usize::from(address);
                    let bit = if bit < self.data_bits_len {
                        bit
                    } else {
                        bit - self.data_bits_len + copy * self.pad_bits_num
                    };
                    visit(slot + BPC * carrier, bit, BPC);
                }
            }
        }
    }

    /// The slots of all symbols, by their first items.
    fn slots(&self) -> impl Iterator<Item = usize> {
        let (used, slot) = (self.bits_per_ofdm, self.bits_per_group);
        let symbols = (0..self.items()).step_by(self.items_per_symbol());
        symbols.flat_map(move |symbol| (symbol..symbol + used).step_by(slot))
    }
}

/// InterOutAddr of interleaver k: the numbers of its carriers are written by rows of M and read by
/// columns, and the list is shifted round upwards. With step 0 they stand in a single column.
fn inter_out_addr(k: usize, inter_shift_step: usize, addresses: &mut [u16]) {
    let (m, shift) = match inter_shift_step {
        0 => (1, k),
        step => ((k + 1) * step, 2 * k * step),
    };
    let count = addresses.len();
    let by_columns = (0..m).flat_map(|column| (column..count).step_by(m));
    for (address, carrier) in addresses.iter_mut().zip(by_columns) {
        *address = carrier as u16;
    }
    addresses.rotate_right(shift % count);
}

#[cfg(test)]
pub(crate) mod tests {
    use super::*;
    use crate::card::mode_is_defined;
    use crate::cases::{all_modes, copied_modes, modes, Mode};
    use crate::interleaver::coded_bits;
    use crate::points::{bits_per_carrier, BPSK, QAM16, QPSK};

    /// The payloads among the modes, with their layouts.
    fn layouts(modes: Vec<Mode>) -> Vec<(Mode, Layout)> {
        let with_layout = |mode: Mode| Some((mode, mode.layout()?));
        modes.into_iter().filter_map(with_layout).collect()
    }

    /// The coded bit of each item, by the visits.
    fn bits_of(layout: &Layout) -> Vec<Option<usize>> {
        let mut bits = vec![None; layout.items()];
        layout.for_each_run(|item, bit, length| {
            for k in 0..length {
                assert_eq!(bits[item + k].replace(bit + k), None, "visited twice");
            }
        });
        bits
    }

    /// InterOutAddr as the listing of 000 has it, for K from 1 and with addresses from 1.
    pub(crate) fn listed(k: usize, step: usize, carrier_num_per_inter: usize) -> Vec<usize> {
        let inter_in_addr: Vec<usize> = (1..=carrier_num_per_inter).collect();
        let circshift = |mut list: Vec<usize>, by: usize| {
            for _ in 0..by {
                let last = list.pop().unwrap();
                list.insert(0, last);
            }
            list
        };
        if step == 0 {
            return circshift(inter_in_addr, k - 1);
        }
        let m = k * step;
        let matrix: Vec<&[usize]> = inter_in_addr.chunks(m).collect();
        let column = |i: usize| matrix.iter().filter_map(move |row| row.get(i).copied());
        circshift((0..m).flat_map(column).collect(), 2 * (k - 1) * step)
    }

    #[test]
    fn table_13_gives_each_copy_its_interleavers() {
        for code in 0..6 {
            let of_copies = usize::from(COPY_NUM[code]) * INTER_NUM_PER_GROUP[code];
            assert_eq!(of_copies, INTER_NUM[code]);
        }
        for copies in (0..=255).filter(|copies| !COPY_NUM.contains(copies)) {
            assert_eq!(Layout::new(&BANDS[0], 1, 1152, copies), None);
        }
    }

    #[test]
    fn addresses_are_a_permutation_and_those_of_the_listing() {
        let mut steps = Vec::new();
        for (mode, layout) in layouts(copied_modes()) {
            let (n, step) = (layout.carrier_num_per_inter, layout.inter_shift_step());
            steps.push(step);
            for k in 0..layout.inter_num {
                let mut addresses = vec![0; n];
                inter_out_addr(k, step, &mut addresses);
                let from_1 = addresses.iter().map(|&address| usize::from(address) + 1);
                assert!(from_1.eq(listed(k + 1, step, n)), "{mode:?} {k}");
                addresses.sort_unstable();
                assert!(addresses.into_iter().map(usize::from).eq(0..n));
            }
        }
        steps.sort_unstable();
        steps.dedup();
        assert_eq!(steps, [0, 1, 2]);
    }

    #[test]
    fn addresses_of_longer_steps_are_those_of_the_listing_too() {
        for n in 1..60 {
            for step in [0, 1, 2, 4, 8] {
                for k in 0..14 {
                    let mut addresses = vec![0; n];
                    inter_out_addr(k, step, &mut addresses);
                    let from_1 = addresses.iter().map(|&address| usize::from(address) + 1);
                    assert!(from_1.eq(listed(k + 1, step, n)), "{n} {step} {k}");
                }
            }
        }
    }

    #[test]
    fn steps_are_rounded_down_to_powers_of_two() {
        let band = |places| Band { places, ..BANDS[0] };
        // Eight interleavers: a step of 1 for each 128 carriers.
        for (places, step) in [
            (127, 0),
            (128, 1),
            (255, 1),
            (256, 2),
            (511, 2),
            (512, 4),
            (1023, 4),
            (1024, 8),
        ] {
            let layout = Layout::new(&band(places), 1, 1152, 2).unwrap();
            assert_eq!(layout.inter_shift_step(), step, "{places}");
        }
        assert_eq!(
            layouts(modes())
                .iter()
                .map(|(_, layout)| layout.inter_shift_step())
                .max(),
            Some(0)
        );
    }

    #[test]
    fn one_copy_is_the_coded_bits_in_order_with_the_step_and_without() {
        for (mode, layout) in layouts(modes()) {
            let in_order: Vec<Option<usize>> = (0..layout.items())
                .map(|item| Some(item % mode.coded()))
                .collect();
            assert_eq!(bits_of(&layout), in_order);
            let mut stepped = vec![None; layout.items()];
            let visit = |item: usize, bit: usize, length: usize| {
                for k in 0..length {
                    stepped[item + k] = Some(bit + k);
                }
            };
            match layout.bpc {
                1 => layout.for_each_carrier::<1>(visit),
                2 => layout.for_each_carrier::<2>(visit),
                _ => layout.for_each_carrier::<4>(visit),
            }
            assert_eq!(stepped, in_order, "{mode:?}");
        }
    }

    /// Of blocks sent once (02, T-05; D9). Frame control, kind 0, is not padded.
    #[test]
    fn no_defined_mode_has_a_pad_longer_than_its_coded_data() {
        let mut met = 0;
        let mut nearest = Vec::new();
        // Every value of four bits for each field, more than a card can hold.
        for fields in 0..1u64 << 16 {
            let mode = [12, 8, 4, 0].map(|shift| fields >> shift & 15);
            let [band, kind, rate, modulation] = mode;
            if kind == 0 || !mode_is_defined(band, kind, rate, modulation) {
                continue;
            }
            met += 1;
            let band = &BANDS[band as usize];
            let bits = bits_per_carrier(modulation).unwrap();
            let coded = coded_bits(kind as u8, rate as u8);
            let layout = Layout::new(band, bits, coded, 1).unwrap();
            let pad = layout.pad_bits_num;
            assert!(pad <= coded && pad < band.places * bits);
            assert_eq!(layout.items(), coded + pad);
            assert_eq!(layout.items(), layout.groups * band.places * bits);
            // As near to its coded bits as 1,112 to 2,176, or nearer: ratios compared crosswise.
            if pad * 2176 >= 1112 * coded {
                nearest.push((mode, pad, coded));
            }
        }
        // On 4 bands kinds 1 to 3 at rate 0 and kind 4 at both rates, each in 3 modulations.
        assert_eq!(met, 4 * 5 * 3);
        assert_eq!(nearest, [([0, 2, 0, QAM16], 1112, 2176)]);
    }

    /// Of blocks sent more than once (02, T-06; D27).
    #[test]
    fn pads_never_run_past_the_data_and_every_bit_has_its_copies() {
        let mut nearest = Vec::new();
        let mut most = 0;
        for (mode, layout) in layouts(copied_modes()) {
            let (copies, coded) = (layout.copy_num, layout.data_bits_len);
            let repeated = copies * layout.pad_bits_num;
            assert!(layout.pad_bits_num < layout.bits_per_group);
            assert!(repeated <= coded, "{mode:?}");
            if repeated * 6 >= 5 * coded {
                nearest.push((mode, repeated, coded));
            }
            let mut counts = vec![0; coded];
            for bit in bits_of(&layout).into_iter().flatten() {
                counts[bit] += 1;
            }
            for (bit, &count) in counts.iter().enumerate() {
                assert_eq!(
                    count,
                    copies + usize::from(bit < repeated),
                    "{mode:?} {bit}"
                );
            }
            most = most.max(layout.items());
        }
        let nearest_of_all = Mode::new(0, 1, 0, QAM16 as u8).copied(2);
        assert_eq!(nearest, [(nearest_of_all, 960, 1152)]);
        assert_eq!(most, MAX_ITEMS);
        for modulation in [BPSK, QPSK, QAM16] {
            let longest = Mode::new(3, 4, 0, modulation as u8).copied(11);
            assert_eq!(longest.items(), MAX_ITEMS);
        }
    }

    #[test]
    fn unused_carriers_are_the_last_of_each_symbol() {
        // By count of copies: their numbers on bands 0 to 3 (D27).
        let known = |copies| match copies {
            1 => [0; 4],
            2 | 4 => [3, 3, 1, 1],
            5 => [1, 1, 9, 9],
            7 => [5, 5, 5, 7],
            _ => [4, 10, 1, 5],
        };
        for (mode, layout) in layouts(all_modes()) {
            let unused = layout.valid_carrier_num - layout.used_carrier_num;
            assert_eq!(unused, known(mode.copies)[usize::from(mode.band)]);
            for symbol in bits_of(&layout).chunks(layout.items_per_symbol()) {
                let (used, unused) = symbol.split_at(layout.bpc * layout.used_carrier_num);
                assert!(used.iter().all(Option::is_some));
                assert!(unused.iter().all(Option::is_none));
            }
        }
    }

    #[test]
    fn copies_of_a_group_stand_on_different_slots() {
        let mut without_shifts = 0;
        for (mode, layout) in layouts(copied_modes()) {
            let (copies, groups) = (layout.copy_num, layout.groups);
            let alike = |shift: &dyn Fn(usize) -> usize| {
                let of_group = |group: usize| {
                    let slot = |copy| (copy * groups + (group + shift(copy)) % groups) % copies;
                    let mut slots: Vec<usize> = (0..copies).map(slot).collect();
                    slots.sort_unstable();
                    !slots.into_iter().eq(0..copies)
                };
                (0..groups).any(of_group)
            };
            assert!((0..copies).all(|copy| layout.group_shift_num(copy) < groups));
            assert!(!alike(&|copy| layout.group_shift_num(copy)), "{mode:?}");
            without_shifts += usize::from(alike(&|_| 0));
        }
        assert!(without_shifts > 0);
    }

    /// Mode and copies, then Used, BitsPerGroup, pad, shifts, symbols, items and F (D27).
    type Worked = (Mode, [usize; 3], &'static [usize], [usize; 3]);

    const WORKED: [Worked; 9] = [
        (
            Mode::new(0, 1, 0, 1).copied(2),
            [408, 408, 72],
            &[0, 0],
            [3, 2_466, 335_821],
        ),
        (
            Mode::new(0, 1, 0, 2).copied(2),
            [408, 816, 480],
            &[0, 1],
            [2, 3_288, 577_924],
        ),
        (
            Mode::new(3, 1, 0, 0).copied(2),
            [48, 24, 0],
            &[0, 1],
            [48, 2_352, 209_430],
        ),
        (
            Mode::new(2, 2, 0, 1).copied(4),
            [88, 44, 24],
            &[0, 0, 1, 1],
            [50, 8_900, 724_452],
        ),
        (
            Mode::new(3, 1, 0, 0).copied(4),
            [48, 12, 0],
            &[0, 1, 2, 3],
            [96, 4_704, 722_112],
        ),
        (
            Mode::new(1, 2, 0, 1).copied(5),
            [130, 52, 8],
            &[0; 5],
            [42, 11_004, 819_622],
        ),
        (
            Mode::new(0, 4, 1, 2).copied(7),
            [406, 232, 192],
            &[0, 1, 2, 3, 4, 5, 6],
            [21, 34_524, 731_498],
        ),
        (
            Mode::new(1, 2, 0, 0).copied(11),
            [121, 11, 2],
            &[0, 1, 2, 3, 4, 5, 6, 7, 8, 9, 10],
            [198, 25_938, 666_644],
        ),
        (
            Mode::new(3, 4, 0, 2).copied(11),
            [44, 16, 0],
            &[0; 11],
            [520, 101_920, 822_495],
        ),
    ];

    #[test]
    fn worked_examples_of_d27() {
        for (mode, [used, per_group, pad], shifts, [symbols, items, f]) in WORKED {
            let layout = mode.layout().unwrap();
            assert_eq!(layout.used_carrier_num, used);
            assert_eq!(layout.bits_per_group, per_group);
            assert_eq!(layout.pad_bits_num, pad);
            let shifted = (0..layout.copy_num).map(|copy| layout.group_shift_num(copy));
            assert!(shifted.eq(shifts.iter().copied()), "{mode:?}");
            assert_eq!((layout.groups, layout.items()), (symbols, items));
            let terms = bits_of(&layout)
                .into_iter()
                .enumerate()
                .filter_map(|(n, bit)| Some((n + 1) * (bit? + 1)));
            assert_eq!(terms.sum::<usize>() % 1_000_003, f, "{mode:?}");
        }
    }

    /// The bits of a carrier, by symbol and place.
    fn carrier(layout: &Layout, symbol: usize, place: usize) -> Vec<Option<usize>> {
        let first = layout.bpc * (symbol * layout.valid_carrier_num + place);
        bits_of(layout)[first..first + layout.bpc].to_vec()
    }

    #[test]
    fn places_that_d27_prints() {
        let first = WORKED[0].0.layout().unwrap();
        for (symbol, place, bit) in [
            (0, 0, 0),
            (0, 1, 4),
            (0, 26, 2),
            (0, 51, 172),
            (0, 204, 408),
            (1, 204, 92),
        ] {
            let pair = [Some(bit), Some(bit + 1)];
            assert_eq!(carrier(&first, symbol, place), pair, "{symbol} {place}");
        }
        for place in 408..411 {
            assert_eq!(carrier(&first, 0, place), [None, None]);
        }
        let mut addresses = [0; 51];
        inter_out_addr(1, first.inter_shift_step(), &mut addresses);
        assert_eq!(addresses[..6], [35, 39, 43, 47, 0, 4]);

        let third = WORKED[2].0.layout().unwrap();
        for (symbol, place, bit) in [(0, 6, 11), (0, 7, 6), (24, 0, 1130)] {
            assert_eq!(carrier(&third, symbol, place), [Some(bit)]);
        }
    }
}
