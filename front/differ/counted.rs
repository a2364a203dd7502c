// Random calls that take a counter of steps: front/wrong_translations puts them into a crate whose `Steps` counts. One number has
// all that they returned and left, and the counters have what they took.
mod counted_calls {
    use super::Steps;
    use crate::proved::bitranks::counted as ranks;
    use crate::proved::bitrows::{counted as rows, BitRows};
    use crate::proved::fixedbitset::{counted, Bits, FixedBitSet};
    use crate::shim::alloc::Global;
    use core::ops::Range;

    const ALLOC: Global = Global::Abort;
    const RANGES: [fn(&mut FixedBitSet, Range<usize>, &mut Steps) -> usize; 9] = [
        |set, range, _| all(set.ones_in(range)),
        |set, range, _| all(set.zeroes_in(range)),
        |set, range, steps| counted::count_ones(set, range, steps),
        |set, range, steps| counted::count_zeroes(set, range, steps),
        |set, range, steps| counted::contains_all_in_range(set, range, steps) as usize,
        |set, range, steps| counted::contains_any_in_range(set, range, steps) as usize,
        |set, range, steps| (counted::insert_range(set, range, steps), 0).1,
        |set, range, steps| (counted::remove_range(set, range, steps), 0).1,
        |set, range, steps| (counted::toggle_range(set, range, steps), 0).1,
    ];
    const NUMBERS: [fn(&mut FixedBitSet, usize, &mut Steps); 6] = [
        counted::shift_up,
        counted::shift_down,
        counted::union_with_own_shift,
        |set, bits, steps| counted::resize(set, bits, true, steps).unwrap(),
        |set, bits, steps| counted::resize(set, bits, false, steps).unwrap(),
        |set, _, steps| counted::clear(set, steps),
    ];
    const PAIRS: [fn(&mut FixedBitSet, &FixedBitSet, &mut Steps) -> usize; 20] = [
        |set, _, steps| place(counted::pop_first(set, steps)),
        |set, _, steps| place(counted::pop_last(set, steps)),
        |set, other, steps| counted::union_count(set, other, steps),
        |set, other, steps| counted::intersection_count(set, other, steps),
        |set, other, steps| counted::difference_count(set, other, steps),
        |set, other, steps| counted::symmetric_difference_count(set, other, steps),
        |set, other, steps| counted::is_disjoint(set, other, steps) as usize,
        |set, other, steps| counted::is_subset(set, other, steps) as usize,
        |set, other, steps| counted::union_with_change(set, other, steps).unwrap() as usize,
        |set, other, steps| counted::intersect_with_change(set, other, steps) as usize,
        |set, other, steps| counted::difference_with_change(set, other, steps) as usize,
        |set, other, steps| (counted::union_with(set, other, steps).unwrap(), 0).1,
        |set, other, steps| (counted::symmetric_difference_with(set, other, steps).unwrap(), 0).1,
        |set, other, steps| (counted::intersect_with(set, other, steps), 0).1,
        |set, other, steps| (counted::difference_with(set, other, steps), 0).1,
        |set, other, steps| (counted::clone_from(set, other, steps).unwrap(), 0).1,
        |set, other, steps| (counted::append(set, other, steps).unwrap(), 0).1,
        |set, other, steps| (*set = counted::bitand(set, other, steps).unwrap(), 0).1,
        |set, other, steps| (*set = counted::bitor(set, other, steps).unwrap(), 0).1,
        |set, other, steps| (*set = counted::bitxor(set, other, steps).unwrap(), 0).1,
    ];

    const VIEWS: [fn(Bits<'_>, Bits<'_>, usize, &mut Steps) -> usize; 23] = [
        |set, _, _, steps| set.ones().count_left(steps),
        |set, _, _, steps| set.zeroes().count_left(steps),
        |set, other, _, steps| set.union(other).count_left(steps),
        |set, other, _, steps| set.symmetric_difference(other).count_left(steps),
        |set, other, _, steps| set.intersection(other).count_left(steps),
        |set, other, _, steps| set.difference(other).count_left(steps),
        |set, _, at, steps| place(set.first_gap(1 + at % 70, at / 2, steps)),
        |set, _, at, steps| place(set.first_aligned_gap(1 + at % 70, 1 + at % 9, 0, set.length, steps)),
        |set, _, at, steps| place(set.next_one(at, steps)),
        |set, _, at, steps| place(set.next_zero(at, steps)),
        |set, other, at, steps| place(set.next_common(other, at, steps)),
        |set, _, at, steps| place(set.nth_one(at, steps)),
        |set, _, at, steps| place(set.previous_one(at, steps)),
        |set, _, at, steps| place(set.previous_zero(at, steps)),
        |set, _, _, steps| place(set.minimum(steps)),
        |set, _, _, steps| place(set.maximum(steps)),
        |set, other, _, steps| place(set.first_lacking(other, steps)),
        |set, _, _, steps| set.is_clear(steps) as usize,
        |set, _, _, steps| set.is_full(steps) as usize,
        |set, other, _, steps| set.is_superset(other, steps) as usize,
        |set, other, _, steps| set.is_equal(other, steps) as usize,
        |set, _, _, steps| set.is_equal(set, steps) as usize,
        |set, other, _, steps| set.compare(other, steps) as usize,
    ];

    fn all(positions: impl Iterator<Item = usize>) -> usize {
        positions.fold(0, |all, position| all.wrapping_mul(31) ^ position)
    }

    fn place(found: Option<usize>) -> usize {
        found.unwrap_or(usize::MAX)
    }

    struct Calls {
        random: u64,
        digest: u64,
    }

    impl Calls {
        fn word(&mut self) -> u64 {
            self.random ^= self.random << 13;
            self.random ^= self.random >> 7;
            self.random ^= self.random << 17;
            self.random.wrapping_mul(0x2545_f491_4f6c_dd1d)
        }

        fn below(&mut self, bound: usize) -> usize {
            (self.word() >> 33) as usize % bound.max(1)
        }

        /// A set that is full, or has few positions, or as many as not.
        fn set(&mut self, length: usize) -> FixedBitSet {
            let kind = self.below(3);
            let words = (0..length.div_ceil(64)).map(|_| match kind {
                0 => !0,
                1 => (self.word() & self.word() & self.word() & self.word()) as _,
                _ => self.word() as _,
            });
            FixedBitSet::with_capacity_and_blocks(ALLOC, length, words).unwrap()
        }

        fn add(&mut self, value: usize) {
            self.digest = self.digest.rotate_left(7).wrapping_mul(0x9e37_79b9_7f4a_7c15) ^ value as u64;
        }

        fn add_set(&mut self, set: &FixedBitSet) {
            self.add(set.len());
            set.as_slice().iter().for_each(|word| self.add(*word as usize));
        }

        /// A range within these bits.
        fn range(&mut self, length: usize) -> Range<usize> {
            let end = self.below(length + 1);
            self.below(end + 1)..end
        }

        /// A call, with a counter that has counted before: one that is set back shows.
        fn call(&mut self) {
            let mut steps = Steps::new();
            (0..3).for_each(|_| steps.tick());
            let most = match self.below(400) {
                0 => 300_000,
                1..=139 => 1_500,
                140..=279 => 130,
                _ => 3,
            };
            let length = self.below(most);
            let mut set = self.set(length);
            let length = [length, self.below(most)][self.below(2)];
            let (other, third) = (self.set(length), self.set(length.min(set.len())));
            let (range, number) = (self.range(set.len()), self.below(set.len() + 70));
            let value = match self.below(13) {
                0 | 1 => RANGES[self.below(RANGES.len())](&mut set, range, &mut steps),
                2 => (NUMBERS[self.below(NUMBERS.len())](&mut set, number, &mut steps), 0).1,
                3..=5 => PAIRS[self.below(PAIRS.len())](&mut set, &other, &mut steps),
                6 => self.of_more(&mut set, &other, &third, &mut steps),
                7 => self.of_ranks(&set, number, &mut steps),
                8..=10 => VIEWS[self.below(VIEWS.len())](set.as_bits(), other.as_bits(), number, &mut steps),
                11 => FixedBitSet::from_bits(ALLOC, set.as_bits()).unwrap().into_ones().count_left(&mut steps),
                _ => self.of_rows(&mut steps),
            };
            self.add(value);
            self.add_set(&set);
        }

        fn of_more(&mut self, set: &mut FixedBitSet, other: &FixedBitSet, third: &FixedBitSet, steps: &mut Steps) -> usize {
            let range = self.range(other.len());
            match self.below(4) {
                0 => counted::union_with_shifted(set, third, set.len() - third.len(), steps),
                1 => *set = counted::slice(other, ALLOC, range, steps).unwrap(),
                2 if range.len() <= set.len() => {
                    let at = self.below(set.len() - range.len() + 1);
                    counted::copy_range(set, other, range, at, steps)
                }
                _ => return counted::union_with_difference(set, other, third, steps).unwrap() as usize,
            }
            0
        }

        fn of_ranks(&mut self, set: &FixedBitSet, number: usize, steps: &mut Steps) -> usize {
            let ranked = ranks::of(ALLOC, set, steps).unwrap();
            let rank = ranks::rank(&ranked, number.min(set.len()), steps);
            rank ^ ranks::select(&ranked, number, steps).unwrap_or(usize::MAX)
        }

        fn of_rows(&mut self, steps: &mut Steps) -> usize {
            let (count, columns) = (1 + self.below(8), 1 + self.below(70));
            let mut table = BitRows::new(ALLOC, count, columns).unwrap();
            (0..2 * count).for_each(|_| table.set(self.below(count), self.below(columns.min(9)), true));
            rows::close(&mut table, steps);
            (0..count).map(|row| table.row(row).fold(row, |sum, column| sum.wrapping_mul(71) ^ column)).fold(0, |sum, row| sum.wrapping_mul(31) ^ row)
        }
    }

    #[no_mangle]
    pub extern "C" fn counted(calls: u32, start: u64) -> u64 {
        let mut made = Calls { random: start.wrapping_mul(0x9e37_79b9_7f4a_7c15) | 1, digest: 0 };
        (0..calls).for_each(|_| made.call());
        made.digest
    }
}
