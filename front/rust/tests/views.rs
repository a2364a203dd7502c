//! Sets over lent words: which words are taken, and each call beside flags, one for each position.
use fixedbitset::{storage_words, Bits, BitsMut, Block, FixedBitSet};
use std::panic::{catch_unwind, AssertUnwindSafe};

const BITS: usize = Block::BITS as usize;
const LENGTHS: [usize; 13] = [0, 1, 5, 63, 64, 65, 70, 130, 255, 256, 257, 500, 576];

/// Numbers that look random: each is made of the one before.
struct Numbers(u64);

impl Numbers {
    fn below(&mut self, limit: usize) -> usize {
        self.0 ^= self.0 << 13;
        self.0 ^= self.0 >> 7;
        self.0 ^= self.0 << 17;
        (self.0 >> 16) as usize % limit
    }

    /// Flags of which so many of eight are set.
    fn flags(&mut self, length: usize, of_eight: usize) -> Vec<bool> {
        (0..length).map(|_| self.below(8) < of_eight).collect()
    }

    /// Flags of each length: none, some, most and all of them set.
    fn sets(&mut self) -> Vec<Vec<bool>> {
        let shapes = LENGTHS
            .iter()
            .flat_map(|length| [0, 1, 4, 7, 8].map(|of| (*length, of)));
        shapes.map(|(length, of)| self.flags(length, of)).collect()
    }

    /// A valid range of so many positions.
    fn range(&mut self, length: usize) -> std::ops::Range<usize> {
        let (one, other) = (self.below(length + 1), self.below(length + 1));
        one.min(other)..one.max(other)
    }
}

/// The words of a set with these flags.
fn words_of(flags: &[bool]) -> Vec<Block> {
    let mut words = vec![0; storage_words(flags.len())];
    for position in ones_of(flags) {
        words[position / BITS] |= 1 << (position % BITS);
    }
    words
}

fn ones_of(flags: &[bool]) -> Vec<usize> {
    (0..flags.len()).filter(|place| flags[*place]).collect()
}

fn zeroes_of(flags: &[bool]) -> Vec<usize> {
    (0..flags.len()).filter(|place| !flags[*place]).collect()
}

fn set_of<'a>(words: &'a [Block], flags: &[bool]) -> Bits<'a> {
    Bits::over(words, flags.len()).expect("words of a set")
}

/// Whether the flags have the position.
fn has(flags: &[bool], position: usize) -> bool {
    flags.get(position) == Some(&true)
}

/// Flags of this length, each by its position.
fn flags_by(length: usize, flag: impl Fn(usize) -> bool) -> Vec<bool> {
    (0..length).map(flag).collect()
}

/// The text of the panic of a call.
fn panic_of<T>(call: impl FnOnce() -> T) -> String {
    let panicked = catch_unwind(AssertUnwindSafe(|| {
        call();
    }));
    let panic = panicked.expect_err("the call has to panic");
    *panic.downcast::<String>().expect("a text with numbers")
}

#[test]
fn words_of_no_set_are_refused() {
    let mut numbers = Numbers(1);
    for flags in numbers.sets() {
        let (length, words) = (flags.len(), words_of(&flags));
        assert!(Bits::fits(&words, length) && Bits::over(&words, length).is_some());
        assert!(BitsMut::over(&mut words.clone(), length).is_some());
        for position in length..BITS * words.len() {
            let mut unclean = words.clone();
            unclean[position / BITS] |= 1 << (position % BITS);
            assert!(!Bits::fits(&unclean, length) && Bits::over(&unclean, length).is_none());
            let before = unclean.clone();
            assert!(BitsMut::over(&mut unclean, length).is_none());
            assert_eq!(unclean, before);
        }
    }
}

/// No clause says what `BitsMut::over` leaves of words that it refuses.
#[test]
fn refused_words_stay_as_they_are() {
    let mut numbers = Numbers(7);
    for length in LENGTHS {
        for count in 0..storage_words(length) + 9 {
            let mut words = words_of(&numbers.flags(BITS * count, 4));
            words.truncate(count);
            let before = words.clone();
            let fits = BitsMut::over(&mut words, length).is_some();
            assert_eq!((fits, &words), (Bits::fits(&before, length), &before));
        }
    }
}

#[test]
fn too_few_and_too_many_words_are_refused() {
    for length in LENGTHS {
        let count = storage_words(length);
        assert_eq!(count, length.div_ceil(256) * 4);
        for other in (0..count + 9).filter(|other| *other != count) {
            let mut words = vec![0; other];
            assert!(Bits::over(&words, length).is_none());
            assert!(BitsMut::over(&mut words, length).is_none());
            let panicked = panic_of(|| BitsMut::settle(&mut words, length, 0).len());
            assert_eq!(
                panicked,
                format!("{other} words for a fixedbitset of size {length}")
            );
        }
    }
    assert!(Bits::over(&[], usize::MAX).is_none());
}

#[test]
fn any_words_are_settled() {
    let mut numbers = Numbers(2);
    for length in LENGTHS {
        let any = numbers.flags(BITS * storage_words(length), 4);
        for kept in (0..=length).filter(|kept| kept % 9 < 2 || kept + 2 > length) {
            let mut words = words_of(&any);
            words.truncate(storage_words(length));
            assert_eq!(BitsMut::settle(&mut words, length, kept).len(), length);
            assert_eq!(
                words,
                words_of(&flags_by(length, |place| place < kept && any[place]))
            );
        }
        let panicked =
            panic_of(|| BitsMut::settle(&mut words_of(&any[..length]), length, length + 1).len());
        let text = format!(
            "keep below index {} exceeds fixedbitset size {length}",
            length + 1
        );
        assert_eq!(panicked, text);
    }
}

#[test]
fn an_empty_set_has_no_position() {
    let set = Bits::over(&[], 0).unwrap();
    assert!(set.is_empty() && set.is_clear() && set.is_full() && set.as_slice().is_empty());
    assert_eq!(
        (
            set.minimum(),
            set.maximum(),
            set.next_zero(0),
            set.previous_one(9)
        ),
        (None, None, None, None)
    );
    assert_eq!(
        (
            set.count_ones(..),
            set.count_zeroes(..),
            set.first_gap(0, 0)
        ),
        (0, 0, Some(0))
    );
    assert_eq!(
        (set.ones().count(), set.zeroes().count(), set.runs().count()),
        (0, 0, 0)
    );
    assert_eq!(
        (set, set.first_lacking(set), set.next_common(set, 0)),
        (FixedBitSet::new().as_bits(), None, None)
    );
    let mut changed = BitsMut::over(&mut [], 0).unwrap();
    changed.insert_range(..);
    changed.shift_up(3);
    changed.assign_bytes(&[255]);
    assert!(changed.is_empty() && !changed[0] && !changed.union_with_change(set));
}

#[test]
fn reads_are_those_of_the_flags() {
    let mut numbers = Numbers(3);
    for flags in numbers.sets() {
        let (words, length) = (words_of(&flags), flags.len());
        let (set, ones, zeroes) = (set_of(&words, &flags), ones_of(&flags), zeroes_of(&flags));
        assert_eq!((set.len(), set.is_empty()), (length, length == 0));
        let is_none = (ones.is_empty(), zeroes.is_empty());
        assert_eq!((set.is_clear(), set.is_full()), is_none);
        assert_eq!(set.minimum(), ones.first().copied());
        assert_eq!(set.maximum(), ones.last().copied());
        assert_eq!(set.as_slice(), &words[..length.div_ceil(BITS)]);
        assert_eq!(set.ones().collect::<Vec<_>>(), ones);
        assert_eq!(set.zeroes().collect::<Vec<_>>(), zeroes);
        assert!(set.ones().rev().eq(ones.into_iter().rev()));
        assert!(set.runs().eq(runs_of(&flags, true)));
        assert!(set.zero_runs().eq(runs_of(&flags, false)));
    }
}

/// The stretches of flags that are `kind`.
fn runs_of(flags: &[bool], kind: bool) -> Vec<(usize, usize)> {
    let is_in = |at: usize| flags.get(at) == Some(&kind);
    let starts = (0..flags.len()).filter(|at| is_in(*at) && (*at == 0 || !is_in(at - 1)));
    let end = |start| (start..=flags.len()).find(|at| !is_in(*at)).unwrap();
    starts.map(|start| (start, end(start))).collect()
}

#[test]
fn positions_are_those_of_the_flags() {
    let mut numbers = Numbers(11);
    for flags in numbers.sets() {
        let words = words_of(&flags);
        let (set, ones, zeroes) = (set_of(&words, &flags), ones_of(&flags), zeroes_of(&flags));
        let places: Vec<usize> = (0..flags.len() + 70).collect();
        let mut answers = vec![false; places.len()];
        set.contains_each(&places, &mut answers);
        let next = |list: &[usize], from| list.iter().find(|at| **at >= from).copied();
        let previous = |list: &[usize], below| list.iter().rfind(|at| **at < below).copied();
        for at in places {
            let is_in = has(&flags, at);
            assert_eq!(
                (set.contains(at), set[at], answers[at]),
                (is_in, is_in, is_in)
            );
            assert_eq!(set.next_one(at), next(&ones, at));
            assert_eq!(set.next_zero(at), next(&zeroes, at));
            assert_eq!(set.previous_one(at), previous(&ones, at));
            assert_eq!(set.previous_zero(at), previous(&zeroes, at));
            assert_eq!(set.nth_one(at), ones.get(at).copied());
        }
    }
}

#[test]
fn ranges_are_those_of_the_flags() {
    let mut numbers = Numbers(4);
    for flags in numbers.sets() {
        let words = words_of(&flags);
        let set = set_of(&words, &flags);
        for _ in 0..40 {
            let range = numbers.range(flags.len());
            let part = &flags[range.clone()];
            let (ones, zeroes) = (ones_of(part), zeroes_of(part));
            assert_eq!(set.count_ones(range.clone()), ones.len());
            assert_eq!(set.count_zeroes(range.clone()), zeroes.len());
            let all = set.contains_all_in_range(range.clone());
            assert_eq!(all, zeroes.is_empty());
            let any = set.contains_any_in_range(range.clone());
            assert_eq!(any, !ones.is_empty());
            let start = range.start;
            let moved = |list: Vec<usize>| list.into_iter().map(move |at| at + start);
            assert!(set.ones_in(range.clone()).eq(moved(ones)));
            assert!(set.zeroes_in(range).eq(moved(zeroes)));
        }
    }
}

#[test]
fn gaps_are_those_of_the_flags() {
    let mut numbers = Numbers(12);
    for flags in numbers.sets() {
        let (words, length) = (words_of(&flags), flags.len());
        let set = set_of(&words, &flags);
        for _ in 0..40 {
            let (range, count) = (numbers.range(length), numbers.below(9));
            let (start, end) = (range.start, range.end);
            let align = 1 + numbers.below(9);
            let is_gap =
                |at: usize, end| at + count <= end && !flags[at..at + count].contains(&true);
            let gap = (start..=length).find(|at| is_gap(*at, length));
            assert_eq!(set.first_gap(count, start), gap);
            let aligned = (start..=end).find(|at| at % align == 0 && is_gap(*at, end));
            assert_eq!(set.first_aligned_gap(count, align, range), aligned);
        }
    }
}

type Join = fn(bool, bool) -> bool;

const OR: Join = |one, other| one || other;
const AND: Join = |one, other| one && other;
const BUT: Join = |one, other| one && !other;
const EITHER: Join = |one, other| one != other;

/// The positions of a join of two sets.
fn joined(one: &[bool], other: &[bool], join: Join) -> Vec<usize> {
    let length = one.len().max(other.len());
    ones_of(&flags_by(length, |at| join(has(one, at), has(other, at))))
}

/// Each two of the sets.
fn pairs(sets: &[Vec<bool>]) -> impl Iterator<Item = (&[bool], &[bool])> {
    let with_each = move |one| sets.iter().map(move |other: &Vec<bool>| (one, &other[..]));
    sets.iter().flat_map(move |one| with_each(&one[..]))
}

#[test]
fn counts_and_tests_of_two_sets_are_those_of_the_flags() {
    let sets = Numbers(5).sets();
    for (one, other) in pairs(&sets) {
        let (words, others) = (words_of(one), words_of(other));
        let (set, second) = (set_of(&words, one), set_of(&others, other));
        let [all, shared, left] = [OR, AND, BUT].map(|join| joined(one, other, join));
        let lacking = joined(other, one, BUT);
        assert_eq!(set.union_count(second), all.len());
        assert_eq!(set.intersection_count(second), shared.len());
        assert_eq!(set.difference_count(second), left.len());
        let unlike = set.symmetric_difference_count(second);
        assert_eq!(unlike, left.len() + lacking.len());
        assert_eq!(set.is_disjoint(second), shared.is_empty());
        assert_eq!(set.is_subset(second), left.is_empty());
        assert_eq!(set.is_superset(second), lacking.is_empty());
        assert_eq!(set.first_lacking(second), lacking.first().copied());
        for from in (0..one.len() + 2).chain([usize::MAX]) {
            let next = shared.get(shared.partition_point(|at| *at < from)).copied();
            assert_eq!(set.next_common(second, from), next);
        }
    }
}

#[test]
fn walks_and_the_order_of_two_sets_are_those_of_the_flags() {
    let sets = Numbers(13).sets();
    for (one, other) in pairs(&sets) {
        let (words, others) = (words_of(one), words_of(other));
        let (set, second) = (set_of(&words, one), set_of(&others, other));
        let (left, lacking) = (joined(one, other, BUT), joined(other, one, BUT));
        assert!(set.intersection(second).eq(joined(one, other, AND)));
        assert!(set.difference(second).eq(left.iter().copied()));
        let behind = |list: &[usize]| [list, &lacking].concat();
        assert!(set.union(second).eq(behind(&ones_of(one))));
        assert!(set.symmetric_difference(second).eq(behind(&left)));
        assert_eq!(set == second, one == other);
        let (mut words, mut others) = (words.clone(), others.clone());
        let lent = BitsMut::over(&mut words, one.len());
        assert_eq!(
            lent == BitsMut::over(&mut others, other.len()),
            one == other
        );
        let by_words = words.cmp(&others);
        let order = one.len().cmp(&other.len()).then(by_words);
        assert_eq!(
            (set.cmp(&second), set.partial_cmp(&second)),
            (order, Some(order))
        );
    }
}

/// Does a change to the words of flags, and compares what it leaves.
fn check(flags: &[bool], change: impl FnOnce(&mut BitsMut), wanted: impl Fn(usize) -> bool) {
    let mut words = words_of(flags);
    let mut set = BitsMut::over(&mut words, flags.len()).expect("words of a set");
    change(&mut set);
    assert_eq!(set.len(), flags.len());
    assert_eq!(words, words_of(&flags_by(flags.len(), wanted)));
}

#[test]
fn changes_of_positions_are_those_of_the_flags() {
    let mut numbers = Numbers(6);
    for flags in numbers.sets().iter().filter(|flags| !flags.is_empty()) {
        for _ in 0..20 {
            let bit = numbers.below(flags.len());
            let with = |at: usize| at == bit || flags[at];
            let without = |at: usize| at != bit && flags[at];
            check(flags, |set| set.insert(bit), with);
            check(flags, |set| set.set(bit, true), with);
            check(flags, |set| assert_eq!(set.put(bit), flags[bit]), with);
            check(flags, |set| set.remove(bit), without);
            check(flags, |set| assert_eq!(set.take(bit), flags[bit]), without);
            check(flags, |set| set.set(bit, false), without);
            let turned = |at: usize| (at == bit) != flags[at];
            check(flags, |set| set.toggle(bit), turned);
            let from = numbers.below(flags.len() + 70);
            let copied = |at: usize| has(flags, if at == bit { from } else { at });
            check(flags, |set| set.copy_bit(from, bit), copied);
            let is_in = has(flags, from);
            check(flags, |set| assert_eq!(set[from], is_in), |at| flags[at]);
        }
    }
}

#[test]
fn changes_of_many_positions_are_those_of_the_flags() {
    let mut numbers = Numbers(14);
    for flags in numbers.sets().iter().filter(|flags| !flags.is_empty()) {
        let length = flags.len();
        check(flags, |set| set.clear(), |_| false);
        for _ in 0..20 {
            let list = [(); 3].map(|()| numbers.below(length));
            let with = |at: usize| list.contains(&at) || flags[at];
            check(flags, |set| set.insert_all(&list), with);
            let without = |at: usize| !list.contains(&at) && flags[at];
            check(flags, |set| set.remove_all(&list), without);
            let (start, number) = (list[1], numbers.below(usize::MAX) as u64);
            let width = numbers.below(65).min(length - start);
            let stored = |at: usize| match (start..start + width).contains(&at) {
                true => number >> (at - start) & 1 == 1,
                false => flags[at],
            };
            check(flags, |set| set.store(start, width, number), stored);
            let words = words_of(flags);
            let loaded = (0..width).fold(0, |sum, i| sum | (flags[start + i] as u64) << i);
            assert_eq!(set_of(&words, flags).load(start, width), loaded);
            let (index, value) = (list[0] / BITS, numbers.below(usize::MAX) as Block);
            let is_in = |at: usize| value >> (at % BITS) & 1 == 1;
            let written = |at: usize| {
                if at / BITS == index {
                    is_in(at)
                } else {
                    flags[at]
                }
            };
            check(flags, |set| set.set_block(index, value), written);
            let count = numbers.below(length / 8 + 9);
            let bytes: Vec<u8> = (0..count).map(|_| numbers.below(256) as u8).collect();
            let byte_at = |at: usize| bytes.get(at / 8).copied().unwrap_or(0);
            let in_bytes = |at: usize| byte_at(at) >> (at % 8) & 1 == 1;
            check(flags, |set| set.assign_bytes(&bytes), in_bytes);
        }
    }
}

#[test]
fn changes_of_ranges_are_those_of_the_flags() {
    let mut numbers = Numbers(7);
    for flags in numbers.sets() {
        for _ in 0..20 {
            let (range, flags) = (numbers.range(flags.len()), &flags[..]);
            let part = || range.clone();
            let with = |at: usize| range.contains(&at) || flags[at];
            let without = |at: usize| !range.contains(&at) && flags[at];
            let turned = |at: usize| range.contains(&at) != flags[at];
            check(flags, |set| set.insert_range(part()), with);
            check(flags, |set| set.set_range(part(), true), with);
            check(flags, |set| set.remove_range(part()), without);
            check(flags, |set| set.set_range(part(), false), without);
            check(flags, |set| set.toggle_range(part()), turned);
        }
    }
}

#[test]
fn moves_are_those_of_the_flags() {
    let mut numbers = Numbers(15);
    for flags in numbers.sets() {
        for _ in 0..20 {
            let (by, flags) = (numbers.below(flags.len() + 70), &flags[..]);
            let below = |at: usize| at >= by && flags[at - by];
            check(flags, |set| set.shift_up(by), below);
            check(flags, |set| set.shift_down(by), |at| has(flags, at + by));
            let with_own = |at: usize| flags[at] || below(at);
            check(flags, |set| set.union_with_own_shift(by), with_own);
        }
        check(&flags, |set| set.shift_up(usize::MAX), |_| false);
        check(&flags, |set| set.shift_down(usize::MAX), |_| false);
    }
}

/// Whether a change that leaves these positions changes one of the flags.
fn is_changed(flags: &[bool], wanted: impl Fn(usize) -> bool) -> bool {
    (0..flags.len()).any(|at| wanted(at) != flags[at])
}

#[test]
fn joins_are_those_of_the_flags() {
    let sets = Numbers(8).sets();
    for (flags, other) in pairs(&sets) {
        let words = words_of(other);
        let second = set_of(&words, other);
        let by = |join: Join| move |at: usize| join(flags[at], has(other, at));
        let [adds, drops, takes] = [OR, AND, BUT].map(|join| is_changed(flags, by(join)));
        check(flags, |set| set.intersect_with(second), by(AND));
        check(flags, |set| set.difference_with(second), by(BUT));
        let intersect = |set: &mut BitsMut| assert_eq!(set.intersect_with_change(second), drops);
        check(flags, intersect, by(AND));
        let take = |set: &mut BitsMut| assert_eq!(set.difference_with_change(second), takes);
        check(flags, take, by(BUT));
        if other.len() <= flags.len() {
            check(flags, |set| set.union_with(second), by(OR));
            check(
                flags,
                |set| set.symmetric_difference_with(second),
                by(EITHER),
            );
            let add = |set: &mut BitsMut| assert_eq!(set.union_with_change(second), adds);
            check(flags, add, by(OR));
        }
    }
}

#[test]
fn joins_of_moved_sets_and_copies_are_those_of_the_flags() {
    let mut numbers = Numbers(16);
    let sets = numbers.sets();
    for (flags, other) in pairs(&sets) {
        let words = words_of(other);
        let second = set_of(&words, other);
        let up = numbers.below(flags.len() + 70);
        let moved = |at: usize| flags[at] || at >= up && has(other, at - up);
        check(flags, |set| set.union_with_shifted(second, up), moved);
        let range = numbers.range(other.len().min(flags.len()));
        let start = numbers.below(flags.len() - range.len() + 1);
        let place = start..start + range.len();
        let copied = |at: usize| match place.contains(&at) {
            true => other[range.start + at - start],
            false => flags[at],
        };
        check(
            flags,
            |set| set.copy_range(second, range.clone(), start),
            copied,
        );
    }
}

#[test]
fn sets_that_are_written_over_words_are_those_of_the_flags() {
    let mut numbers = Numbers(9);
    let sets = numbers.sets();
    for (one, other) in pairs(&sets) {
        let (words, others) = (words_of(one), words_of(other));
        let (first, second) = (set_of(&words, one), set_of(&others, other));
        let (longer, shorter) = (one.len().max(other.len()), one.len().min(other.len()));
        let by = |join: Join| move |at: usize| join(has(one, at), has(other, at));
        let any = numbers.flags(longer, 4);
        check(&any, |set| set.union_of(first, second), by(OR));
        check(
            &any,
            |set| set.symmetric_difference_of(first, second),
            by(EITHER),
        );
        check(
            &any[..shorter],
            |set| set.intersection_of(first, second),
            by(AND),
        );
        check(
            &any[..one.len()],
            |set| set.difference_of(first, second),
            by(BUT),
        );
    }
}

#[test]
fn unions_with_differences_are_those_of_the_flags() {
    let mut numbers = Numbers(17);
    let sets = numbers.sets();
    for (flags, gens) in pairs(&sets).filter(|(one, gens)| gens.len() <= one.len()) {
        let length = numbers.below(300);
        let kills = numbers.flags(length, 4);
        let (words, others) = (words_of(gens), words_of(&kills));
        let (second, third) = (set_of(&words, gens), set_of(&others, &kills));
        let wanted = |at: usize| flags[at] || has(gens, at) && !has(&kills, at);
        let adds = is_changed(flags, wanted);
        let add = |set: &mut BitsMut| assert_eq!(set.union_with_difference(second, third), adds);
        check(flags, add, wanted);
    }
}

#[test]
fn sets_are_printed_by_their_positions() {
    let mut words = [9, 2, 0, 0];
    let set = BitsMut::over(&mut words, 70).unwrap();
    assert_eq!(
        format!("{set:?}"),
        "BitsMut { length: 70, ones: {0, 3, 65} }"
    );
    assert_eq!(
        format!("{:?}", set.as_bits()),
        "Bits { length: 70, ones: {0, 3, 65} }"
    );
    let short = Bits::over(&[9, 0, 0, 0], 5).unwrap();
    assert_eq!(
        (short.to_string(), format!("{short:#b}")),
        ("10010".to_string(), "0b10010".to_string())
    );
    for flags in Numbers(14).sets() {
        let words = words_of(&flags);
        let digits = flags.iter().map(|flag| if *flag { '1' } else { '0' });
        let text: String = digits.collect();
        let set = set_of(&words, &flags);
        assert_eq!(format!("{set} {set:#}"), format!("{text} 0b{text}"));
        assert_eq!(format!("{set:b} {set:#b}"), format!("{text} 0b{text}"));
    }
}

#[test]
fn a_set_lends_its_words() {
    let mut numbers = Numbers(10);
    for flags in numbers.sets() {
        let words = words_of(&flags);
        let mut set = FixedBitSet::from(set_of(&words, &flags));
        assert_eq!(
            (set.len(), set.as_bits()),
            (flags.len(), set_of(&words, &flags))
        );
        set.as_bits_mut().toggle_range(..);
        assert!(set.ones().eq(zeroes_of(&flags)) && set.as_bits_mut().len() == flags.len());
        let (mut copy, copied) = (set.clone(), set.as_bits());
        assert!(
            copy.as_bits_mut()
                == BitsMut::over(
                    &mut words_of(&flags_by(flags.len(), |at| !flags[at])),
                    flags.len()
                )
                .unwrap()
        );
        let made = FixedBitSet::from(copied);
        assert!(made == set);
    }
}
