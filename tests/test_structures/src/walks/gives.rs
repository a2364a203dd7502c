//! A walk beside the slow list of its items.

use std::process::Abort;

// No walk promises an item, and none has more left than it says.
fn is_within((lower, upper): (usize, Option<usize>), left: usize) -> bool {
    lower == 0 && matches!(upper, Some(most) if most >= left)
}

/// The walk gives these items, and then `None` for good. The ends are called in turn, `true` is the front.
pub fn assert_gives<I: DoubleEndedIterator<Item = usize>>(
    rt: &impl Abort,
    mut walk: I,
    items: &[usize],
    ends: [bool; 2],
) {
    let (mut start, mut end) = (0, items.len());
    for step in 0..items.len() {
        assert!(rt; is_within(walk.size_hint(), end - start));
        let is_given = if ends[step % 2] {
            start += 1;
            matches!(walk.next(), Some(item) if item == items[start - 1])
        } else {
            end -= 1;
            matches!(walk.next_back(), Some(item) if item == items[end])
        };
        assert!(rt; is_given, "item {step} of {}", items.len());
    }
    for _ in 0..3 {
        assert!(rt; is_within(walk.size_hint(), 0));
        assert!(rt; walk.next().is_none() && walk.next_back().is_none());
    }
}

/// The same of a walk that is no iterator: `take` gives its first item left, or the last one for `false`.
pub fn assert_takes(
    rt: &impl Abort,
    mut take: impl FnMut(bool) -> Option<usize>,
    items: &[usize],
    ends: [bool; 2],
) {
    let (mut start, mut end) = (0, items.len());
    for step in 0..items.len() {
        let is_front = ends[step % 2];
        let wanted = if is_front {
            start += 1;
            items[start - 1]
        } else {
            end -= 1;
            items[end]
        };
        let given = take(is_front);
        assert_eq!(rt; given, Some(wanted), "item {step} of {}", items.len());
    }
    for _ in 0..3 {
        let (first, last) = (take(true), take(false));
        assert!(rt; first.is_none() && last.is_none());
    }
}

/// From the front alone, from the back alone, and from both in turn.
pub const ORDERS: [[bool; 2]; 4] = [[true, true], [false, false], [true, false], [false, true]];
