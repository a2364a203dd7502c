//! What the tests share: an assertion, the answer of a call that succeeds, and the sets that
//! examples begin with. Each is proved here once, and then costs a test one call.

ghost use Rattle.std.specs.Prelude.{◌≡◌, IsTrue, Ok};
ghost use Rattle.std.specs.Iterator.{IsFinite};
ghost use Rattle.fixedbitset.specs.Bits as model;

use fixedbitset::FixedBitSet;
use std::alloc::Global;
use std::fmt::Debug;
use std::process::Abort;

/// The assertion that this holds. What a test then builds on is `known`: a fact that none needs
/// costs each proof time.
pub fn holds(rt: &impl Abort, condition: bool) {
    assert!(*rt; condition);
}

/// The assertion that this holds, so that the rest of a test may build on it.
pub fn known(rt: &impl Abort, condition: bool)
    ensures { IsTrue condition }
{
    assert!(*rt; condition);
}

/// The assertion that these are equal, so that the rest of a test may build on it.
pub fn known_equal<T: PartialEq + Debug + Drop>(rt: &impl Abort, left: T, right: T)
    ensures { IsTrue (T.eq left right) }
{
    assert_eq!(*rt; left, right);
}

/// The assertion that these are equal.
pub fn equal<T: PartialEq + Debug + Drop>(rt: &impl Abort, left: T, right: T) {
    assert_eq!(*rt; left, right);
}

/// The assertion that a walk gives these items and no more.
pub fn gives<T: PartialEq + Copy + Drop, I: Iterator<Item = T>>(
    rt: &impl Abort,
    walk: I,
    items: &[T],
)
    requires can { I.can_next walk }
    requires finite { IsFinite (I.remaining walk) }
{
    assert!(*rt; walk.eq(items.iter().copied()));
}

/// What a call answers that must succeed.
pub fn ok<T, E: Debug>(rt: &impl Abort, answer: Result<T, E>) -> T
    ensures { answer ≡ Ok result }
{
    answer.expect(rt, "the call succeeds")
}

/// The set of these positions.
pub fn set_of(rt: &impl Abort, alloc: Global, positions: &[usize]) -> FixedBitSet {
    ok(rt, FixedBitSet::from_iter(alloc, positions.iter().copied()))
}

/// The set of this length and no positions.
#[tactic(auto, using(fixedbitset::specs::BitsFacts::facts))]
pub fn cleared(rt: &impl Abort, alloc: Global, bits: usize) -> FixedBitSet
    ensures empty { result ≡ model.empty bits }
    ensures length { result.length ≡ bits }
{
    ok(rt, FixedBitSet::with_capacity(alloc, bits))
}
