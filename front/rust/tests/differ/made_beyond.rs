// Made by front/calls from crates/fixedbitset/src and front/calls.toml: change those, and not this.
//! The calls beyond upstream's as a table, one row for each.
use super::calls::{
    all, mixed, text,
    Call::{self, Asks, Changes},
};

#[rustfmt::skip]
pub const MADE_BEYOND: &[(&str, Call)] = &[
    ("take", Asks(|s, _, n| text(s.take(n.p)))),
    ("take at the length", Asks(|s, _, _| text(s.take(s.len())))),
    ("set_block", Changes(|s, _, n| s.set_block(n.p % 6, n.q.wrapping_mul(0x9e37_79b9_7f4a_7c15)))),
    ("insert_all", Changes(|s, _, n| s.insert_all(&[n.p, n.q % 64, n.q]))),
    ("remove_all", Changes(|s, _, n| s.remove_all(&[n.p, n.q % 64, n.q]))),
    ("next_one", Asks(|s, _, n| text(s.next_one(n.p)))),
    ("next_zero", Asks(|s, _, n| text(s.next_zero(n.p)))),
    ("nth_one", Asks(|s, _, n| text(s.nth_one(n.q % 8)))),
    ("first_gap", Asks(|s, _, n| text(s.first_gap(n.q % 8, n.p)))),
    ("first_aligned_gap", Asks(|s, _, n| text(s.first_aligned_gap(n.q % 5, n.p % 9, n.p..n.q)))),
    ("last_gap", Asks(|s, _, n| text(s.last_gap(n.q % 8, n.p)))),
    ("previous_one", Asks(|s, _, n| text(s.previous_one(n.p)))),
    ("previous_zero", Asks(|s, _, n| text(s.previous_zero(n.p)))),
    ("union_with_change", Asks(|s, t, _| text(s.union_with_change(t)))),
    ("symmetric_difference_with_change", Asks(|s, t, _| text(s.symmetric_difference_with_change(t)))),
    ("intersect_with_change", Asks(|s, t, _| text(s.intersect_with_change(t)))),
    ("difference_with_change", Asks(|s, t, _| text(s.difference_with_change(t)))),
    ("first_lacking", Asks(|s, t, _| text(s.first_lacking(t)))),
    ("next_common", Asks(|s, t, n| text(s.next_common(t, n.p)))),
    ("shift_up", Changes(|s, _, n| s.shift_up(n.p))),
    ("shift_down", Changes(|s, _, n| s.shift_down(n.p))),
    ("union_with_shifted", Changes(|s, t, n| s.union_with_shifted(t, n.p))),
    ("union_with_own_shift", Changes(|s, _, n| s.union_with_own_shift(n.p))),
    ("copy_range", Changes(|s, t, n| s.copy_range(t, n.p..n.q, n.q % 64))),
    ("load", Asks(|s, _, n| text(s.load(n.p, n.q % 65)))),
    ("store", Changes(|s, _, n| s.store(n.p, n.q % 65, (n.q as u64).wrapping_mul(0x9e37_79b9_7f4a_7c15)))),
    ("ones_in", Asks(|s, _, n| all(s.ones_in(n.p..n.q)) + &mixed(s.ones_in(n.p..n.q), n))),
    ("zeroes_in", Asks(|s, _, n| all(s.zeroes_in(n.p..n.q)) + &mixed(s.zeroes_in(n.p..n.q), n))),
    ("grow_and_put", Asks(|s, _, n| text(s.grow_and_put(n.p)))),
    ("pop_first", Asks(|s, _, _| text(s.pop_first()))),
    ("pop_last", Asks(|s, _, _| text(s.pop_last()))),
    ("truncate", Changes(|s, _, n| s.truncate(n.p))),
    ("resize", Changes(|s, _, n| s.resize(n.p, n.flag))),
    ("append", Changes(|s, t, _| s.append(t))),
];
