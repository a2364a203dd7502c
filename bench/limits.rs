//! Times calls of a set beside what the machine can do at most: loops that only read, write or count as many words.

use crate::carries;
use crate::sets::{self, Rounds};
use crate::turns::{said, turns};
use std::arch::asm;
use std::hint::black_box;
use std::time::Instant;

/// How many positions the sets have. The loops leave out the last eight bytes of them, which are not a whole turn.
const BITS: usize = 1_000_000;

/// How many batches of each call are timed, in turn with those of its limit, and how many calls each has.
const BATCHES: usize = 200;
const ROUNDS: usize = 30;

/// A loop over two blocks, or over the first of them alone.
type Loop = fn(&mut [u64], &[u64]);

/// A loop with these instructions for each vector: `\at` bytes from `{a}`, and from `{b}` where it goes over both. A turn goes
/// over 64 bytes. Where `AHEAD` is not 0 each turn asks for what lies so many bytes further on, in the blocks that it reads.
macro_rules! over_vectors {
    ($name:ident, $both:literal, $narrow:literal, $wide:literal) => {
        fn $name<const AHEAD: usize>(a: &mut [u64], b: &[u64]) {
            let turns = a.len().min(b.len()) / 8;
            assert!(
                turns > 0 && a.as_ptr().align_offset(32) == 0 && b.as_ptr().align_offset(32) == 0
            );
            unsafe {
                asm!("2:", ".if {ahead}", "prefetcht0 [{a} + {ahead}]",
                    ".if {both}", "prefetcht0 [{b} + {ahead}]", ".endif", ".endif",
                    ".if {wide}", ".irp at, 0, 32", $wide, ".endr",
                    ".else", ".irp at, 0, 16, 32, 48", $narrow, ".endr", ".endif",
                    "add {a}, 64", "add {b}, 64", "dec {turns}", "jnz 2b",
                    ahead = const AHEAD, both = const $both as usize, wide = const cfg!(target_feature = "avx2") as usize,
                    a = inout(reg) a.as_mut_ptr() => _, b = inout(reg) b.as_ptr() => _, turns = inout(reg) turns => _,
                    out("rax") _, out("xmm0") _, options(nostack));
            }
        }
    };
}

over_vectors!(
    read,
    false,
    "movdqa xmm0, [{a} + \\at]",
    "vmovdqa ymm0, [{a} + \\at]"
);
over_vectors!(
    read_both,
    true,
    "movdqa xmm0, [{a} + \\at]\nmovdqa xmm0, [{b} + \\at]",
    "vmovdqa ymm0, [{a} + \\at]\nvmovdqa ymm0, [{b} + \\at]"
);
over_vectors!(
    write,
    false,
    "movdqa [{a} + \\at], xmm0",
    "vmovdqa [{a} + \\at], ymm0"
);
over_vectors!(
    change,
    false,
    "movdqa xmm0, [{a} + \\at]\nmovdqa [{a} + \\at], xmm0",
    "vmovdqa ymm0, [{a} + \\at]\nvmovdqa [{a} + \\at], ymm0"
);
over_vectors!(
    join,
    true,
    "movdqa xmm0, [{a} + \\at]\npor xmm0, [{b} + \\at]\nmovdqa [{a} + \\at], xmm0",
    "vmovdqa ymm0, [{a} + \\at]\nvpor ymm0, ymm0, [{b} + \\at]\nvmovdqa [{a} + \\at], ymm0"
);
over_vectors!(
    count,
    false,
    ".irp word, 0, 8\nxor eax, eax\npopcnt rax, [{a} + \\at + \\word]\n.endr",
    ".irp word, 0, 8, 16, 24\nxor eax, eax\npopcnt rax, [{a} + \\at + \\word]\n.endr"
);
over_vectors!(
    count_both,
    true,
    ".irp word, 0, 8\nmov rax, [{a} + \\at + \\word]\nand rax, [{b} + \\at + \\word]\npopcnt rax, rax\n.endr",
    ".irp word, 0, 8, 16, 24\nmov rax, [{a} + \\at + \\word]\nand rax, [{b} + \\at + \\word]\npopcnt rax, rax\n.endr"
);

/// The bits of the first block, added by carries.
fn add<const AHEAD: usize>(a: &mut [u64], _: &[u64]) {
    black_box(carries::count::<AHEAD>(a));
}

/// The bits that both blocks have, added by carries.
fn add_both<const AHEAD: usize>(a: &mut [u64], b: &[u64]) {
    black_box(carries::count_both::<AHEAD>(a, b));
}

/// What the C library does.
fn fill(a: &mut [u64], _: &[u64]) {
    a.fill(u64::MAX);
    black_box(a);
}

/// What a call has to do at least, loops that do no more, and the calls.
struct Limit {
    work: &'static str,
    loops: &'static [Loop],
    calls: &'static [(&'static str, Rounds)],
}

const AHEAD: usize = 512;

const LIMITS: [Limit; 7] = [
    Limit {
        work: "reads a set",
        loops: &[read::<0>, read::<AHEAD>],
        calls: &[
            ("maximum, of the first 64", sets::MAXIMUM),
            ("is_clear, of no position", sets::IS_CLEAR),
        ],
    },
    Limit {
        work: "reads two sets",
        loops: &[read_both::<0>, read_both::<AHEAD>],
        calls: &[
            ("is_disjoint", sets::IS_DISJOINT),
            ("is_subset", sets::IS_SUBSET),
            ("==, of equal sets", sets::EQUAL),
        ],
    },
    Limit {
        work: "writes a set",
        loops: &[write::<0>, fill],
        calls: &[("insert_range(..)", sets::INSERT_RANGE)],
    },
    Limit {
        work: "reads a set and writes it",
        loops: &[change::<0>, change::<AHEAD>],
        calls: &[("toggle_range(..)", sets::TOGGLE_RANGE)],
    },
    Limit {
        work: "reads two sets and writes one",
        loops: &[join::<0>, join::<AHEAD>],
        calls: &[
            ("union_with", sets::UNION_WITH),
            ("intersect_with", sets::INTERSECT_WITH),
            ("difference_with", sets::DIFFERENCE_WITH),
            ("symmetric_difference_with", sets::SYMMETRIC_DIFFERENCE_WITH),
        ],
    },
    Limit {
        work: "counts the bits of a set",
        loops: &[count::<0>, count::<AHEAD>, add::<0>, add::<AHEAD>],
        calls: &[
            ("count_ones(..)", sets::COUNT_ONES),
            ("count_zeroes(..)", sets::COUNT_ZEROES),
        ],
    },
    Limit {
        work: "joins two sets and counts",
        loops: &[
            count_both::<0>,
            count_both::<AHEAD>,
            add_both::<0>,
            add_both::<AHEAD>,
        ],
        calls: &[
            ("union_count", sets::UNION_COUNT),
            ("intersection_count", sets::INTERSECTION_COUNT),
            ("difference_count", sets::DIFFERENCE_COUNT),
            (
                "symmetric_difference_count",
                sets::SYMMETRIC_DIFFERENCE_COUNT,
            ),
        ],
    },
];

fn nanoseconds(run: impl FnOnce()) -> f64 {
    let start = Instant::now();
    run();
    start.elapsed().as_nanos() as f64 / ROUNDS as f64
}

/// The least nanoseconds of the loops, and of a call.
fn least_times(loops: &[Loop], call: Rounds) -> [f64; 2] {
    let mut changed = vec![0; BITS / 64];
    let other = vec![0; BITS / 64];
    let [mut limit, mut none, mut all] = [f64::INFINITY; 3];
    for () in turns(BATCHES) {
        for run in loops {
            limit = limit.min(nanoseconds(|| {
                (0..ROUNDS).for_each(|_| run(&mut changed, &other));
            }));
        }
        for (time, rounds) in [(&mut none, 0), (&mut all, ROUNDS)] {
            *time = time.min(nanoseconds(|| {
                black_box(call(black_box(BITS), rounds));
            }));
        }
    }
    [limit, all - none]
}

/// Prints the rows of limits.csv, but for the processor, and then what is to be said of them.
pub fn print() {
    carries::try_out();
    for Limit { work, loops, calls } in LIMITS {
        for (name, call) in calls {
            let [limit, ours] = least_times(loops, *call);
            println!("\"{name}\",\"{work}\",{limit:.1},{ours:.1}");
        }
    }
    println!("# {}", said());
}
