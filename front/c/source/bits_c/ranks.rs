// Made by front/erase from crates/bits_c/src/ranks.rt: change that, and not this.
//! How many positions stand below a given one, and which is the k-th: by a directory of the set's
//! words, which the caller keeps next to them.
//!
//! One call writes the directory, and the struct that the others take. While that is used, neither
//! the words nor the directory may change.

use crate::bits_c::structs::Ranks;
use crate::bits_c::{NONE, bits_words};
use crate::proved::bitlanes::Steps;
use crate::proved::bitranks::directory;
use crate::proved::fixedbitset::views::Bits;

/// Returns how many entries the directory of a set of this length has: one for each eight words,
/// rounded up.
pub fn bits_ranks_entries(length: usize) -> usize {
    directory::entries(bits_words(length))
}

// Writes the directory of the set's words where it has as many entries as they need, and returns
// whether it has. It stands apart since its `&mut` ends with it: of one that goes into the ranks no
// clause says how a call leaves it.
#[inline(always)]
fn write_directory(set: &Bits<'_>, directory: &mut [usize]) -> bool {
    if directory.len() == bits_ranks_entries(set.length) {
        directory::fill(set.words, directory, &mut Steps::new());
        true
    } else {
        false
    }
}

/// Writes the directory of the words of the set to `directory`, initializes the whole of `ranks`,
/// and returns `true`. If `entries` is not `bits_ranks_entries` of the length of the set, returns
/// `false`: the ranks are then the ranks of no set, and the directory is unchanged.
pub fn bits_ranks_fill<'a>(
    ranks: &mut Ranks<'a>,
    set: &Bits<'a>,
    directory: &'a mut [usize],
) -> bool {
    if write_directory(set, directory) {
        *ranks = Ranks {
            words: set.words,
            length: set.length,
            directory,
        };
        true
    } else {
        *ranks = Ranks {
            words: &[],
            length: 0,
            directory: &[],
        };
        false
    }
}

/// Returns the rank: how many positions below this position are set. For a position past the length
/// these are all positions of the set.
pub fn bits_rank(ranks: &Ranks<'_>, position: usize) -> usize {
    directory::rank(ranks.words, ranks.directory, position, &mut Steps::new())
}

/// Returns the position that is set and has exactly `index` positions that are set below it, or
/// `NONE`. The first position has index 0.
pub fn bits_select(ranks: &Ranks<'_>, index: usize) -> usize {
    directory::select(ranks.words, ranks.directory, index, &mut Steps::new()).unwrap_or(NONE)
}
