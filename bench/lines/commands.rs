//! The commands over sixteen sets.

use crate::form;
use crate::replies::{Reply, push_each};
use crate::words::{Span, Words, split};
use fixedbitset::FixedBitSet;
use std::ops::Range;

/// The greatest length that a command may ask for.
const LIMIT: usize = 1_000_000;

/// Why a line is refused.
pub enum Fault {
    NoSet,
    Position,
    Range,
    Greatest,
    Limit,
    Json,
    NotACommand,
}

type Outcome = Result<(), Fault>;

/// The sets, and the output so far.
#[derive(Default)]
pub struct Machine {
    sets: [FixedBitSet; 16],
    output: Vec<u8>,
}

impl Machine {
    pub fn output(&self) -> &[u8] {
        &self.output
    }

    /// Puts the line's reply behind the output.
    pub fn answer(&mut self, line: &[u8]) {
        let (name, args) = split(line);
        if let Err(fault) = self.carry_out(name, args) {
            self.output.extend_from_slice(match fault {
                Fault::NoSet => b"F1 no such set",
                Fault::Position => b"F2 position not below the length",
                Fault::Range => b"F3 range not valid",
                Fault::Greatest => b"F4 position too great",
                Fault::Json => b"F5 not JSON",
                Fault::Limit => b"F7 length above the limit",
                Fault::NotACommand => b"F8 not a command",
            });
        }
        self.output.push(b'\n');
    }

    fn carry_out(&mut self, name: &[u8], args: Words<'_>) -> Outcome {
        match name {
            b"ones" => self.ones(args),
            b"text" => self.on_set(args, |set| set.to_string()),
            b"extend" => self.extend(args),
            b"insert" => self.insert(args),
            b"as_slice" => self.as_slice(args),
            b"contains" => self.contains(args),
            b"to_value" => self.to_value(args),
            b"count_ones" => self.count_ones(args),
            b"from_value" => self.from_value(args),
            b"union_with" => self.union_with(args),
            b"with_capacity" => self.with_capacity(args),
            _ => Err(Fault::NotACommand),
        }
    }

    fn set(&mut self, index: usize) -> Result<&mut FixedBitSet, Fault> {
        self.sets.get_mut(index).ok_or(Fault::NoSet)
    }

    fn reply(&mut self, reply: impl Reply) -> Outcome {
        reply.push_to(&mut self.output);
        Ok(())
    }

    fn on_set<R: Reply>(
        &mut self,
        mut args: Words<'_>,
        call: impl FnOnce(&mut FixedBitSet) -> R,
    ) -> Outcome {
        let set = args.number()?;
        args.end()?;
        let reply = call(self.set(set)?);
        self.reply(reply)
    }

    fn with_capacity(&mut self, mut args: Words<'_>) -> Outcome {
        let (set, bits) = (args.number()?, args.number()?);
        args.end()?;
        let set = self.set(set)?;
        check_limit(bits)?;
        *set = FixedBitSet::with_capacity(bits);
        self.reply(())
    }

    fn count_ones(&mut self, mut args: Words<'_>) -> Outcome {
        let (set, span) = (args.number()?, args.range()?);
        args.end()?;
        let set = self.set(set)?;
        let count = set.count_ones(range_in(set, span)?);
        self.reply(count)
    }

    fn insert(&mut self, mut args: Words<'_>) -> Outcome {
        let (set, bit) = (args.number()?, args.number()?);
        args.end()?;
        let set = self.set(set)?;
        check_position(set, bit)?;
        set.insert(bit);
        self.reply(())
    }

    fn contains(&mut self, mut args: Words<'_>) -> Outcome {
        let (set, bit) = (args.number()?, args.number()?);
        args.end()?;
        let reply = self.set(set)?.contains(bit);
        self.reply(reply)
    }

    fn extend(&mut self, mut args: Words<'_>) -> Outcome {
        let (set, items) = (args.number()?, args.numbers()?);
        let set = self.set(set)?;
        items.iter().try_for_each(|item| check_item(*item))?;
        set.extend(items);
        self.reply(())
    }

    /// It answers one fault for all texts that are not in the form, where `bits` says which.
    fn from_value(&mut self, mut args: Words<'_>) -> Outcome {
        let set = args.number()?;
        let text = args.text()?;
        let set = self.set(set)?;
        let (length, data) = form::read(text).ok_or(Fault::Json)?;
        check_limit(length)?;
        *set = form::set_of(length, &data);
        self.reply(())
    }

    fn union_with(&mut self, mut args: Words<'_>) -> Outcome {
        let (a, b) = (args.number()?, args.number()?);
        args.end()?;
        if a.max(b) >= self.sets.len() {
            return Err(Fault::NoSet);
        }
        match self.sets.get_disjoint_mut([a, b]) {
            Ok([a, b]) => a.union_with(b),
            Err(_) => {
                let copy = self.sets[b].clone();
                self.sets[a].union_with(&copy);
            }
        }
        self.reply(())
    }

    fn ones(&mut self, mut args: Words<'_>) -> Outcome {
        let (set, ends) = (args.number()?, args.ends()?);
        args.end()?;
        let mut walk = self.sets.get(set).ok_or(Fault::NoSet)?.ones();
        push_each(items_of(&mut walk, ends), b' ', &mut self.output);
        Ok(())
    }

    fn as_slice(&mut self, mut args: Words<'_>) -> Outcome {
        let set = args.number()?;
        args.end()?;
        let set = self.sets.get(set).ok_or(Fault::NoSet)?;
        if set.is_empty() {
            self.output.push(b'-');
        }
        push_each(set.as_slice().iter().copied(), b' ', &mut self.output);
        Ok(())
    }

    fn to_value(&mut self, mut args: Words<'_>) -> Outcome {
        let set = args.number()?;
        args.end()?;
        let set = self.sets.get(set).ok_or(Fault::NoSet)?;
        self.output.extend_from_slice(b"{\"data\":[");
        let bytes = set.as_slice().iter().flat_map(|word| word.to_le_bytes());
        push_each(bytes.map(usize::from), b',', &mut self.output);
        self.output.extend_from_slice(b"],\"length\":");
        set.len().push_to(&mut self.output);
        self.output.push(b'}');
        Ok(())
    }
}

/// One call of the walk for each letter.
fn items_of(
    walk: &mut impl DoubleEndedIterator<Item = usize>,
    ends: &[u8],
) -> impl Iterator<Item = Option<usize>> {
    ends.iter().map(|end| match end {
        b'f' => walk.next(),
        _ => walk.next_back(),
    })
}

fn check_position(set: &FixedBitSet, bit: usize) -> Outcome {
    if bit < set.len() {
        Ok(())
    } else {
        Err(Fault::Position)
    }
}

fn check_limit(bits: usize) -> Outcome {
    if bits <= LIMIT {
        Ok(())
    } else {
        Err(Fault::Limit)
    }
}

fn check_item(bit: usize) -> Outcome {
    if bit == usize::MAX {
        Err(Fault::Greatest)
    } else if bit < LIMIT {
        Ok(())
    } else {
        Err(Fault::Limit)
    }
}

/// The range from a line, where it is valid for the set.
fn range_in(set: &FixedBitSet, (start, end): Span) -> Result<Range<usize>, Fault> {
    let range = start.unwrap_or(0)..end.unwrap_or(set.len());
    if range.start <= range.end && range.end <= set.len() {
        Ok(range)
    } else {
        Err(Fault::Range)
    }
}
