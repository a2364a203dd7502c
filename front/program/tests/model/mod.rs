//! A slow model of the program `bits`, made after docs/COMMANDS.md: a set is one flag for each position below its length.
#![allow(dead_code)] // (each test takes a part of it)
pub mod chance;
pub mod check;
pub mod json;
pub mod lines;

use lines::Line;
use std::cmp::Ordering;
use std::collections::{BTreeSet, VecDeque};

/// A flag for each position below the length.
pub type Set = Vec<bool>;

const LIMIT: u64 = 1_000_000;
const GREATEST: u64 = u64::MAX;
const NO_SET: &str = "F1 no such set";
const NO_POSITION: &str = "F2 position not below the length";
const NOT_VALID: &str = "F3 range not valid";
const TOO_GREAT: &str = "F4 position too great";
const ABOVE_LIMIT: &str = "F7 length above the limit";
const NOT_A_COMMAND: &str = "F8 not a command";

/// The reply, or the refusal.
type Reply = Result<String, String>;

/// The lines of an input: it is cut at each byte 10, and behind the last one stands a line only where something stands.
pub fn lines_of(input: &[u8]) -> Vec<&[u8]> {
    let mut lines: Vec<&[u8]> = input.split(|it| *it == b'\n').collect();
    if lines.last().is_some_and(|it| it.is_empty()) {
        lines.pop();
    }
    lines
}

/// The whole output for an input.
pub fn output_of(input: &[u8]) -> Vec<u8> {
    let mut model = Model::default();
    let replies = lines_of(input)
        .into_iter()
        .map(|line| model.reply(line) + "\n");
    replies.collect::<String>().into_bytes()
}

/// The commands that no line carried out, and how each refusal begins that no line has met, of those that memory does not decide.
pub struct Unseen {
    pub names: BTreeSet<&'static str>,
    pub refusals: BTreeSet<String>,
}

impl Default for Unseen {
    fn default() -> Unseen {
        let names = lines::FORMS.iter().map(|it| it.0).collect();
        let faults = (1..=8).map(|it| format!("F5 J{it}"));
        let refusals = [1, 2, 3, 4, 7, 8]
            .map(|it| format!("F{it} "))
            .into_iter()
            .chain(faults)
            .collect();
        Unseen { names, refusals }
    }
}

impl Unseen {
    pub fn see(&mut self, line: &[u8], reply: &str) {
        self.refusals.retain(|it| !reply.starts_with(it));
        if let (false, Some(line)) = (reply.starts_with('F'), lines::read(line)) {
            self.names.remove(line.name);
        }
    }

    pub fn assert_none(&self) {
        assert!(
            self.names.is_empty(),
            "no line carries out {:?}",
            self.names
        );
        assert!(
            self.refusals.is_empty(),
            "no line is refused with {:?}",
            self.refusals
        );
    }
}

/// Sixteen sets, at first of length 0.
#[derive(Default)]
pub struct Model {
    pub sets: [Set; 16],
}

impl Model {
    /// Carries out a line.
    pub fn reply(&mut self, line: &[u8]) -> String {
        let Some(line) = lines::read(line) else {
            return NOT_A_COMMAND.into();
        };
        self.carried_out(&line).unwrap_or_else(|refusal| refusal)
    }

    /// The groups of docs/COMMANDS.md.
    fn carried_out(&mut self, line: &Line) -> Reply {
        need(line.sets.iter().all(|it| *it < 16), NO_SET)?;
        let numbers: Vec<usize> = line.sets.iter().map(|it| *it as usize).collect();
        let sets: Vec<Set> = numbers.iter().map(|it| self.sets[*it].clone()).collect();
        if let Some(reply) = told(line, &sets[0]) {
            return Ok(reply);
        }
        if let Some(reply) = in_range(line, &mut self.sets[numbers[0]]) {
            return reply;
        }
        if let Some(reply) = sets.get(1).and_then(|it| compared(line.name, &sets[0], it)) {
            return Ok(reply);
        }
        if let Some(parts) = walked(line.name, &sets) {
            if line.name == "into_ones" {
                self.sets[numbers[0]] = Set::new();
            }
            return Ok(calls(line.ends, parts));
        }
        if let Some(made) = made(line, &sets) {
            self.sets[numbers[0]] = made?;
            return Ok("ok".into());
        }
        changed(line, &mut self.sets[numbers[0]])
    }
}

fn need(holds: bool, refusal: &str) -> Result<(), String> {
    if holds {
        Ok(())
    } else {
        Err(refusal.into())
    }
}

fn positions(set: &Set) -> Vec<usize> {
    (0..set.len()).filter(|it| set[*it]).collect()
}

fn count(set: &[bool]) -> usize {
    set.iter().filter(|it| **it).count()
}

/// The words of a set, or its bytes where the width is 8: as many as its words have.
fn words(set: &Set, width: usize) -> Vec<u64> {
    let word = |at: usize| {
        (0..width)
            .map(|bit| u64::from(has(set, at * width + bit)) << bit)
            .sum()
    };
    (0..set.len().div_ceil(64) * (64 / width))
        .map(word)
        .collect()
}

/// The set of this length of words, or of bytes where the width is 8. Words that are missing are 0.
fn of_words(length: usize, words: &[u64], width: usize) -> Set {
    let word = |at: usize| words.get(at).copied().unwrap_or(0);
    (0..length)
        .map(|it| word(it / width) >> (it % width) & 1 == 1)
        .collect()
}

fn has(set: &Set, position: usize) -> bool {
    set.get(position).copied().unwrap_or(false)
}

/// A set of this length, by what stands at each position of two others.
fn joined(length: usize, a: &Set, b: &Set, join: fn(bool, bool) -> bool) -> Set {
    (0..length).map(|it| join(has(a, it), has(b, it))).collect()
}

fn spaced<T: ToString>(items: impl IntoIterator<Item = T>) -> String {
    items
        .into_iter()
        .map(|it| it.to_string())
        .collect::<Vec<_>>()
        .join(" ")
}

fn or_none(found: Option<usize>) -> String {
    found.map_or("none".into(), |it| it.to_string())
}

/// Looking at a set.
fn told(line: &Line, set: &Set) -> Option<String> {
    let found = match line.name {
        "len" => set.len().to_string(),
        "is_empty" => set.is_empty().to_string(),
        "is_clear" => (!set.contains(&true)).to_string(),
        "is_full" => (!set.contains(&false)).to_string(),
        "minimum" => or_none(set.iter().position(|it| *it)),
        "maximum" => or_none(set.iter().rposition(|it| *it)),
        "as_slice" if set.is_empty() => "-".into(),
        "as_slice" => spaced(words(set, 64)),
        "contains" | "index" => {
            (usize::try_from(line.numbers[0]).is_ok_and(|it| has(set, it))).to_string()
        }
        "text" => set.iter().map(|it| if *it { '1' } else { '0' }).collect(),
        "to_value" => format!(
            "{{\"data\":[{}],\"length\":{}}}",
            spaced(words(set, 8)).replace(' ', ","),
            set.len()
        ),
        _ => return None,
    };
    Some(found)
}

/// A range of a set.
fn in_range(line: &Line, set: &mut Set) -> Option<Reply> {
    if !lines::FORMS
        .iter()
        .any(|it| it.0 == line.name && it.1.starts_with("k r"))
    {
        return None;
    }
    let (start, end) = (
        line.start.unwrap_or(0),
        line.end.unwrap_or(set.len() as u64),
    );
    let is_valid = start <= end && end <= set.len() as u64;
    if line.name == "range_is_valid" {
        return Some(Ok(is_valid.to_string()));
    }
    if !is_valid {
        return Some(Err(NOT_VALID.into()));
    }
    let part = &mut set[start as usize..end as usize];
    match line.name {
        "count_ones" => return Some(Ok(count(part).to_string())),
        "count_zeroes" => return Some(Ok((part.len() - count(part)).to_string())),
        "contains_all_in_range" => return Some(Ok((!part.contains(&false)).to_string())),
        "contains_any_in_range" => return Some(Ok(part.contains(&true).to_string())),
        "toggle_range" => part.iter_mut().for_each(|it| *it = !*it),
        "set_range" => part.fill(line.flag),
        name => part.fill(name == "insert_range"),
    }
    Some(Ok("ok".into()))
}

/// Two sets compared.
fn compared(name: &str, a: &Set, b: &Set) -> Option<String> {
    let longest = a.len().max(b.len());
    let counted = |join| count(&joined(longest, a, b, join));
    let found = match name {
        "union_count" => counted(|a, b| a || b).to_string(),
        "intersection_count" => counted(|a, b| a && b).to_string(),
        "difference_count" => counted(|a, b| a && !b).to_string(),
        "symmetric_difference_count" => counted(|a, b| a != b).to_string(),
        "is_disjoint" => (counted(|a, b| a && b) == 0).to_string(),
        "is_subset" => (counted(|a, b| a && !b) == 0).to_string(),
        "is_superset" => (counted(|a, b| b && !a) == 0).to_string(),
        "eq" => (a == b).to_string(),
        "cmp" => match order(a, b) {
            Ordering::Less => "less".into(),
            Ordering::Equal => "equal".into(),
            Ordering::Greater => "greater".into(),
        },
        _ => return None,
    };
    Some(found)
}

/// The shorter one first. Then the first stretch of 64 positions decides that differs, by the last position that does.
fn order(a: &Set, b: &Set) -> Ordering {
    let stretches = a.chunks(64).zip(b.chunks(64));
    let of_stretches = stretches.map(|(a, b)| a.iter().rev().cmp(b.iter().rev()));
    a.len()
        .cmp(&b.len())
        .then_with(|| of_stretches.fold(Ordering::Equal, Ordering::then))
}

/// The items that a walk goes over.
fn walked(name: &str, sets: &[Set]) -> Option<Vec<usize>> {
    let joins =
        |a: usize, b: usize, join| positions(&joined(sets[a].len(), &sets[a], &sets[b], join));
    let mut found = match name {
        "ones" | "into_ones" => positions(&sets[0]),
        "zeroes" => positions(&sets[0].iter().map(|it| !it).collect()),
        "union" => positions(&sets[0]),
        "intersection" => joins(0, 1, |a, b| a && b),
        "difference" | "symmetric_difference" => joins(0, 1, |a, b| a && !b),
        _ => return None,
    };
    if matches!(name, "union" | "symmetric_difference") {
        found.extend(joins(1, 0, |b, a| b && !a));
    }
    Some(found)
}

/// What the calls of a walk answer.
fn calls(ends: &str, items: Vec<usize>) -> String {
    let mut left = VecDeque::from(items);
    spaced(ends.chars().map(|end| {
        or_none(if end == 'f' {
            left.pop_front()
        } else {
            left.pop_back()
        })
    }))
}

/// A set by a list of items, and whether the greatest number was not among them. The limit is tested first.
fn extended(set: &Set, items: &[u64]) -> Result<(Set, bool), String> {
    let taken: Vec<u64> = items
        .iter()
        .copied()
        .take_while(|it| *it != GREATEST)
        .collect();
    need(taken.iter().all(|it| *it < LIMIT), ABOVE_LIMIT)?;
    let mut found = set.clone();
    for item in &taken {
        let item = *item as usize;
        found.resize(found.len().max(item + 1), false);
        found[item] = true;
    }
    Ok((found, taken.len() == items.len()))
}

/// What the first set named becomes, of a command that makes it anew or changes it by another set.
fn made(line: &Line, sets: &[Set]) -> Option<Result<Set, String>> {
    let two = &sets[sets.len().saturating_sub(2)..];
    let (a, b) = (&two[0], &two[two.len() - 1]);
    let (shorter, longer) = (a.len().min(b.len()), a.len().max(b.len()));
    let found = match line.name {
        "new" | "default" => Set::new(),
        "clone" | "clone_from" => b.clone(),
        "bitand" => joined(shorter, a, b, |a, b| a && b),
        "bitor" | "union_with" | "bitor_assign" => joined(longer, a, b, |a, b| a || b),
        "bitxor" | "symmetric_difference_with" | "bitxor_assign" => {
            joined(longer, a, b, |a, b| a != b)
        }
        "intersect_with" | "bitand_assign" => joined(a.len(), a, b, |a, b| a && b),
        "difference_with" => joined(a.len(), a, b, |a, b| a && !b),
        "with_capacity" | "with_capacity_and_blocks" => {
            return Some(sized(line.numbers[0], &line.numbers[1..], 64))
        }
        "from_value" => return Some(of_value(line)),
        _ => return None,
    };
    Some(Ok(found))
}

/// A set of words, or of bytes, where the limit allows its length.
fn sized(length: u64, words: &[u64], width: usize) -> Result<Set, String> {
    need(length <= LIMIT, ABOVE_LIMIT)?;
    Ok(of_words(length as usize, words, width))
}

fn of_value(line: &Line) -> Result<Set, String> {
    let value = line.value.as_ref().ok_or(NOT_A_COMMAND)?;
    let (length, bytes) = json::form(value).map_err(|fault| format!("F5 {fault}"))?;
    let bytes: Vec<u64> = bytes.into_iter().map(u64::from).collect();
    sized(length, &bytes, 8)
}

/// Changing a set: of a position, an item or a word.
fn changed(line: &Line, set: &mut Set) -> Reply {
    match line.name {
        "clear" => set.fill(false),
        "grow" => {
            need(line.numbers[0] <= LIMIT, ABOVE_LIMIT)?;
            set.resize(set.len().max(line.numbers[0] as usize), false);
        }
        "extend" | "grow_and_insert" => {
            let (found, is_whole) = extended(set, &line.numbers)?;
            *set = found;
            need(is_whole, TOO_GREAT)?;
        }
        "from_iter" => {
            let (found, is_whole) = extended(&Set::new(), &line.numbers)?;
            need(is_whole, TOO_GREAT)?;
            *set = found;
        }
        "set_block" => {
            need(line.numbers[0] < set.len().div_ceil(64) as u64, NO_POSITION)?;
            let from = line.numbers[0] as usize * 64;
            for at in from..set.len().min(from + 64) {
                set[at] = line.numbers[1] >> (at - from) & 1 == 1;
            }
        }
        _ => return changed_at(line, set),
    }
    Ok("ok".into())
}

/// Changing one position, which is the last number of the command.
fn changed_at(line: &Line, set: &mut Set) -> Reply {
    let at = line.numbers[line.numbers.len() - 1];
    need(at < set.len() as u64, NO_POSITION)?;
    let (at, was) = (at as usize, set[at as usize]);
    set[at] = match line.name {
        "insert" | "put" => true,
        "remove" => false,
        "toggle" => !was,
        "set" => line.flag,
        "copy_bit" => usize::try_from(line.numbers[0]).is_ok_and(|it| has(set, it)),
        name => panic!("the model has no command {name}"),
    };
    Ok(if line.name == "put" {
        was.to_string()
    } else {
        "ok".into()
    })
}
