//! Tests of one set: its positions and ranges, by values from outside and by sweeps over lengths beside slow values, large
//! sets, what is left of iterators that were lent, and callers that know public contracts alone.

#[cfg(test)]
mod callers;
#[cfg(test)]
mod extends;
#[cfg(test)]
mod gaps;
#[cfg(test)]
mod json;
#[cfg(test)]
mod keys;
#[cfg(test)]
mod large;
#[cfg(test)]
mod lent;
#[cfg(test)]
mod making;
#[cfg(test)]
mod neighbours;
#[cfg(test)]
mod parts;
#[cfg(test)]
mod questions;
#[cfg(test)]
mod ranges;
#[cfg(test)]
mod slow;
#[cfg(test)]
mod spans;
#[cfg(test)]
mod values;
