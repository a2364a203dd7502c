//! Tests of commands, of lines and of the program: what it writes for an input, and how it calls readers and writers that
//! fail.

#[cfg(test)]
mod calls;
#[cfg(test)]
mod commands;
#[cfg(test)]
mod json;
#[cfg(test)]
mod json_sessions;
#[cfg(test)]
mod program;
#[cfg(test)]
mod sessions;
#[cfg(test)]
mod set_sessions;
#[cfg(test)]
mod slow;
#[cfg(test)]
mod walk_sessions;
