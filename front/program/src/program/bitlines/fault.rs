// Made by front/erase from crates/bitlines/src/fault.rt: change that, and not this.
//! Why a line gives no command.

/// Why a line gives no command.
pub enum LineFault {
    /// F8: the line stands for no command.
    NotACommand,
    /// The allocation of the command failed.
    Memory,
}
