//! The ports of the registers, as the pointer names them.

use crate::Channel;

/// A register that each channel has: its port at channel 1 and at channel 2.
#[derive(Clone, Copy, Debug, PartialEq, Eq)]
pub struct Port(u16, u16);

impl Port {
    /// The port of this channel's register.
    pub const fn of(self, channel: Channel) -> u16 {
        match channel {
            Channel::One => self.0,
            Channel::Two => self.1,
        }
    }
}

/// Master mode; the only register that both channels share.
pub const MASTER_MODE: u16 = 0x38;

/// Command; write only.
pub const COMMAND: Port = Port(0x2E, 0x2C);
/// Status; read only.
pub const STATUS: Port = Port(0x2E, 0x2C);
pub const CURRENT_A_UPPER: Port = Port(0x1A, 0x18);
pub const CURRENT_A_LOWER: Port = Port(0x0A, 0x08);
pub const CURRENT_B_UPPER: Port = Port(0x12, 0x10);
pub const CURRENT_B_LOWER: Port = Port(0x02, 0x00);
pub const CURRENT_COUNT: Port = Port(0x32, 0x30);
pub const BASE_A_UPPER: Port = Port(0x1E, 0x1C);
pub const BASE_A_LOWER: Port = Port(0x0E, 0x0C);
pub const BASE_B_UPPER: Port = Port(0x16, 0x14);
pub const BASE_B_LOWER: Port = Port(0x06, 0x04);
pub const BASE_COUNT: Port = Port(0x36, 0x34);
pub const PATTERN: Port = Port(0x4A, 0x48);
pub const MASK: Port = Port(0x4E, 0x4C);
/// Interrupt save; read only.
pub const INTERRUPT_SAVE: Port = Port(0x2A, 0x28);
pub const VECTOR: Port = Port(0x5A, 0x58);
/// Mode high; read only, loaded by chaining.
pub const MODE_HIGH: Port = Port(0x56, 0x54);
pub const MODE_LOW: Port = Port(0x52, 0x50);
pub const CHAIN_UPPER: Port = Port(0x26, 0x24);
pub const CHAIN_LOWER: Port = Port(0x22, 0x20);
