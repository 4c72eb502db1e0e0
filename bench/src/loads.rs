//! The loads: a state, and the spaces that go with it.

use einflyga::plain::Plain;
use einflyga::{port, Channel, WORDS};

const MEMORY: usize = 65_536;
const TABLES: [u16; 2] = [0xF000, 0xF100];

// Modes.
const WORD_TRANSFER: u16 = 0x0000;
const WORD_SEARCH: u16 = 0x000E;
const DEMAND_HOLD: u16 = 0x0020;
const DEMAND_INTERLEAVE: u16 = 0x0060;
const RELOAD_ON_TC: u16 = 0x0400;
const CHAIN_ON_TC: u16 = 0x2000;
const STOP_ON_MATCH: u16 = 0x0002;
const SOFTWARE_REQUEST: u16 = 0x0010;

/// Upper word of an address in memory that steps up.
const UP: u16 = 0x0040;
/// The units of an operation that is reloaded at its end.
const UNITS: u16 = 0x1000;

#[derive(Clone, PartialEq, Eq)]
pub struct Load {
    pub words: [u16; WORDS],
    pub memory: Vec<u8>,
    pub io: Vec<u8>,
}

/// The loads that do steps, in the order of the table.
pub const NAMES: [&str; 4] = ["transfer", "interleaved", "search", "chain"];

/// The load of this name.
pub fn named(name: &str) -> Option<Load> {
    let hold = DEMAND_HOLD | RELOAD_ON_TC;
    let interleave = DEMAND_INTERLEAVE | RELOAD_ON_TC;
    Some(match name {
        "transfer" => requested(&[operation([0x0000, 0x4000], [0, WORD_TRANSFER | hold])]),
        "interleaved" => requested(&[
            operation([0x0000, 0x2000], [0, WORD_TRANSFER | interleave]),
            operation([0x4000, 0x6000], [0, WORD_TRANSFER | interleave]),
        ]),
        "search" => requested(&[operation([0; 2], [STOP_ON_MATCH, WORD_SEARCH | hold])]),
        "chain" => chaining(),
        "idle" => idle(),
        _ => return None,
    })
}

/// A chain table of all but vector and chain address, for an operation that is reloaded at its end.
/// Its pattern is nowhere in memory.
fn operation([a, b]: [u16; 2], [mode_high, mode_low]: [u16; 2]) -> Vec<u16> {
    let addresses = [UP, a, UP, b, UNITS];
    let mut table = vec![0x03FA];
    table.extend(addresses);
    table.extend(addresses);
    table.extend([0xABCD, 0x0000, mode_high, mode_low]);
    table
}

/// Channels with these tables, chained, then requested by their lines for ever.
fn requested(tables: &[Vec<u16>]) -> Load {
    let (mut plain, mut memory) = about_to_chain(tables);
    plain.run(100, &mut memory, &mut []).expect("the chains");
    for (who, _) in Channel::BOTH.into_iter().zip(tables) {
        plain.line(who, true).expect("a line");
    }
    let words = plain.words();
    Load {
        words,
        memory,
        io: Vec::new(),
    }
}

/// A channel whose table of all ten entries moves two words and chains to itself.
fn chaining() -> Load {
    let mode = WORD_TRANSFER | DEMAND_HOLD | CHAIN_ON_TC;
    let addresses = [UP, 0x0000, UP, 0x4000, 2];
    let mut table = vec![0x03FF];
    table.extend(addresses);
    table.extend(addresses);
    table.extend([
        0xABCD,
        0x0000,
        0x0042,
        SOFTWARE_REQUEST,
        mode,
        0x0000,
        TABLES[0],
    ]);
    let (plain, memory) = about_to_chain(&[table]);
    Load {
        words: plain.words(),
        memory,
        io: Vec::new(),
    }
}

/// A controller at channel 1's command port that has nothing to do, and in which Start Chain is carried out.
pub fn idle() -> Load {
    let (mut plain, memory) = about_to_chain(&[]);
    for who in Channel::BOTH {
        plain.write_pointer(port::CHAIN_LOWER.of(who));
        plain.write(0).expect("a write that clears CA");
    }
    plain.write_pointer(port::COMMAND.of(Channel::One));
    Load {
        words: plain.words(),
        memory,
        io: Vec::new(),
    }
}

/// An enabled controller that is about to chain each channel from its table.
fn about_to_chain(tables: &[Vec<u16>]) -> (Plain, Vec<u8>) {
    let mut plain = Plain::new();
    let mut memory = vec![0; MEMORY];
    let mut write = |port, value| {
        plain.write_pointer(port);
        plain.write(value).expect("a write that is carried out");
    };
    for ((who, table), at) in Channel::BOTH.into_iter().zip(tables).zip(TABLES) {
        let place = memory[usize::from(at)..].chunks_exact_mut(2);
        for (bytes, word) in place.zip(table) {
            bytes.copy_from_slice(&word.to_be_bytes());
        }
        write(port::CHAIN_UPPER.of(who), 0);
        write(port::CHAIN_LOWER.of(who), at);
        write(port::COMMAND.of(who), 0x9F + u16::from(who.number()));
    }
    write(port::MASTER_MODE, 1);
    (plain, memory)
}
