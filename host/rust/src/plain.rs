//! The plain model: document 01, with requests E2, E4 and E5 of document 02, in ordinary Rust, written without sight of the proved library.
//!
//! It is the other side of the comparison and the yardstick for speed.

use crate::{
    Cause, Channel, Interrupt, Reasons, Refusal, Run, Step, UpperChanges, LONGEST_RUN, WORDS,
};

// Master mode.
const ENABLE: u16 = 1 << 0;
const CPU_INTERLEAVE: u16 = 1 << 1;
const NO_VECTOR: u16 = 1 << 3;

// Mode.
const FLIP: u32 = 1 << 4;
const MATCH_CONTROL: u32 = 3 << 16;
const STOP_ON_EITHER_HALF: u32 = 3 << 16;
const STOP_ON_MATCH: u32 = 1 << 17;
const HARDWARE_MASK: u32 = 1 << 19;
const SOFTWARE_REQUEST: u32 = 1 << 20;
const COMPARES: u32 = 1 << 2;

// Where the mode's three triples begin.
const INTERRUPT: u32 = 7;
const RELOAD: u32 = 10;
const CHAIN: u32 = 13;

// The tag bits that an upper word keeps.
const ADDRESS_TAG: u16 = 0xDE;
const CHAIN_TAG: u16 = 0x06;

// Bits of an address tag.
const IN_MEMORY: u16 = 1 << 6;
const STEP_FIELD: u16 = 3 << 3;
const DOWN: u16 = 1 << 3;

const RELOAD_BITS: u16 = 0x3FF;

#[derive(Clone, Copy, PartialEq, Eq)]
enum RequestMode {
    Single,
    DemandHold,
    DemandRelease,
    DemandInterleave,
}

/// A register that has a port.
#[derive(Clone, Copy, PartialEq, Eq)]
enum Register {
    MasterMode,
    CommandOrStatus,
    CurrentAUpper,
    CurrentALower,
    CurrentBUpper,
    CurrentBLower,
    BaseAUpper,
    BaseALower,
    BaseBUpper,
    BaseBLower,
    CurrentCount,
    BaseCount,
    Pattern,
    Mask,
    Save,
    Vector,
    ModeHigh,
    ModeLow,
    ChainUpper,
    ChainLower,
}

impl Register {
    /// The register at a port, and its channel; channel 1's ports are channel 2's with bit 1 set.
    fn at(port: u16) -> Option<(Register, Channel)> {
        if port == 0x38 {
            return Some((Register::MasterMode, Channel::One));
        }
        let who = if port & 2 == 0 {
            Channel::Two
        } else {
            Channel::One
        };
        let register = match port & !2 {
            0x2C => Register::CommandOrStatus,
            0x18 => Register::CurrentAUpper,
            0x08 => Register::CurrentALower,
            0x10 => Register::CurrentBUpper,
            0x00 => Register::CurrentBLower,
            0x1C => Register::BaseAUpper,
            0x0C => Register::BaseALower,
            0x14 => Register::BaseBUpper,
            0x04 => Register::BaseBLower,
            0x30 => Register::CurrentCount,
            0x34 => Register::BaseCount,
            0x48 => Register::Pattern,
            0x4C => Register::Mask,
            0x28 => Register::Save,
            0x58 => Register::Vector,
            0x54 => Register::ModeHigh,
            0x50 => Register::ModeLow,
            0x24 => Register::ChainUpper,
            0x20 => Register::ChainLower,
            _ => return None,
        };
        Some((register, who))
    }

    fn is_read_only(self) -> bool {
        matches!(self, Register::Save | Register::ModeHigh)
    }
}

/// An address register: 24 bits of address, and the tag of its upper word.
#[derive(Clone, Copy, Debug, Default)]
struct Address {
    at: u32,
    tag: u16,
}

impl Address {
    fn upper(self) -> u16 {
        (self.at >> 8) as u16 & 0xFF00 | self.tag
    }

    fn lower(self) -> u16 {
        self.at as u16
    }

    fn load_upper(&mut self, word: u16, tag: u16) {
        self.at = u32::from(word >> 8) << 16 | self.at & 0xFFFF;
        self.tag = word & tag;
    }

    fn load_lower(&mut self, word: u16) {
        self.at = self.at & 0xFF_0000 | u32::from(word);
    }

    fn is_odd(self) -> bool {
        self.at & 1 != 0
    }

    fn is_in_memory(self) -> bool {
        self.tag & IN_MEMORY != 0
    }

    /// Steps past a word; answers whether bits 23-16 changed, as each step does.
    fn step_word(&mut self) -> bool {
        self.step(2)
    }

    fn step_byte(&mut self) -> bool {
        self.step(if self.is_in_memory() { 1 } else { 2 })
    }

    fn step(&mut self, by: u32) -> bool {
        match self.tag & STEP_FIELD {
            0 => self.advance(by),
            DOWN => self.advance(by.wrapping_neg()),
            _ => false,
        }
    }

    fn advance(&mut self, by: u32) -> bool {
        let upper = self.at >> 16;
        self.at = self.at.wrapping_add(by) & 0xFF_FFFF;
        self.at >> 16 != upper
    }
}

/// The two spaces that the host lends.
struct Spaces<'a> {
    memory: &'a mut [u8],
    io: &'a mut [u8],
}

impl Spaces<'_> {
    fn of(&self, address: Address) -> &[u8] {
        if address.is_in_memory() {
            self.memory
        } else {
            self.io
        }
    }

    fn of_mut(&mut self, address: Address) -> &mut [u8] {
        if address.is_in_memory() {
            self.memory
        } else {
            self.io
        }
    }

    fn byte(&self, address: Address) -> u8 {
        byte_at(self.of(address), address.at)
    }

    fn word(&self, address: Address) -> u16 {
        word_at(self.of(address), address.at)
    }

    fn put_byte(&mut self, address: Address, byte: u8) {
        put_byte_at(self.of_mut(address), address.at, byte);
    }

    fn put_word(&mut self, address: Address, word: u16) {
        let space = self.of_mut(address);
        let at = address.at as usize;
        match space.get_mut(at..at + 2) {
            Some(pair) => pair.copy_from_slice(&word.to_be_bytes()),
            None => put_word_across_the_end(space, address.at, word),
        }
    }
}

fn byte_at(space: &[u8], at: u32) -> u8 {
    space.get(at as usize).copied().unwrap_or(0xFF)
}

fn word_at(space: &[u8], at: u32) -> u16 {
    let start = at as usize;
    match space.get(start..start + 2) {
        Some(pair) => u16::from_be_bytes([pair[0], pair[1]]),
        None => word_across_the_end(space, at),
    }
}

#[cold]
fn word_across_the_end(space: &[u8], at: u32) -> u16 {
    u16::from_be_bytes([byte_at(space, at), byte_at(space, at + 1)])
}

#[cold]
fn put_word_across_the_end(space: &mut [u8], at: u32, word: u16) {
    let [high, low] = word.to_be_bytes();
    put_byte_at(space, at, high);
    put_byte_at(space, at + 1, low);
}

fn put_byte_at(space: &mut [u8], at: u32, byte: u8) {
    if let Some(place) = space.get_mut(at as usize) {
        *place = byte;
    }
}

/// What one channel holds.
#[derive(Clone, Debug, Default)]
struct Registers {
    current_a: Address,
    current_b: Address,
    current_count: u16,
    base_a: Address,
    base_b: Address,
    base_count: u16,
    pattern: u16,
    mask: u16,
    mode: u32,
    chain: Address,
    vector: u8,
    save: u16,
    cie: bool,
    ip: bool,
    sip: bool,
    ca: bool,
    nac: bool,
    mch: bool,
    mcl: bool,
    reasons: Reasons,
    line: bool,
    change: bool,
    pending: bool,
}

impl Registers {
    fn request_mode(&self) -> RequestMode {
        match self.mode >> 5 & 3 {
            0 => RequestMode::Single,
            1 => RequestMode::DemandHold,
            2 => RequestMode::DemandRelease,
            _ => RequestMode::DemandInterleave,
        }
    }

    fn requests(&self) -> bool {
        if self.mode & SOFTWARE_REQUEST != 0 {
            return true;
        }
        let by_line = match self.request_mode() {
            RequestMode::Single => self.change,
            _ => self.line,
        };
        by_line && self.mode & HARDWARE_MASK == 0
    }

    fn is_ready_for_unit(&self) -> bool {
        self.requests() && !self.nac && !self.sip && !self.ca
    }

    fn is_candidate(&self) -> bool {
        self.pending || self.is_ready_for_unit()
    }

    /// Whether its unit would use a word side at an odd address.
    fn uses_odd_word(&self) -> bool {
        let flipped = self.mode & FLIP != 0;
        match self.mode & 0xF {
            0x0 | 0x4 => self.current_a.is_odd() || self.current_b.is_odd(),
            0x8 | 0x9 | 0xC | 0xD => self.current_b.is_odd(),
            0xE if flipped => self.current_b.is_odd(),
            0xE => self.current_a.is_odd(),
            _ => false,
        }
    }

    /// What keeps a channel without a chain from its unit.
    fn why_no_unit(&self) -> Option<Cause> {
        if self.ca {
            return Some(Cause::Ca);
        }
        if self.sip {
            return Some(Cause::Sip);
        }
        if self.nac {
            return Some(Cause::Nac);
        }
        if !self.requests() {
            let mut unmasked = self.clone();
            unmasked.set_mode_bit(HARDWARE_MASK, false);
            return Some(if unmasked.requests() {
                Cause::Masked
            } else {
                Cause::NoRequest
            });
        }
        if matches!(self.mode & 0xF, 0x2 | 0x3 | 0x6 | 0x7 | 0xA | 0xB) {
            return Some(Cause::Operation);
        }
        self.uses_odd_word().then_some(Cause::OddWord)
    }

    /// Whether the mode's triple asks for its action at this end.
    fn asks(&self, triple: u32) -> bool {
        (self.mode >> triple) as u8 & self.reasons.bits() != 0
    }

    fn set_mode_bit(&mut self, bit: u32, set: bool) {
        self.mode = if set {
            self.mode | bit
        } else {
            self.mode & !bit
        };
    }

    fn load_mode_high(&mut self, word: u16) {
        self.mode = u32::from(word & 0x1F) << 16 | self.mode & 0xFFFF;
    }

    fn load_mode_low(&mut self, word: u16) {
        self.mode = self.mode & 0x1F_0000 | u32::from(word);
    }

    fn status(&self, keeps_bus: bool) -> u16 {
        let waits_for_bus = self.is_candidate() && !keeps_bus;
        u16::from(self.cie) << 15
            | u16::from(self.ip) << 13
            | u16::from(self.ca) << 12
            | u16::from(self.nac) << 11
            | u16::from(waits_for_bus) << 10
            | u16::from(self.sip) << 9
            | u16::from(self.mode & HARDWARE_MASK != 0) << 6
            | u16::from(self.line) << 5
            | u16::from(self.mch) << 4
            | u16::from(self.mcl) << 3
            | u16::from(self.reasons.mc()) << 2
            | u16::from(self.reasons.eop()) << 1
            | u16::from(self.reasons.tc())
    }

    fn set_ip(&mut self, who: Channel) {
        self.ip = true;
        self.save = u16::from(self.vector)
            | u16::from(who == Channel::Two) << 15
            | u16::from(self.line) << 14
            | u16::from(self.mch) << 13
            | u16::from(self.mcl) << 12
            | u16::from(self.ca) << 11
            | u16::from(self.reasons.mc()) << 10
            | u16::from(self.reasons.eop()) << 9
            | u16::from(self.reasons.tc()) << 8;
    }

    fn reset(&mut self) {
        self.cie = false;
        self.ip = false;
        self.sip = false;
        self.ca = true;
        self.nac = true;
        self.change = false;
        self.pending = false;
    }

    /// Moves or reads one unit's datum and steps the addresses; answers how often bits 23-16 changed, too.
    #[inline(always)]
    fn move_datum(&mut self, spaces: &mut Spaces) -> Result<(u16, u8), Refusal> {
        match self.mode & 0xF {
            0x0 | 0x4 => self.transfer_word(spaces),
            0x1 | 0x5 => Ok(self.transfer_byte(spaces)),
            0x8 | 0x9 | 0xC | 0xD => self.funnel(spaces),
            0xE => self.search_word(spaces),
            0xF => Ok(self.search_byte(spaces)),
            _ => Err(Refusal::NoOperation),
        }
    }

    /// The current addresses, source first.
    fn sides(&mut self) -> (&mut Address, &mut Address) {
        if self.mode & FLIP == 0 {
            (&mut self.current_a, &mut self.current_b)
        } else {
            (&mut self.current_b, &mut self.current_a)
        }
    }

    fn transfer_word(&mut self, spaces: &mut Spaces) -> Result<(u16, u8), Refusal> {
        let (source, destination) = self.sides();
        if source.is_odd() || destination.is_odd() {
            return Err(Refusal::OddWord);
        }
        let datum = spaces.word(*source);
        spaces.put_word(*destination, datum);
        let changes = u8::from(source.step_word()) + u8::from(destination.step_word());
        Ok((datum, changes))
    }

    fn transfer_byte(&mut self, spaces: &mut Spaces) -> (u16, u8) {
        let (source, destination) = self.sides();
        let byte = spaces.byte(*source);
        spaces.put_byte(*destination, byte);
        let changes = u8::from(source.step_byte()) + u8::from(destination.step_byte());
        (in_both_halves(byte), changes)
    }

    fn search_word(&mut self, spaces: &Spaces) -> Result<(u16, u8), Refusal> {
        let (source, _) = self.sides();
        if source.is_odd() {
            return Err(Refusal::OddWord);
        }
        let datum = spaces.word(*source);
        Ok((datum, source.step_word().into()))
    }

    fn search_byte(&mut self, spaces: &Spaces) -> (u16, u8) {
        let (source, _) = self.sides();
        let byte = spaces.byte(*source);
        (in_both_halves(byte), source.step_byte().into())
    }

    fn funnel(&mut self, spaces: &mut Spaces) -> Result<(u16, u8), Refusal> {
        let packs = self.mode & FLIP == 0;
        let (bytes, word) = (&mut self.current_a, &mut self.current_b);
        if word.is_odd() {
            return Err(Refusal::OddWord);
        }
        // B's direction bit counts even where B holds.
        let low_half_first = word.tag & DOWN != 0;
        let mut changes = 0;
        let datum = if packs {
            let first = spaces.byte(*bytes);
            changes += u8::from(bytes.step_byte());
            let second = spaces.byte(*bytes);
            changes += u8::from(bytes.step_byte());
            let datum = if low_half_first {
                u16::from_le_bytes([first, second])
            } else {
                u16::from_be_bytes([first, second])
            };
            spaces.put_word(*word, datum);
            datum
        } else {
            let datum = spaces.word(*word);
            let [first, second] = if low_half_first {
                datum.to_le_bytes()
            } else {
                datum.to_be_bytes()
            };
            spaces.put_byte(*bytes, first);
            changes += u8::from(bytes.step_byte());
            spaces.put_byte(*bytes, second);
            changes += u8::from(bytes.step_byte());
            datum
        };
        changes += u8::from(word.step_word());
        Ok((datum, changes))
    }

    /// Counts the unit and compares its datum; answers why the operation ends, if it does.
    #[inline(always)]
    fn judge(&mut self, datum: u16, eop: bool) -> Reasons {
        let mut reasons = Reasons::default();
        self.current_count = self.current_count.wrapping_sub(1);
        if self.current_count == 0 {
            reasons = Reasons::TC;
        }
        if self.mode & COMPARES != 0 && self.compare(datum) == (self.mode & STOP_ON_MATCH != 0) {
            reasons = reasons | Reasons::MC;
        }
        if eop {
            reasons = reasons | Reasons::EOP;
        }
        reasons
    }

    /// Writes MCH and MCL; answers whether the datum is a match.
    #[inline(always)]
    fn compare(&mut self, datum: u16) -> bool {
        let differing = (datum ^ self.pattern) & !self.mask;
        let whole = differing == 0;
        let of_bytes = matches!(self.mode & 0xF, 0x5 | 0xF);
        (self.mch, self.mcl) = if of_bytes {
            // One result, told in both.
            (whole, whole)
        } else {
            // Each half by itself, of a funnelled word too.
            (differing & 0xFF00 == 0, differing & 0x00FF == 0)
        };
        if self.mode & MATCH_CONTROL == STOP_ON_EITHER_HALF {
            self.mch || self.mcl
        } else {
            whole
        }
    }

    /// Reloads, or goes without; answers whether a chain follows.
    fn finish_end(&mut self) -> bool {
        let reloads = self.asks(RELOAD);
        let chains = self.asks(CHAIN);
        if reloads {
            self.current_a = self.base_a;
            self.current_b = self.base_b;
            self.current_count = self.base_count;
        }
        if !reloads && !chains {
            self.nac = true;
        }
        chains
    }

    /// Takes the table's next word; answers what is left after it.
    fn take(&mut self, table: Table, word: u16) -> Option<Table> {
        let entry = 15 - table.left.leading_zeros();
        let first_of_two = Some(Table {
            second: true,
            new_upper: 0,
            ..table
        });
        match (entry, table.second) {
            (9, false) => {
                self.current_a.load_upper(word, ADDRESS_TAG);
                return first_of_two;
            }
            (9, true) => self.current_a.load_lower(word),
            (8, false) => {
                self.current_b.load_upper(word, ADDRESS_TAG);
                return first_of_two;
            }
            (8, true) => self.current_b.load_lower(word),
            (7, _) => self.current_count = word,
            (6, false) => {
                self.base_a.load_upper(word, ADDRESS_TAG);
                return first_of_two;
            }
            (6, true) => self.base_a.load_lower(word),
            (5, false) => {
                self.base_b.load_upper(word, ADDRESS_TAG);
                return first_of_two;
            }
            (5, true) => self.base_b.load_lower(word),
            (4, _) => self.base_count = word,
            (3, false) => {
                self.pattern = word;
                return first_of_two;
            }
            (3, true) => self.mask = word,
            (2, _) => self.vector = word as u8,
            (1, false) => {
                self.load_mode_high(word);
                return first_of_two;
            }
            (1, true) => self.load_mode_low(word),
            (_, false) => {
                // The old chain address is still needed to read the lower word.
                return Some(Table {
                    second: true,
                    new_upper: word & (0xFF00 | CHAIN_TAG),
                    ..table
                });
            }
            (_, true) => {
                self.chain.load_upper(table.new_upper, CHAIN_TAG);
                self.chain.load_lower(word);
            }
        }
        Table::with_left(table.left & !(1 << entry))
    }

    fn words(&self) -> [u16; 31] {
        [
            self.current_a.upper(),
            self.current_a.lower(),
            self.current_b.upper(),
            self.current_b.lower(),
            self.current_count,
            self.base_a.upper(),
            self.base_a.lower(),
            self.base_b.upper(),
            self.base_b.lower(),
            self.base_count,
            self.pattern,
            self.mask,
            (self.mode >> 16) as u16,
            self.mode as u16,
            self.chain.upper(),
            self.chain.lower(),
            self.cie.into(),
            self.ip.into(),
            self.sip.into(),
            self.vector.into(),
            self.save,
            self.ca.into(),
            self.nac.into(),
            self.mch.into(),
            self.mcl.into(),
            self.reasons.tc().into(),
            self.reasons.mc().into(),
            self.reasons.eop().into(),
            self.line.into(),
            self.change.into(),
            self.pending.into(),
        ]
    }

    fn from_words(words: &[u16]) -> Self {
        let address = |upper: usize, tag| {
            let mut address = Address::default();
            address.load_upper(words[upper], tag);
            address.load_lower(words[upper + 1]);
            address
        };
        let flag = |at: usize| words[at] != 0;
        let reason = |at: usize, reason| if flag(at) { reason } else { Reasons::default() };
        Registers {
            current_a: address(0, ADDRESS_TAG),
            current_b: address(2, ADDRESS_TAG),
            current_count: words[4],
            base_a: address(5, ADDRESS_TAG),
            base_b: address(7, ADDRESS_TAG),
            base_count: words[9],
            pattern: words[10],
            mask: words[11],
            mode: u32::from(words[12] & 0x1F) << 16 | u32::from(words[13]),
            chain: address(14, CHAIN_TAG),
            cie: flag(16),
            ip: flag(17),
            sip: flag(18),
            vector: words[19] as u8,
            save: words[20],
            ca: flag(21),
            nac: flag(22),
            mch: flag(23),
            mcl: flag(24),
            reasons: reason(25, Reasons::TC) | reason(26, Reasons::MC) | reason(27, Reasons::EOP),
            line: flag(28),
            change: flag(29),
            pending: flag(30),
        }
    }
}

fn in_both_halves(byte: u8) -> u16 {
    u16::from_be_bytes([byte, byte])
}

/// A chain under way.
#[derive(Clone, Copy, Debug)]
struct Chain {
    who: Channel,
    /// None while the reload word is fetched next.
    table: Option<Table>,
}

/// What is left of a chain table after its reload word.
#[derive(Clone, Copy, Debug)]
struct Table {
    /// The reload bits of the entries that are not wholly fetched; never 0.
    left: u16,
    /// Whether the first word of a two-word entry is there.
    second: bool,
    /// A new chain upper word that waits for its lower word.
    new_upper: u16,
}

impl Table {
    fn after_reload_word(word: u16) -> Option<Table> {
        Table::with_left(word & RELOAD_BITS)
    }

    fn with_left(left: u16) -> Option<Table> {
        (left != 0).then_some(Table {
            left,
            second: false,
            new_upper: 0,
        })
    }
}

/// The plain model of the controller.
#[derive(Clone, Debug, Default)]
pub struct Plain {
    pointer: u16,
    master_mode: u16,
    chain: Option<Chain>,
    keeper: Option<Channel>,
    note: bool,
    served_last: Option<Channel>,
    channels: [Registers; 2],
}

impl Plain {
    /// A fresh controller: all zeros, then reset.
    pub fn new() -> Self {
        let mut plain = Plain::default();
        plain.reset();
        plain
    }

    /// The reset line, and the command.
    pub fn reset(&mut self) {
        self.master_mode = 0;
        self.chain = None;
        self.keeper = None;
        self.note = false;
        self.served_last = None;
        for channel in &mut self.channels {
            channel.reset();
        }
    }

    /// Writes the pointer, which keeps bits 1 to 6.
    pub fn write_pointer(&mut self, pointer: u16) {
        self.pointer = pointer & 0x7E;
    }

    /// Reads the pointer.
    pub fn read_pointer(&self) -> u16 {
        self.pointer
    }

    /// Writes the register at the pointer.
    pub fn write(&mut self, value: u16) -> Result<(), Refusal> {
        let (register, who) = Register::at(self.pointer)
            .filter(|(register, _)| !register.is_read_only())
            .ok_or(Refusal::NoRegister)?;
        let is_reset = register == Register::CommandOrStatus && value & 0xE0 == 0;
        if !is_reset && (self.keeper.is_some() || self.chain.is_some()) {
            return Err(Refusal::BusInUse);
        }
        let channel = &mut self.channels[who as usize];
        match register {
            Register::CommandOrStatus => return self.command(who, value as u8),
            Register::MasterMode => self.master_mode = value & 0xF,
            Register::CurrentAUpper => channel.current_a.load_upper(value, ADDRESS_TAG),
            Register::CurrentALower => channel.current_a.load_lower(value),
            Register::CurrentBUpper => channel.current_b.load_upper(value, ADDRESS_TAG),
            Register::CurrentBLower => channel.current_b.load_lower(value),
            Register::BaseAUpper => channel.base_a.load_upper(value, ADDRESS_TAG),
            Register::BaseALower => channel.base_a.load_lower(value),
            Register::BaseBUpper => channel.base_b.load_upper(value, ADDRESS_TAG),
            Register::BaseBLower => channel.base_b.load_lower(value),
            Register::CurrentCount => channel.current_count = value,
            Register::BaseCount => channel.base_count = value,
            Register::Pattern => channel.pattern = value,
            Register::Mask => channel.mask = value,
            Register::Vector => channel.vector = value as u8,
            Register::ModeLow => channel.load_mode_low(value),
            Register::ChainUpper => {
                channel.chain.load_upper(value, CHAIN_TAG);
                channel.ca = false;
            }
            Register::ChainLower => {
                channel.chain.load_lower(value);
                channel.ca = false;
            }
            Register::Save | Register::ModeHigh => unreachable!("read only"),
        }
        Ok(())
    }

    /// Figure 18's commands, written at a channel's port.
    fn command(&mut self, at: Channel, command: u8) -> Result<(), Refusal> {
        let who = if command & 1 == 0 {
            Channel::One
        } else {
            Channel::Two
        };
        let set = command & 2 != 0;
        let channel = &mut self.channels[who as usize];
        match command >> 5 {
            0 => self.reset(),
            1 => {
                let names_ip = command & 4 != 0;
                if names_ip && who != at {
                    return Err(Refusal::WrongPort);
                }
                if command & 0x10 != 0 {
                    channel.cie = set;
                }
                match (names_ip, set) {
                    (true, true) => channel.set_ip(who),
                    (true, false) => channel.ip = false,
                    (false, _) => {}
                }
            }
            2 => channel.set_mode_bit(SOFTWARE_REQUEST, set),
            3 => channel.set_mode_bit(FLIP, set),
            4 => channel.set_mode_bit(HARDWARE_MASK, set),
            5 => {
                if channel.ca || channel.sip {
                    return Err(Refusal::ChainBarred);
                }
                channel.nac = false;
                channel.pending = true;
            }
            _ => return Err(Refusal::NoCommand),
        }
        Ok(())
    }

    /// Reads the register at the pointer.
    pub fn read(&self) -> Result<u16, Refusal> {
        let (register, who) = Register::at(self.pointer).ok_or(Refusal::NoRegister)?;
        let channel = &self.channels[who as usize];
        Ok(match register {
            Register::CommandOrStatus => channel.status(self.keeper == Some(who)),
            Register::MasterMode => self.master_mode,
            Register::CurrentAUpper => channel.current_a.upper(),
            Register::CurrentALower => channel.current_a.lower(),
            Register::CurrentBUpper => channel.current_b.upper(),
            Register::CurrentBLower => channel.current_b.lower(),
            Register::BaseAUpper => channel.base_a.upper(),
            Register::BaseALower => channel.base_a.lower(),
            Register::BaseBUpper => channel.base_b.upper(),
            Register::BaseBLower => channel.base_b.lower(),
            Register::CurrentCount => channel.current_count,
            Register::BaseCount => channel.base_count,
            Register::Pattern => channel.pattern,
            Register::Mask => channel.mask,
            Register::Save => channel.save,
            Register::Vector => channel.vector.into(),
            Register::ModeHigh => (channel.mode >> 16) as u16,
            Register::ModeLow => channel.mode as u16,
            Register::ChainUpper => channel.chain.upper(),
            Register::ChainLower => channel.chain.lower(),
        })
    }

    /// Puts a channel's request line at a level.
    pub fn line(&mut self, channel: impl Into<u32>, active: bool) -> Result<(), Refusal> {
        let who = Channel::from_number(channel.into()).ok_or(Refusal::NoChannel)?;
        let channel = &mut self.channels[who as usize];
        channel.change |= active && !channel.line;
        channel.line = active;
        Ok(())
    }

    /// Acknowledges an interrupt.
    pub fn acknowledge(&mut self) -> Result<Interrupt, Refusal> {
        let who = Channel::BOTH
            .into_iter()
            .find(|&who| {
                let channel = &self.channels[who as usize];
                channel.cie && (channel.ip || channel.sip)
            })
            .ok_or(Refusal::NothingToAcknowledge)?;
        let channel = &mut self.channels[who as usize];
        let save = (self.master_mode & NO_VECTOR == 0).then_some(channel.save);
        if channel.sip {
            channel.sip = false;
            channel.set_ip(who);
            // Only left pending: the other channel's chain may be under way.
            channel.pending = channel.finish_end();
        }
        Ok(Interrupt { channel: who, save })
    }

    /// Does one step, with EOP given or not.
    #[inline(never)]
    pub fn step(&mut self, eop: bool, memory: &mut [u8], io: &mut [u8]) -> Result<Step, Refusal> {
        self.next_step(eop, &mut Spaces { memory, io })
    }

    /// Does up to `budget` steps without EOP.
    #[inline(never)]
    pub fn run(&mut self, budget: u32, memory: &mut [u8], io: &mut [u8]) -> Result<Run, Refusal> {
        if budget > LONGEST_RUN {
            return Err(Refusal::RunTooLong);
        }
        let mut spaces = Spaces { memory, io };
        let mut last = Ok(Step::Idle);
        for steps in 0..budget {
            last = self.next_step(false, &mut spaces);
            if matches!(
                last,
                Err(_) | Ok(Step::Idle | Step::Disabled | Step::Holding(_))
            ) {
                return Ok(Run { last, steps });
            }
        }
        Ok(Run {
            last,
            steps: budget,
        })
    }

    #[inline(always)]
    fn next_step(&mut self, eop: bool, spaces: &mut Spaces) -> Result<Step, Refusal> {
        if self.master_mode & ENABLE == 0 {
            return Ok(Step::Disabled);
        }
        if let Some(chain) = self.chain {
            return self.fetch(chain, eop, spaces.memory);
        }
        if self.note {
            self.note = false;
            return Ok(Step::NoteGivenBack);
        }
        if let Some(who) = self.keeper {
            if self.channels[who as usize].requests() {
                return self.unit(who, eop, spaces);
            }
            return Ok(self.step_without_request(who, eop));
        }
        match self.chosen() {
            Some(who) if self.channels[who as usize].pending => {
                self.begin_chain(who, eop, spaces.memory)
            }
            Some(who) => self.unit(who, eop, spaces),
            None => Ok(Step::Idle),
        }
    }

    /// The step of a channel that keeps the bus without a request.
    fn step_without_request(&mut self, who: Channel, eop: bool) -> Step {
        if self.channels[who as usize].request_mode() != RequestMode::DemandHold {
            self.keeper = None;
            Step::BusGivenBack
        } else if eop {
            self.end(who, Reasons::EOP);
            Step::Ended(who)
        } else {
            Step::Holding(who)
        }
    }

    /// The candidate that goes first.
    fn chosen(&self) -> Option<Channel> {
        let [one, two] = &self.channels;
        match (one.is_candidate(), two.is_candidate()) {
            (false, false) => None,
            (true, false) => Some(Channel::One),
            (false, true) => Some(Channel::Two),
            (true, true) => {
                let interleaves = |channel: &Registers| {
                    !channel.pending && channel.request_mode() == RequestMode::DemandInterleave
                };
                let two_is_due = self.served_last == Some(Channel::One);
                if two_is_due && interleaves(one) && interleaves(two) {
                    Some(Channel::Two)
                } else {
                    Some(Channel::One)
                }
            }
        }
    }

    #[inline(always)]
    fn unit(&mut self, who: Channel, eop: bool, spaces: &mut Spaces) -> Result<Step, Refusal> {
        let channel = &mut self.channels[who as usize];
        let (datum, changes) = channel.move_datum(spaces)?;
        let reasons = channel.judge(datum, eop);
        self.served_last = Some(who);
        if reasons.is_empty() {
            self.go_on(who);
        } else {
            self.end(who, reasons);
        }
        let upper = UpperChanges::from_number(changes).expect("at most two");
        Ok(Step::Unit(who, reasons, upper))
    }

    /// What becomes of bus and request after an unended unit.
    fn go_on(&mut self, who: Channel) {
        let channel = &mut self.channels[who as usize];
        match channel.request_mode() {
            RequestMode::DemandHold | RequestMode::DemandRelease => self.keeper = Some(who),
            RequestMode::DemandInterleave => {
                self.keeper = None;
                self.note = self.master_mode & CPU_INTERLEAVE != 0;
            }
            RequestMode::Single => {
                self.keeper = None;
                if channel.mode & SOFTWARE_REQUEST != 0 {
                    channel.mode &= !SOFTWARE_REQUEST;
                } else {
                    channel.change = false;
                }
            }
        }
    }

    fn end(&mut self, who: Channel, reasons: Reasons) {
        self.keeper = None;
        let channel = &mut self.channels[who as usize];
        channel.reasons = reasons;
        channel.mode &= !SOFTWARE_REQUEST;
        channel.change = false;
        if channel.asks(INTERRUPT) {
            if channel.ip {
                channel.sip = true;
                return;
            }
            channel.set_ip(who);
        }
        if channel.finish_end() {
            self.chain = Some(Chain { who, table: None });
        }
    }

    /// Begins the channel's pending chain.
    fn begin_chain(&mut self, who: Channel, eop: bool, memory: &[u8]) -> Result<Step, Refusal> {
        let step = self.fetch(Chain { who, table: None }, eop, memory)?;
        self.channels[who as usize].pending = false;
        Ok(step)
    }

    fn fetch(&mut self, chain: Chain, eop: bool, memory: &[u8]) -> Result<Step, Refusal> {
        let Chain { who, table } = chain;
        let channel = &mut self.channels[who as usize];
        if table.is_none() && channel.chain.is_odd() {
            return Err(Refusal::OddChain);
        }
        if eop {
            channel.ca = true;
            channel.nac = true;
            self.chain = None;
            return Ok(Step::Dropped(who));
        }
        let word = word_at(memory, channel.chain.at);
        let changed = channel.chain.advance(2);
        let left = match table {
            None => Table::after_reload_word(word),
            Some(table) => channel.take(table, word),
        };
        if left.is_some() {
            self.chain = Some(Chain { who, table: left });
        } else {
            self.chain = None;
            self.leave_chain(who);
        }
        // Where the new chain address takes the old one's place, nothing steps.
        let upper = match table {
            Some(Table {
                left: 1,
                second: true,
                ..
            }) => UpperChanges::None,
            _ if changed => UpperChanges::One,
            _ => UpperChanges::None,
        };
        Ok(Step::Fetched(who, upper))
    }

    /// What follows the last fetch of a chain.
    fn leave_chain(&mut self, who: Channel) {
        let channel = &mut self.channels[who as usize];
        channel.change = false;
        if self.master_mode & CPU_INTERLEAVE != 0 {
            self.note = true;
        } else if channel.requests() {
            self.keeper = Some(who);
        }
    }

    /// Says why a channel stands still; no reason of document 02 asks for the spaces yet.
    pub fn why(
        &self,
        channel: impl Into<u32>,
        _memory: &[u8],
        _io: &[u8],
    ) -> Result<Cause, Refusal> {
        let who = Channel::from_number(channel.into()).ok_or(Refusal::NoChannel)?;
        Ok(self.cause(who).unwrap_or(Cause::NothingWrong))
    }

    fn cause(&self, who: Channel) -> Option<Cause> {
        let other = Some(who.other());
        let chaining = self.chain.map(|chain| chain.who);
        if self.master_mode & ENABLE == 0 {
            return Some(Cause::Disabled);
        }
        if chaining == other {
            return Some(Cause::OthersChain);
        }
        if self.note {
            return Some(Cause::Note);
        }
        if self.keeper == other {
            return Some(Cause::OthersBus);
        }
        let channel = &self.channels[who as usize];
        let first_fetch = match self.chain {
            Some(chain) => chain.table.is_none(),
            None => channel.pending,
        };
        let has_chain = chaining.is_some() || channel.pending;
        if !has_chain {
            if let Some(cause) = channel.why_no_unit() {
                return Some(cause);
            }
        }
        if first_fetch && channel.chain.is_odd() {
            return Some(Cause::OddChain);
        }
        let rule_5_chooses = chaining.is_none() && self.keeper.is_none();
        (rule_5_chooses && self.chosen() == other).then_some(Cause::OthersTurn)
    }

    /// The state in the 72-word layout of `host/include/einflyga.h`.
    pub fn words(&self) -> [u16; WORDS] {
        let number = |who: Option<Channel>| who.map_or(0, |who| who.number().into());
        let table = self.chain.and_then(|chain| chain.table);
        let mut words = [0; WORDS];
        words[0] = self.pointer;
        words[1] = self.master_mode;
        words[2] = number(self.chain.map(|chain| chain.who));
        if let Some(table) = table {
            words[3] = 1;
            words[4] = table.left;
            words[5] = table.second.into();
            words[6] = table.new_upper;
        }
        words[7] = number(self.keeper);
        words[8] = self.note.into();
        words[9] = number(self.served_last);
        words[10..41].copy_from_slice(&self.channels[0].words());
        words[41..72].copy_from_slice(&self.channels[1].words());
        words
    }

    /// A controller in the state of these words, which calls have reached.
    pub fn from_words(words: &[u16; WORDS]) -> Self {
        let channel = |at: usize| Channel::from_number(words[at].into());
        let table = (words[3] == 1).then_some(Table {
            left: words[4],
            second: words[5] != 0,
            new_upper: words[6],
        });
        Plain {
            pointer: words[0],
            master_mode: words[1],
            chain: channel(2).map(|who| Chain { who, table }),
            keeper: channel(7),
            note: words[8] != 0,
            served_last: channel(9),
            channels: [
                Registers::from_words(&words[10..41]),
                Registers::from_words(&words[41..72]),
            ],
        }
    }
}
