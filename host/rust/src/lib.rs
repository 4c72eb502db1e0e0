//! The proved model of the AMD Am9516A DMA controller, for Rust hosts.
//!
//! [`Controller`] owns the 72 words of the state; each call borrows the two byte spaces, memory and I/O.
//!
//! ```
//! use einflyga::{port, Channel, Controller, Step};
//!
//! // A chain table at address 0 that has channel 1 move three words from 20h to 30h.
//! let mut memory = [0u8; 64];
//! let table: [u16; 8] = [
//!     0x0382, // reload current A, current B, current count and mode
//!     0x0040, 0x0020, // A: memory, up
//!     0x0040, 0x0030, // B: memory, up
//!     3, // count
//!     0x0010, 0x0020, // mode: software request; word transfer in demand hold
//! ];
//! for (bytes, word) in memory.chunks_exact_mut(2).zip(table) {
//!     bytes.copy_from_slice(&word.to_be_bytes());
//! }
//! memory[0x20..0x26].copy_from_slice(b"Am9516");
//!
//! let mut controller = Controller::new();
//! for (port, value) in [
//!     (port::CHAIN_UPPER.of(Channel::One), 0),
//!     (port::CHAIN_LOWER.of(Channel::One), 0),
//!     (port::COMMAND.of(Channel::One), 0xA0), // Start Chain channel 1
//!     (port::MASTER_MODE, 1),                 // enable
//! ] {
//!     controller.write_pointer(port);
//!     controller.write(value)?;
//! }
//! let run = controller.run(100, &mut memory, &mut [])?;
//! assert_eq!(run.last, Ok(Step::Idle));
//! assert_eq!(run.steps, 8 + 3); // the table's words, then the units
//! assert_eq!(&memory[0x30..0x36], b"Am9516");
//! # Ok::<(), einflyga::Refusal>(())
//! ```

mod answers;
pub mod ffi;
pub mod plain;
pub mod port;

pub use answers::{
    Cause, Channel, Interrupt, Reasons, Refusal, Run, Step, UpperChanges, LONGEST_RUN, WORDS,
};

/// A controller: the 72 words of its state, in the layout of `host/include/einflyga.h`.
#[derive(Clone, Debug, PartialEq, Eq)]
pub struct Controller {
    words: [u16; WORDS],
}

impl Default for Controller {
    fn default() -> Self {
        Controller::new()
    }
}

// Every `unsafe` below is sound: the state is 72 words of our own, borrowed spaces overlap nothing, and no call keeps a pointer.
impl Controller {
    /// A fresh controller: all zeros, then reset.
    pub fn new() -> Self {
        let mut words = [0; WORDS];
        unsafe { ffi::einflyga_fresh(words.as_mut_ptr()) };
        Controller { words }
    }

    /// A controller in a state taken out before.
    pub fn from_words(words: [u16; WORDS]) -> Self {
        Controller { words }
    }

    /// The state.
    pub fn words(&self) -> &[u16; WORDS] {
        &self.words
    }

    /// The reset line.
    pub fn reset(&mut self) {
        unsafe { ffi::einflyga_reset(self.words.as_mut_ptr()) }
    }

    /// Writes the pointer, which keeps bits 1 to 6.
    pub fn write_pointer(&mut self, pointer: u16) {
        unsafe { ffi::einflyga_write_pointer(self.words.as_mut_ptr(), pointer) }
    }

    /// Reads the pointer.
    pub fn read_pointer(&self) -> u16 {
        unsafe { ffi::einflyga_read_pointer(self.words.as_ptr()) }
    }

    /// Writes the register at the pointer.
    pub fn write(&mut self, value: u16) -> Result<(), Refusal> {
        carried(unsafe { ffi::einflyga_write(self.words.as_mut_ptr(), value) }).map(|_| ())
    }

    /// Reads the register at the pointer.
    pub fn read(&self) -> Result<u16, Refusal> {
        let answer = unsafe { ffi::einflyga_read(self.words.as_ptr()) };
        carried(answer).map(upper_half)
    }

    /// Puts a channel's request line at a level; the number is a [`Channel`] or a plain number.
    pub fn line(&mut self, channel: impl Into<u32>, active: bool) -> Result<(), Refusal> {
        let state = self.words.as_mut_ptr();
        carried(unsafe { ffi::einflyga_line(state, channel.into(), active) }).map(|_| ())
    }

    /// Acknowledges an interrupt.
    pub fn acknowledge(&mut self) -> Result<Interrupt, Refusal> {
        let answer = unsafe { ffi::einflyga_acknowledge(self.words.as_mut_ptr()) };
        carried(answer).map(|answer| Interrupt {
            channel: channel(answer >> 8 & 3),
            save: (answer & 0x400 != 0).then(|| upper_half(answer)),
        })
    }

    /// Does one step, with EOP given or not.
    pub fn step(&mut self, eop: bool, memory: &mut [u8], io: &mut [u8]) -> Result<Step, Refusal> {
        step(unsafe {
            ffi::einflyga_step(
                self.words.as_mut_ptr(),
                eop,
                memory.as_mut_ptr(),
                memory.len(),
                io.as_mut_ptr(),
                io.len(),
            )
        })
    }

    /// Does up to `budget` steps without EOP.
    pub fn run(&mut self, budget: u32, memory: &mut [u8], io: &mut [u8]) -> Result<Run, Refusal> {
        let answer = unsafe {
            ffi::einflyga_run(
                self.words.as_mut_ptr(),
                budget,
                memory.as_mut_ptr(),
                memory.len(),
                io.as_mut_ptr(),
                io.len(),
            )
        };
        match step(answer as u32) {
            Err(Refusal::RunTooLong) => Err(Refusal::RunTooLong),
            last => Ok(Run {
                last,
                steps: (answer >> 32) as u32,
            }),
        }
    }

    /// Says why a channel stands still, over these spaces, and changes nothing.
    pub fn why(&self, channel: impl Into<u32>, memory: &[u8], io: &[u8]) -> Result<Cause, Refusal> {
        let state = self.words.as_ptr();
        let answer = unsafe { ffi::einflyga_why(state, channel.into(), memory.len(), io.len()) };
        carried(answer).map(|answer| {
            Cause::from_number((answer >> 8) as u8).expect("the library answers a reason")
        })
    }
}

/// The answer of a call that was carried out, or else its refusal.
fn carried(answer: u32) -> Result<u32, Refusal> {
    match answer as u8 {
        0 => Ok(answer),
        number => Err(Refusal::ALL[usize::from(number) - 1]),
    }
}

fn upper_half(answer: u32) -> u16 {
    (answer >> 16) as u16
}

fn channel(number: u32) -> Channel {
    Channel::from_number(number).expect("the library answers channel 1 or 2")
}

/// A step's answer, taken out of its bits.
fn step(answer: u32) -> Result<Step, Refusal> {
    carried(answer)?;
    let channel = || channel(answer >> 16 & 0xFF);
    let upper =
        || UpperChanges::from_number((answer >> 28 & 3) as u8).expect("the library answers 0 to 2");
    Ok(match answer >> 8 & 0xFF {
        0 => Step::Disabled,
        1 => Step::Idle,
        2 => Step::NoteGivenBack,
        3 => Step::BusGivenBack,
        4 => Step::Holding(channel()),
        5 => Step::Fetched(channel(), upper()),
        6 => Step::Dropped(channel()),
        7 => Step::Unit(channel(), Reasons::from_bits((answer >> 24) as u8), upper()),
        8 => Step::Ended(channel()),
        kind => unreachable!("the library answers no kind {kind}"),
    })
}
