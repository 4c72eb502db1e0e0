//! The calls that the proved library and the plain model share.

// Each test uses its own part of them.
#![allow(dead_code)]

use einflyga::plain::Plain;
use einflyga::{Cause, Controller, Interrupt, Refusal, Run, Step, WORDS};

pub trait Chip: Sized {
    fn new() -> Self;
    fn from_words(words: &[u16; WORDS]) -> Self;
    fn words(&self) -> [u16; WORDS];
    fn reset(&mut self);
    fn write_pointer(&mut self, pointer: u16);
    fn read_pointer(&self) -> u16;
    fn write(&mut self, value: u16) -> Result<(), Refusal>;
    fn read(&self) -> Result<u16, Refusal>;
    fn line(&mut self, channel: u32, active: bool) -> Result<(), Refusal>;
    fn acknowledge(&mut self) -> Result<Interrupt, Refusal>;
    fn step(&mut self, eop: bool, memory: &mut [u8], io: &mut [u8]) -> Result<Step, Refusal>;
    fn run(&mut self, budget: u32, memory: &mut [u8], io: &mut [u8]) -> Result<Run, Refusal>;
    fn why(&self, channel: u32, memory: &[u8], io: &[u8]) -> Result<Cause, Refusal>;
}

/// The calls that both sides have under the same names.
macro_rules! same_calls {
    ($side:ty) => {
        fn new() -> Self {
            <$side>::new()
        }

        fn reset(&mut self) {
            <$side>::reset(self)
        }

        fn write_pointer(&mut self, pointer: u16) {
            <$side>::write_pointer(self, pointer)
        }

        fn read_pointer(&self) -> u16 {
            <$side>::read_pointer(self)
        }

        fn write(&mut self, value: u16) -> Result<(), Refusal> {
            <$side>::write(self, value)
        }

        fn read(&self) -> Result<u16, Refusal> {
            <$side>::read(self)
        }

        fn line(&mut self, channel: u32, active: bool) -> Result<(), Refusal> {
            <$side>::line(self, channel, active)
        }

        fn acknowledge(&mut self) -> Result<Interrupt, Refusal> {
            <$side>::acknowledge(self)
        }

        fn step(&mut self, eop: bool, memory: &mut [u8], io: &mut [u8]) -> Result<Step, Refusal> {
            <$side>::step(self, eop, memory, io)
        }

        fn run(&mut self, budget: u32, memory: &mut [u8], io: &mut [u8]) -> Result<Run, Refusal> {
            <$side>::run(self, budget, memory, io)
        }

        fn why(&self, channel: u32, memory: &[u8], io: &[u8]) -> Result<Cause, Refusal> {
            <$side>::why(self, channel, memory, io)
        }
    };
}

impl Chip for Controller {
    fn from_words(words: &[u16; WORDS]) -> Self {
        Controller::from_words(*words)
    }

    fn words(&self) -> [u16; WORDS] {
        *self.words()
    }

    same_calls!(Controller);
}

impl Chip for Plain {
    fn from_words(words: &[u16; WORDS]) -> Self {
        Plain::from_words(words)
    }

    fn words(&self) -> [u16; WORDS] {
        self.words()
    }

    same_calls!(Plain);
}
