//! Random words as state: no call crashes, writes outside what it is lent or answers outside its interface.

mod rng;

use einflyga::{ffi, Cause, LONGEST_RUN, WORDS};
use rng::Rng;
use std::ptr;

const ROUNDS: u64 = 200_000;
const GUARD: usize = 16;

// The refusal numbers that each call may give.
const CARRIED: u8 = 0;
const WRITE: &[u8] = &[CARRIED, 1, 2, 3, 4, 5];
const READ: &[u8] = &[CARRIED, 1];
const LINE: &[u8] = &[CARRIED, 10];
const ACKNOWLEDGE: &[u8] = &[CARRIED, 9];
const STEP: &[u8] = &[CARRIED, 6, 7, 8];
const WHY: &[u8] = &[CARRIED, 10];
const RUN: &[u8] = &[CARRIED, 6, 7, 8, 11];

/// Something that is lent, between guards that must stay as they are.
struct Guarded<T> {
    all: Vec<T>,
    guards: [Vec<T>; 2],
    length: usize,
}

impl<T: Copy + PartialEq> Guarded<T> {
    /// All but a guard at each end is lent.
    fn new(all: Vec<T>) -> Self {
        let length = all.len() - 2 * GUARD;
        let guards = [all[..GUARD].to_vec(), all[GUARD + length..].to_vec()];
        Guarded {
            all,
            guards,
            length,
        }
    }

    fn lent(&mut self) -> *mut T {
        self.all[GUARD..].as_mut_ptr()
    }

    fn guards_stand(&self) -> bool {
        self.all[..GUARD] == self.guards[0] && self.all[GUARD + self.length..] == self.guards[1]
    }
}

impl Guarded<u8> {
    /// The pointer and the length, sometimes null where nothing is lent.
    fn space(&mut self, rng: &mut Rng) -> (*mut u8, usize) {
        if self.length == 0 && rng.flag() {
            (ptr::null_mut(), 0)
        } else {
            (self.lent(), self.length)
        }
    }
}

fn random_word(rng: &mut Rng) -> u16 {
    let random = rng.word();
    rng.pick(&[0, 1, 2, 3, random, random, 0xFFFF])
}

/// Random words, half of the time enabled so that steps do something.
fn random_state(rng: &mut Rng) -> Guarded<u16> {
    let words = (0..WORDS + 2 * GUARD).map(|_| random_word(rng)).collect();
    let mut state = Guarded::new(words);
    if rng.flag() {
        state.all[GUARD + 1] |= 1;
    }
    state
}

fn random_space(rng: &mut Rng) -> Guarded<u8> {
    let length = match rng.below(128) {
        0..=31 => 0,
        32..=47 => 1,
        48..=126 => rng.below(70) as usize,
        _ => 65_530 + rng.below(10) as usize,
    };
    Guarded::new(rng.bytes(length + 2 * GUARD))
}

fn random_budget(rng: &mut Rng) -> u32 {
    match rng.below(500) {
        0 => LONGEST_RUN,
        1..=20 => LONGEST_RUN + 1 + rng.next() as u32 % 1000,
        21..=30 => rng.next() as u32 | 1 << 31,
        _ => rng.below(200) as u32,
    }
}

/// The refusal is in the call's list, and a refused call answers nothing else.
fn check_refusal(answer: u32, list: &[u8]) -> bool {
    list.contains(&(answer as u8)) && (answer as u8 == CARRIED || answer >> 8 == 0)
}

fn check_acknowledge(answer: u32) -> bool {
    let channel = answer >> 8 & 3;
    let has_word = answer & 0x400 != 0;
    answer & 0xF800 == 0 && matches!(channel, 1 | 2) && (has_word || answer >> 16 == 0)
}

fn check_step(answer: u32) -> bool {
    let [_, kind, channel, top] = answer.to_le_bytes();
    let [reasons, upper] = [top & 0xF, top >> 4];
    match kind {
        0..=3 => channel == 0 && top == 0,
        5 => matches!(channel, 1 | 2) && reasons == 0 && upper <= 1,
        7 => matches!(channel, 1 | 2) && reasons < 8 && upper <= 2,
        4 | 6 | 8 => matches!(channel, 1 | 2) && top == 0,
        _ => false,
    }
}

/// Makes one random call and checks its answer.
fn call(rng: &mut Rng, state: *mut u16, memory: (*mut u8, usize), io: (*mut u8, usize)) -> bool {
    let is_carried = |answer: u32| answer as u8 == CARRIED;
    unsafe {
        match rng.below(13) {
            0 => {
                ffi::einflyga_fresh(state);
                true
            }
            1 => {
                ffi::einflyga_reset(state);
                true
            }
            2 => {
                ffi::einflyga_write_pointer(state, rng.word());
                true
            }
            3 => {
                ffi::einflyga_read_pointer(state);
                true
            }
            4 | 5 => {
                let answer = ffi::einflyga_write(state, rng.word());
                check_refusal(answer, WRITE) && answer >> 8 == 0
            }
            6 => {
                let answer = ffi::einflyga_read(state);
                check_refusal(answer, READ) && answer & 0xFF00 == 0
            }
            7 => {
                let channel = rng.pick(&[0, 1, 2, 3, 257, u32::MAX]);
                let answer = ffi::einflyga_line(state, channel, rng.flag());
                check_refusal(answer, LINE) && answer >> 8 == 0
            }
            8 => {
                let answer = ffi::einflyga_acknowledge(state);
                check_refusal(answer, ACKNOWLEDGE)
                    && (!is_carried(answer) || check_acknowledge(answer))
            }
            9 => {
                let channel = rng.pick(&[0, 1, 2, 3, 257, u32::MAX]);
                let answer = ffi::einflyga_why(state, channel, memory.1, io.1);
                check_refusal(answer, WHY)
                    && (!is_carried(answer) || Cause::from_number((answer >> 8) as u8).is_some())
                    && answer >> 16 == 0
            }
            10 | 11 => {
                let eop = rng.flag();
                let answer = ffi::einflyga_step(state, eop, memory.0, memory.1, io.0, io.1);
                check_refusal(answer, STEP) && (!is_carried(answer) || check_step(answer))
            }
            _ => {
                let budget = random_budget(rng);
                let answer = ffi::einflyga_run(state, budget, memory.0, memory.1, io.0, io.1);
                let [last, steps] = [answer as u32, (answer >> 32) as u32];
                check_refusal(last, RUN)
                    && (!is_carried(last) || check_step(last))
                    && (last == 11) == (budget > LONGEST_RUN)
                    && steps <= if last == 11 { 0 } else { budget }
            }
        }
    }
}

#[test]
fn random_states() {
    let mut rng = Rng::new(0x9516_0BAD);
    for round in 0..ROUNDS {
        let mut state = random_state(&mut rng);
        let mut memory = random_space(&mut rng);
        let mut io = random_space(&mut rng);
        for _ in 0..4 {
            let spaces = [memory.space(&mut rng), io.space(&mut rng)];
            let answer_is_good = call(&mut rng, state.lent(), spaces[0], spaces[1]);
            assert!(
                answer_is_good,
                "round {round}: an answer outside the interface"
            );
            assert!(
                state.guards_stand(),
                "round {round}: a write beside the state"
            );
            assert!(
                memory.guards_stand(),
                "round {round}: a write beside memory"
            );
            assert!(io.guards_stand(), "round {round}: a write beside I/O");
        }
    }
}
