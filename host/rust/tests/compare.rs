//! Random comparison of the proved library with the plain model, call by call.
//!
//! `EINFLYGA_SEED` runs one case again, `EINFLYGA_CASES` says how many cases to run.

mod chip;
mod rng;

use chip::Chip;
use einflyga::plain::Plain;
use einflyga::{
    port, Cause, Channel, Controller, Interrupt, Refusal, Run, Step, LONGEST_RUN, WORDS,
};
use rng::{from_environment, Rng};

const CASES: u64 = 80_000;
const CALLS: u64 = 120;
/// The states from which every command byte is written.
const COMMANDED_STATES: u64 = 1_000;
/// What the fixed seeds are drawn from.
const BASE_SEED: u64 = 0x9516_0A00;

/// What the table must show for every line: one in so many calls.
const RAREST: u64 = 50_000;

const CARRIED_OPERATIONS: [usize; 10] = [0x0, 0x1, 0x4, 0x5, 0x8, 0x9, 0xC, 0xD, 0xE, 0xF];
/// The operations that compare words and those that compare bytes, with what MCH and MCL may be after them.
const COMPARING: [(&str, &[usize], &[usize]); 2] = [
    ("words", &[0x4, 0xC, 0xD, 0xE], &[0b00, 0b01, 0b10, 0b11]),
    ("bytes", &[0x5, 0xF], &[0b00, 0b11]),
];

/// What moves in a unit, and how often the upper address byte may change in it.
const MOVEMENTS: [(&str, u8); 3] = [("transfer", 2), ("search", 1), ("funnel", 2)];

/// The row of `MOVEMENTS` for a mode's operation.
fn movement(mode: usize) -> usize {
    match mode & 0xF {
        0x8 | 0x9 | 0xC | 0xD => 2,
        0xE | 0xF => 1,
        _ => 0,
    }
}

#[derive(Clone, Copy, Debug)]
enum Call {
    Fresh,
    Reset,
    WritePointer(u16),
    ReadPointer,
    Write(u16),
    Read,
    Line(u32, bool),
    Acknowledge,
    Step(bool),
    Run(u32),
    Why(u32),
}

#[derive(Clone, Copy, Debug, PartialEq, Eq)]
enum Answer {
    Nothing,
    Pointer(u16),
    Carried(Result<(), Refusal>),
    Register(Result<u16, Refusal>),
    Interrupt(Result<Interrupt, Refusal>),
    Step(Result<Step, Refusal>),
    Run(Result<Run, Refusal>),
    Why(Result<Cause, Refusal>),
}

impl Answer {
    fn refusal(self) -> Option<Refusal> {
        match self {
            Answer::Nothing | Answer::Pointer(_) => None,
            Answer::Carried(answer) => answer.err(),
            Answer::Register(answer) => answer.err(),
            Answer::Interrupt(answer) => answer.err(),
            Answer::Step(answer) => answer.err(),
            Answer::Run(answer) => answer.map_or_else(Some, |run| run.last.err()),
            Answer::Why(answer) => answer.err(),
        }
    }
}

/// One of the two sides, with its own spaces.
struct Side<C> {
    chip: C,
    memory: Vec<u8>,
    io: Vec<u8>,
}

impl<C: Chip> Side<C> {
    fn perform(&mut self, call: Call) -> Answer {
        let Side { chip, memory, io } = self;
        match call {
            Call::Fresh => *chip = C::new(),
            Call::Reset => chip.reset(),
            Call::WritePointer(pointer) => chip.write_pointer(pointer),
            Call::ReadPointer => return Answer::Pointer(chip.read_pointer()),
            Call::Write(value) => return Answer::Carried(chip.write(value)),
            Call::Read => return Answer::Register(chip.read()),
            Call::Line(channel, active) => return Answer::Carried(chip.line(channel, active)),
            Call::Acknowledge => return Answer::Interrupt(chip.acknowledge()),
            Call::Step(eop) => return Answer::Step(chip.step(eop, memory, io)),
            Call::Run(budget) => return Answer::Run(chip.run(budget, memory, io)),
            Call::Why(channel) => return Answer::Why(chip.why(channel, memory, io)),
        }
        Answer::Nothing
    }
}

/// How often each thing was met.
#[derive(Default)]
struct Tally {
    calls: u64,
    kinds: [u64; 9],
    refusals: [u64; 12],
    /// By operation and flip.
    units: [[u64; 2]; 16],
    modes: [u64; 4],
    reasons: [u64; 8],
    /// By row of `MOVEMENTS` and number of changes of the upper address byte; and of fetches.
    unit_changes: [[u64; 3]; 3],
    fetch_changes: [u64; 3],
    /// By row of `COMPARING`, match control, and MCH with MCL.
    compared: [[[u64; 4]; 4]; 2],
    /// By reload bit.
    entries: [u64; 10],
    /// By channel and reason.
    causes: [[u64; 17]; 2],
    second_interrupts: u64,
    wordless_interrupts: u64,
    whole_runs: u64,
    stopped_runs: u64,
}

impl Tally {
    fn count(&mut self, before: &State, after: &State, answer: Answer) {
        self.calls += 1;
        if let Some(refusal) = answer.refusal() {
            self.refusals[usize::from(refusal.number())] += 1;
        }
        match answer {
            Answer::Step(Ok(step)) => self.count_step(before, after, step),
            Answer::Interrupt(Ok(interrupt)) => {
                self.second_interrupts += u64::from(before.sip(interrupt.channel));
                self.wordless_interrupts += u64::from(interrupt.save.is_none());
            }
            Answer::Run(Ok(run)) if run.steps > 0 => match run.last {
                Err(_) | Ok(Step::Idle | Step::Disabled | Step::Holding(_)) => {
                    self.stopped_runs += 1
                }
                Ok(_) => self.whole_runs += 1,
            },
            _ => {}
        }
    }

    fn count_step(&mut self, before: &State, after: &State, step: Step) {
        let kind = match step {
            Step::Disabled => 0,
            Step::Idle => 1,
            Step::NoteGivenBack => 2,
            Step::BusGivenBack => 3,
            Step::Holding(_) => 4,
            Step::Fetched(..) => 5,
            Step::Dropped(_) => 6,
            Step::Unit(..) => 7,
            Step::Ended(_) => 8,
        };
        self.kinds[kind] += 1;
        match step {
            Step::Unit(who, reasons, upper) => {
                let mode = usize::from(before.mode_low(who));
                self.units[mode & 0xF][mode >> 4 & 1] += 1;
                self.modes[mode >> 5 & 3] += 1;
                self.reasons[usize::from(reasons.bits())] += 1;
                self.unit_changes[movement(mode)][usize::from(upper.number())] += 1;
                for ((_, operations, _), met) in COMPARING.iter().zip(&mut self.compared) {
                    if operations.contains(&(mode & 0xF)) {
                        met[before.match_control(who)][after.halves(who)] += 1;
                    }
                }
            }
            Step::Fetched(_, upper) => {
                self.fetch_changes[usize::from(upper.number())] += 1;
                if before.reload_bits() != 0 {
                    self.entries[top_bit(before.reload_bits()) as usize] += 1;
                }
            }
            _ => {}
        }
    }

    fn rows(&self) -> Vec<(String, u64)> {
        const KINDS: [&str; 9] = [
            "disabled",
            "idle",
            "given back, note",
            "given back, bus",
            "holding",
            "fetched",
            "dropped",
            "unit",
            "ended",
        ];
        const MODES: [&str; 4] = ["single", "hold", "release", "interleave"];
        let mut rows = Vec::new();
        for (name, &met) in KINDS.iter().zip(&self.kinds) {
            rows.push((format!("step {name}"), met));
        }
        for refusal in Refusal::ALL {
            let number = refusal.number();
            rows.push((
                format!("refusal {number}"),
                self.refusals[usize::from(number)],
            ));
        }
        for operation in CARRIED_OPERATIONS {
            for (flip, met) in self.units[operation].into_iter().enumerate() {
                rows.push((format!("operation {operation:X}, flip {flip}"), met));
            }
        }
        for (name, &met) in MODES.iter().zip(&self.modes) {
            rows.push((format!("unit in {name}"), met));
        }
        for (bits, &met) in self.reasons.iter().enumerate() {
            rows.push((format!("unit with EOP, MC, TC {bits:03b}"), met));
        }
        for ((name, most), met) in MOVEMENTS.iter().zip(&self.unit_changes) {
            for changes in 0..=*most {
                rows.push((
                    format!("{name} with {changes} changes of the upper byte"),
                    met[usize::from(changes)],
                ));
            }
        }
        for (changes, &met) in self.fetch_changes[..2].iter().enumerate() {
            rows.push((
                format!("fetch with {changes} changes of the upper byte"),
                met,
            ));
        }
        for ((data, _, told), met) in COMPARING.iter().zip(&self.compared) {
            for (control, met) in met.iter().enumerate() {
                for &halves in *told {
                    let name = format!("{data}, match control {control}, MCH, MCL {halves:02b}");
                    rows.push((name, met[halves]));
                }
            }
        }
        for (bit, &met) in self.entries.iter().enumerate() {
            rows.push((format!("fetch for reload bit {bit}"), met));
        }
        for (who, met) in Channel::BOTH.into_iter().zip(&self.causes) {
            for cause in Cause::ALL {
                let name = format!("channel {}: {cause}", who.number());
                rows.push((name, met[usize::from(cause.number())]));
            }
        }
        rows.push(("acknowledge of SIP".into(), self.second_interrupts));
        rows.push(("acknowledge without word".into(), self.wordless_interrupts));
        rows.push(("run of the whole budget".into(), self.whole_runs));
        rows.push(("run that stopped".into(), self.stopped_runs));
        rows
    }

    /// Prints the table; a generator that does not reach things fails.
    fn report(&self) {
        println!("{:>10} calls", self.calls);
        for (name, met) in self.rows() {
            println!("{met:>10} {name}");
            assert!(met >= self.calls / RAREST, "{name}: met only {met} times");
        }
    }
}

/// The words of a state, by name.
#[derive(Clone, Copy)]
struct State([u16; WORDS]);

impl State {
    fn channel(&self, who: Channel, offset: usize) -> u16 {
        self.0[channel_start(who) + offset]
    }

    fn mode_low(&self, who: Channel) -> u16 {
        self.channel(who, 13)
    }

    fn match_control(&self, who: Channel) -> usize {
        usize::from(self.channel(who, 12) & 3)
    }

    /// MCH and MCL as bits 1 and 0.
    fn halves(&self, who: Channel) -> usize {
        usize::from(self.channel(who, 23) << 1 | self.channel(who, 24))
    }

    fn sip(&self, who: Channel) -> bool {
        self.channel(who, 18) != 0
    }

    fn nac(&self, who: Channel) -> bool {
        self.channel(who, 22) != 0
    }

    fn reload_bits(&self) -> u16 {
        self.0[4]
    }

    fn chain_under_way(&self) -> bool {
        self.0[2] != 0
    }

    fn bus_in_use(&self) -> bool {
        self.chain_under_way() || self.0[7] != 0
    }

    fn enabled(&self) -> bool {
        self.0[1] & 1 != 0
    }
}

fn top_bit(bits: u16) -> u32 {
    15 - bits.leading_zeros()
}

fn channel_start(who: Channel) -> usize {
    match who {
        Channel::One => 10,
        Channel::Two => 41,
    }
}

/// One case: both sides, and the generator of what is done to them.
struct Case<'a> {
    seed: u64,
    rng: Rng,
    proved: Side<Controller>,
    plain: Side<Plain>,
    state: State,
    /// Where chain tables are put.
    slots: [u32; 4],
    /// Whether data are drawn from few values, so that searches hit.
    few_values: bool,
    /// Whether addresses mostly stand at the ends of pages and step, so that both of a unit's leave theirs.
    at_ends: bool,
    tally: &'a mut Tally,
}

impl<'a> Case<'a> {
    fn new(seed: u64, lengths: Option<[usize; 2]>, tally: &'a mut Tally) -> Self {
        let mut rng = Rng::new(seed);
        let [memory, io] =
            lengths.unwrap_or_else(|| [space_length(&mut rng), space_length(&mut rng)]);
        let few_values = rng.flag();
        let at_ends = rng.one_in(3);
        let memory = random_space(&mut rng, memory, few_values);
        let io = random_space(&mut rng, io, few_values);
        let slots = [0; 4].map(|_| slot(&mut rng, memory.len()));
        let words = if rng.one_in(3) {
            scattered_state(&mut rng, memory.len(), at_ends)
        } else {
            Plain::new().words()
        };
        Case {
            seed,
            rng,
            proved: Side {
                chip: Chip::from_words(&words),
                memory: memory.clone(),
                io: io.clone(),
            },
            plain: Side {
                chip: Chip::from_words(&words),
                memory,
                io,
            },
            state: State(words),
            slots,
            few_values,
            at_ends,
            tally,
        }
    }

    fn run(mut self, calls: u64) {
        let last = self.tally.calls + calls;
        while self.tally.calls < last {
            self.act();
        }
        if !self.same_spaces(|proved, plain| proved == plain) {
            self.fail("the spaces after the last call");
        }
    }

    /// Makes one call on both sides and compares all that can be seen.
    fn call(&mut self, call: Call) -> Answer {
        let causes = Channel::BOTH.map(|who| self.why(who));
        let proved = self.proved.perform(call);
        let plain = self.plain.perform(call);
        let words = self.plain.chip.words();
        let lent = matches!(call, Call::Step(_) | Call::Run(_));
        let same = proved == plain
            && *self.proved.chip.words() == words
            && (!lent || self.same_spaces(same_ends));
        if !same {
            self.fail(&format!("{call:?}\nproved {proved:?}\nplain  {plain:?}"));
        }
        if let (Call::Step(false), Answer::Step(step)) = (call, plain) {
            for (who, cause) in Channel::BOTH.into_iter().zip(causes) {
                let served =
                    matches!(step, Ok(Step::Fetched(w, _) | Step::Unit(w, ..)) if w == who);
                if served != (cause == Cause::NothingWrong) {
                    self.fail(&format!("{who:?}: {cause}, and then {step:?}"));
                }
            }
        }
        let before = std::mem::replace(&mut self.state, State(words));
        self.tally.count(&before, &self.state, plain);
        plain
    }

    /// Asks both sides why a channel stands still; that changes nothing.
    fn why(&mut self, who: Channel) -> Cause {
        let proved = self.proved.perform(Call::Why(who.into()));
        let plain = self.plain.perform(Call::Why(who.into()));
        let cause = match plain {
            Answer::Why(Ok(cause)) if proved == plain && self.same_words() => cause,
            _ => self.fail(&format!("why {who:?}\nproved {proved:?}\nplain  {plain:?}")),
        };
        self.tally.causes[who as usize][usize::from(cause.number())] += 1;
        cause
    }

    fn same_words(&self) -> bool {
        *self.proved.chip.words() == self.state.0 && self.plain.chip.words() == self.state.0
    }

    fn same_spaces(&self, same: fn(&[u8], &[u8]) -> bool) -> bool {
        same(&self.proved.memory, &self.plain.memory) && same(&self.proved.io, &self.plain.io)
    }

    fn fail(&self, at: &str) -> ! {
        eprintln!("before: {:04X?}", self.state.0);
        for (at, before) in self.state.0.into_iter().enumerate() {
            let [proved, plain] = [self.proved.chip.words()[at], self.plain.chip.words()[at]];
            if proved != plain {
                eprintln!("word {at}: {before:04X} before, proved {proved:04X}, plain {plain:04X}");
            }
        }
        let spaces = [
            ("memory", &self.proved.memory, &self.plain.memory),
            ("I/O", &self.proved.io, &self.plain.io),
        ];
        for (name, proved, plain) in spaces {
            eprintln!("{name} of {} bytes", plain.len());
            for (at, (proved, plain)) in proved.iter().zip(plain).enumerate() {
                if proved != plain {
                    eprintln!("{name} {at:06X}: proved {proved:02X}, plain {plain:02X}");
                }
            }
        }
        panic!("seed {:#x} (again: EINFLYGA_SEED={0:#x}), {at}", self.seed);
    }

    /// Does one random thing that a host may do.
    fn act(&mut self) {
        match self.rng.below(100) {
            0..=44 => self.step(),
            45..=54 => self.small_run(),
            55 => self.great_run(),
            56..=64 => self.toggle_line(),
            65..=69 => drop(self.call(Call::Acknowledge)),
            70..=78 => self.random_command(),
            79..=81 => self.random_write(),
            82..=85 => self.random_read(),
            86..=87 => self.write_master_mode(),
            88..=95 => self.start_some_chain(),
            96..=97 => self.change_data(),
            98 if self.rng.flag() => self.ask_any_channel(),
            98 => self.random_pointer(),
            _ => self.reset(),
        }
    }

    /// Steps, then helps on what stands still, so that most steps do something.
    fn step(&mut self) {
        let chances = if self.state.chain_under_way() { 40 } else { 8 };
        let eop = self.rng.one_in(chances);
        let answer = self.call(Call::Step(eop));
        if self.rng.flag() {
            return;
        }
        match answer {
            Answer::Step(Ok(Step::Disabled)) => self.write_master_mode(),
            Answer::Step(Ok(Step::Idle)) => self.ask_for_a_unit(),
            Answer::Step(Ok(Step::Unit(who, ..))) if self.rng.one_in(4) => {
                self.call(Call::Line(who.into(), false));
            }
            Answer::Step(Ok(Step::Fetched(..))) => self.small_run(),
            // Such a refusal stays until Reset.
            Answer::Step(Err(_)) if self.state.bus_in_use() => self.reset(),
            Answer::Step(Err(_)) => self.start_some_chain(),
            _ => {}
        }
    }

    fn ask_for_a_unit(&mut self) {
        let who = self.some_channel();
        if self.state.nac(who) {
            self.start_some_chain();
        } else if self.rng.flag() {
            self.call(Call::Line(who.into(), true));
        } else {
            self.write(port::COMMAND.of(who), 0x41 + u16::from(who.number()));
        }
    }

    fn small_run(&mut self) {
        let budget = self.rng.below(40) as u32;
        self.call(Call::Run(budget));
    }

    fn great_run(&mut self) {
        let random = self.rng.next() as u32;
        let budget = self
            .rng
            .pick(&[0, 1000, LONGEST_RUN, LONGEST_RUN + 1, u32::MAX, random]);
        self.call(Call::Run(budget));
    }

    fn toggle_line(&mut self) {
        let random = self.rng.next() as u32;
        let channel = self.rng.pick(&[1, 1, 1, 1, 2, 2, 2, 2, 0, 3, 257, random]);
        let active = self.rng.below(5) < 3;
        self.call(Call::Line(channel, active));
    }

    fn ask_any_channel(&mut self) {
        let random = self.rng.next() as u32;
        let channel = self.rng.pick(&[0, 1, 2, 3, 257, u32::MAX, random]);
        self.call(Call::Why(channel));
    }

    fn some_channel(&mut self) -> Channel {
        self.rng.pick(&Channel::BOTH)
    }

    fn write(&mut self, port: u16, value: u16) {
        self.call(Call::WritePointer(port));
        self.call(Call::Write(value));
    }

    fn random_command(&mut self) {
        let at = self.some_channel();
        let kind = self.rng.pick(&[1, 1, 1, 2, 2, 2, 2, 3, 4, 4, 5, 6, 7]);
        let unused = self.rng.word() & 0xFF1C;
        let sets = u16::from(self.rng.below(3) > 0) << 1;
        let who = u16::from(self.rng.flag());
        self.write(port::COMMAND.of(at), unused | kind << 5 | sets | who);
    }

    fn random_write(&mut self) {
        let who = self.some_channel();
        let (port, value) = match self.rng.below(9) {
            0 => (self.rng.word(), self.rng.word()),
            1 => (port::MODE_LOW.of(who), self.mode_low()),
            2 => (self.count_port(who), self.count()),
            3 => (self.upper_port(who), self.upper()),
            4 => (self.lower_port(who), self.lower()),
            5 => (port::PATTERN.of(who), self.datum()),
            6 => (port::MASK.of(who), self.mask()),
            7 => (port::VECTOR.of(who), self.rng.word()),
            _ => (port::CHAIN_LOWER.of(who), self.chain_address() as u16),
        };
        self.write(port, value);
    }

    fn count_port(&mut self, who: Channel) -> u16 {
        self.rng
            .pick(&[port::CURRENT_COUNT, port::BASE_COUNT])
            .of(who)
    }

    fn upper_port(&mut self, who: Channel) -> u16 {
        let ports = [
            port::CURRENT_A_UPPER,
            port::CURRENT_B_UPPER,
            port::BASE_A_UPPER,
            port::BASE_B_UPPER,
        ];
        self.rng.pick(&ports).of(who)
    }

    fn lower_port(&mut self, who: Channel) -> u16 {
        let ports = [
            port::CURRENT_A_LOWER,
            port::CURRENT_B_LOWER,
            port::BASE_A_LOWER,
            port::BASE_B_LOWER,
        ];
        self.rng.pick(&ports).of(who)
    }

    fn random_read(&mut self) {
        let who = self.some_channel();
        let random = self.rng.word();
        let port = self
            .rng
            .pick(&[port::STATUS.of(who), random, random, random & 0x5E]);
        self.call(Call::WritePointer(port));
        self.call(Call::Read);
    }

    fn random_pointer(&mut self) {
        let pointer = self.rng.word();
        self.call(Call::WritePointer(pointer));
        self.call(Call::ReadPointer);
    }

    fn write_master_mode(&mut self) {
        let enable = u16::from(!self.rng.one_in(6));
        let others = self.rng.word() & 0xFFFE;
        self.write(port::MASTER_MODE, others | enable);
    }

    fn reset(&mut self) {
        match self.rng.below(8) {
            0 => drop(self.call(Call::Fresh)),
            1..=3 => drop(self.call(Call::Reset)),
            _ => {
                let at = self.some_channel();
                let unused = self.rng.word() & 0xFF1F;
                self.write(port::COMMAND.of(at), unused);
            }
        }
    }

    /// Sets a channel up as a host does: a table, its address, Start Chain, enable.
    fn start_some_chain(&mut self) {
        let who = self.some_channel();
        if !self.state.nac(who) && self.rng.flag() {
            return;
        }
        let address = self.chain_address();
        self.put_table(address);
        let waits = self.rng.word() & 0xFF;
        self.write(
            port::CHAIN_UPPER.of(who),
            (address >> 8) as u16 & 0xFF00 | waits,
        );
        self.write(port::CHAIN_LOWER.of(who), address as u16);
        let start_chain = if who == Channel::One { 0xA0 } else { 0xA1 };
        self.write(port::COMMAND.of(who), start_chain);
        if !self.state.enabled() && !self.rng.one_in(8) {
            let others = self.rng.word() & 0xFFFE;
            self.write(port::MASTER_MODE, others | 1);
        }
    }

    /// The host changes bytes of its own.
    fn change_data(&mut self) {
        if self.rng.flag() {
            let slot = self.rng.pick(&self.slots);
            self.put_table(slot);
        } else {
            let at = self.lower();
            let datum = self.datum();
            self.put_word(at.into(), datum);
        }
    }

    fn put_word(&mut self, address: u32, word: u16) {
        for memory in [&mut self.proved.memory, &mut self.plain.memory] {
            for (at, byte) in (address..).zip(word.to_be_bytes()) {
                if let Some(place) = memory.get_mut(at as usize) {
                    *place = byte;
                }
            }
        }
    }

    /// Writes a random chain table into memory.
    fn put_table(&mut self, address: u32) {
        let reload = self.reload_word();
        let mut table = vec![reload];
        for bit in (0..10).rev().filter(|bit| reload >> bit & 1 != 0) {
            match bit {
                9 | 8 | 6 | 5 => table.extend([self.upper(), self.lower()]),
                7 | 4 => table.push(self.count()),
                3 => table.extend([self.datum(), self.mask()]),
                2 => table.push(self.rng.word()),
                1 => table.extend([self.mode_high(), self.mode_low()]),
                _ => {
                    let next = self.chain_address();
                    let waits = self.rng.word() & 0xFF;
                    table.extend([(next >> 8) as u16 & 0xFF00 | waits, next as u16]);
                }
            }
        }
        for (at, word) in (address..).step_by(2).zip(table) {
            self.put_word(at & 0xFF_FFFF, word);
        }
    }

    fn reload_word(&mut self) -> u16 {
        match self.rng.below(8) {
            0 => 0x03FF,
            1 => self.rng.word() & 0xFC00,
            2..=3 => self.rng.word() | 0x0382,
            4..=5 => self
                .rng
                .pick(&[0x0382, 0x0082, 0x008A, 0x0002, 0x0100, 0x0001]),
            _ => self.rng.word(),
        }
    }

    fn chain_address(&mut self) -> u32 {
        match self.rng.below(24) {
            0 => self.rng.next() as u32 & 0xFF_FFFF,
            1 => self.rng.pick(&self.slots) | 1,
            2 => 0xFF_FFF0 | self.rng.next() as u32 & 0xE,
            _ => self.rng.pick(&self.slots),
        }
    }

    fn upper(&mut self) -> u16 {
        upper_word(&mut self.rng, self.at_ends)
    }

    fn lower(&mut self) -> u16 {
        lower_word(&mut self.rng, self.plain.memory.len(), self.at_ends)
    }

    fn count(&mut self) -> u16 {
        count(&mut self.rng)
    }

    fn mode_high(&mut self) -> u16 {
        let software_request = if self.rng.one_in(3) { 0x10 } else { 0 };
        let hardware_mask = if self.rng.one_in(4) { 0x08 } else { 0 };
        self.rng.word() & !0x18 | software_request | hardware_mask
    }

    fn mode_low(&mut self) -> u16 {
        mode_low(&mut self.rng)
    }

    fn datum(&mut self) -> u16 {
        let random = self.rng.word();
        if self.few_values {
            self.rng
                .pick(&[0x0000, 0x1212, 0x3434, 0x1234, 0x3412, 0x0012, 0xFFFF])
        } else {
            random
        }
    }

    fn mask(&mut self) -> u16 {
        let random = self.rng.word();
        self.rng
            .pick(&[0, 0, 0x00FF, 0xFF00, 0xFFFE, 0xFFFF, random])
    }
}

/// Compares the first and the last 64 KiB, which is all of the space but for a vast one.
fn same_ends(proved: &[u8], plain: &[u8]) -> bool {
    let window = plain.len().min(65_536);
    let rest = plain.len() - window;
    proved[..window] == plain[..window] && proved[rest..] == plain[rest..]
}

fn random_space(rng: &mut Rng, length: usize, few_values: bool) -> Vec<u8> {
    let mut space = rng.bytes(length);
    if few_values {
        for byte in &mut space {
            *byte = [0x00, 0x12, 0x34][usize::from(*byte % 3)];
        }
    }
    space
}

fn space_length(rng: &mut Rng) -> usize {
    match rng.below(48) {
        0 | 1 => 0,
        2 | 3 => 1,
        4..=9 => rng.below(40) as usize,
        10..=29 => 64 + rng.below(200) as usize,
        30..=45 => 1024 + rng.below(4) as usize,
        46 => 65_536,
        _ => 65_535,
    }
}

/// An even address for a chain table, mostly one where it fits.
fn slot(rng: &mut Rng, memory: usize) -> u32 {
    if rng.one_in(12) {
        0xFF_FFF0 | rng.next() as u32 & 0xE
    } else {
        rng.below(memory as u64 + 2) as u32 & !1
    }
}

fn upper_word(rng: &mut Rng, at_ends: bool) -> u16 {
    let address = match rng.below(16) {
        0..=11 => 0x0000,
        12..=14 => 0xFF00,
        _ => rng.word() & 0xFF00,
    };
    let space = if rng.below(3) > 0 { 0x40 } else { 0 };
    let tag = rng.word() & if at_ends { 0xAF } else { 0xBF };
    address | space | tag
}

fn lower_word(rng: &mut Rng, length: usize, at_ends: bool) -> u16 {
    let address = match rng.below(if at_ends { 5 } else { 16 }) {
        0..=1 => rng.below(4) as u16,
        2..=3 => 0xFFFC + rng.below(4) as u16,
        4 => rng.word(),
        _ => rng.below(length as u64 + 4) as u16,
    };
    if rng.one_in(8) {
        address
    } else {
        address & !1
    }
}

fn count(rng: &mut Rng) -> u16 {
    let random = rng.word();
    rng.pick(&[0, 1, 1, 1, 2, 2, 2, 3, 4, 6, 9, 20, 300, random])
}

fn mode_low(rng: &mut Rng) -> u16 {
    let operation = if rng.one_in(12) {
        rng.word() & 0xF
    } else {
        rng.pick(&CARRIED_OPERATIONS) as u16
    };
    rng.word() & 0xFFF0 | operation
}

/// A state that keeps to all that calls can reach, but is otherwise random.
fn scattered_state(rng: &mut Rng, memory: usize, at_ends: bool) -> [u16; WORDS] {
    let mut words = [0; WORDS];
    words[0] = rng.word() & 0x7E;
    words[1] = rng.word() & 0xF;
    words[9] = rng.below(3) as u16;
    for who in Channel::BOTH {
        let start = channel_start(who);
        words[start..start + 31].copy_from_slice(&scattered_channel(rng, memory, at_ends));
    }
    let who = rng.pick(&Channel::BOTH);
    let number = u16::from(who.number());
    match rng.below(4) {
        0 => {
            make_owner(&mut words, who);
            words[2] = number;
            if rng.flag() {
                scatter_table(rng, &mut words);
                words[channel_start(who) + 15] &= !1;
            }
        }
        1 => {
            make_owner(&mut words, who);
            words[7] = number;
            if words[channel_start(who) + 13] >> 5 & 3 == 0 {
                words[channel_start(who) + 12] |= 0x10;
            }
        }
        2 => words[8] = 1,
        _ => {}
    }
    words
}

fn scattered_channel(rng: &mut Rng, memory: usize, at_ends: bool) -> [u16; 31] {
    let mut words = [0; 31];
    for address in [0, 2, 5, 7] {
        words[address] = upper_word(rng, at_ends) & 0xFFDE;
        words[address + 1] = lower_word(rng, memory, at_ends);
    }
    words[4] = count(rng);
    words[9] = count(rng);
    words[10] = rng.word();
    words[11] = rng.word();
    words[12] = rng.word() & 0x1F;
    words[13] = mode_low(rng);
    words[14] = rng.pick(&[0, 0, 0xFF00]) | rng.word() & 6;
    words[15] = lower_word(rng, memory, at_ends);
    for flag in [16, 17, 23, 24, 25, 26, 27, 28, 29] {
        words[flag] = rng.word() & 1;
    }
    words[19] = rng.word() & 0xFF;
    words[20] = rng.word();
    // SIP, CA and NAC, NAC alone, a pending chain: none of them with another.
    match rng.below(6) {
        0 => words[18] = 1,
        1 => [words[21], words[22]] = [1, 1],
        2 => words[22] = 1,
        3 => words[30] = 1,
        _ => {}
    }
    words
}

/// A channel with the bus is enabled and has nothing that bars it.
fn make_owner(words: &mut [u16; WORDS], who: Channel) {
    words[1] |= 1;
    for flag in [18, 21, 22, 30] {
        words[channel_start(who) + flag] = 0;
    }
}

/// A chain under way in the middle of its table.
fn scatter_table(rng: &mut Rng, words: &mut [u16; WORDS]) {
    let left = 1 + rng.below(0x3FF) as u16;
    let one_word_entry = matches!(top_bit(left), 7 | 4 | 2);
    words[3] = 1;
    words[4] = left;
    if !one_word_entry && rng.flag() {
        words[5] = 1;
        if left == 1 {
            words[6] = rng.word() & 0xFF06;
        }
    }
}

/// Runs the one case of `EINFLYGA_SEED`, or else so many of so many calls.
fn run_cases(cases: u64, calls: u64, base: u64, lengths: Option<[usize; 2]>) -> Tally {
    let mut tally = Tally::default();
    if let Some(seed) = from_environment("EINFLYGA_SEED") {
        Case::new(seed, lengths, &mut tally).run(calls);
    } else {
        let mut seeds = Rng::new(base);
        for _ in 0..cases {
            Case::new(seeds.next(), lengths, &mut tally).run(calls);
        }
    }
    tally
}

#[test]
fn random_calls() {
    let cases = from_environment("EINFLYGA_CASES").unwrap_or(CASES);
    run_cases(cases, CALLS, BASE_SEED, None).report();
}

/// Spaces that reach beyond the last address, so that addresses wrap within them.
#[test]
fn random_calls_over_all_addresses() {
    run_cases(4, 2_000, BASE_SEED + 1, Some([0x100_0001, 0x100_0003]));
}

/// Each of the 256 command bytes, under any upper byte, at both ports.
#[test]
fn every_command_byte() {
    let mut rng = Rng::new(BASE_SEED + 2);
    for _ in 0..COMMANDED_STATES {
        let start = scattered_state(&mut rng, 0x1_0000, false);
        for at in Channel::BOTH {
            for byte in 0..=0xFF {
                let command = rng.word() & 0xFF00 | byte;
                let plain = written(Plain::from_words(&start), at, command);
                let proved = written(Controller::from_words(start), at, command);
                assert_eq!(plain, proved, "{command:04X} at {at:?}, from {start:?}");
            }
        }
    }
}

/// What a command written at a channel's port answers and leaves.
fn written<C: Chip>(mut chip: C, at: Channel, command: u16) -> (Result<(), Refusal>, [u16; WORDS]) {
    chip.write_pointer(port::COMMAND.of(at));
    let answer = chip.write(command);
    (answer, chip.words())
}
