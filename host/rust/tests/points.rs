//! The points of document 01 and of the requests, on the plain model and on the proved library.

mod chip;

use chip::Chip;
use einflyga::{port, Cause, Channel, Controller, Reasons, Refusal, Step, UpperChanges};

const ONE: Channel = Channel::One;

// Mode words: software request; then the operation in demand hold.
const SOFTWARE_REQUEST: u16 = 0x10;
const STOP_ON_MATCH: u16 = 0x02;
const DEMAND_HOLD: u16 = 0x20;

fn write<C: Chip>(chip: &mut C, port: u16, value: u16) -> Result<(), Refusal> {
    chip.write_pointer(port);
    chip.write(value)
}

fn read<C: Chip>(chip: &mut C, port: u16) -> u16 {
    chip.write_pointer(port);
    chip.read().expect("a register")
}

fn put_words(memory: &mut [u8], words: &[u16]) {
    for (pair, word) in memory.chunks_exact_mut(2).zip(words) {
        pair.copy_from_slice(&word.to_be_bytes());
    }
}

/// An enabled controller whose channel 1 is about to chain from memory's start.
fn about_to_chain<C: Chip>() -> C {
    about_to_chain_from(0)
}

fn about_to_chain_from<C: Chip>(address: u32) -> C {
    let mut chip = C::new();
    for (port, value) in [
        (port::CHAIN_UPPER.of(ONE), (address >> 8) as u16 & 0xFF00),
        (port::CHAIN_LOWER.of(ONE), address as u16),
        (port::COMMAND.of(ONE), 0xA0),
        (port::MASTER_MODE, 1),
    ] {
        write(&mut chip, port, value).expect("a write that is carried out");
    }
    chip
}

/// The same, after the fetches of this table.
fn chained<C: Chip>(table: &[u16], memory: &mut [u8]) -> C {
    put_words(memory, table);
    let mut chip = about_to_chain::<C>();
    for _ in table {
        assert_eq!(
            chip.step(false, memory, &mut []),
            fetched(UpperChanges::None)
        );
    }
    chip
}

/// A channel 1 about to do a unit of this operation, from A to B.
fn about_to_move<C: Chip>(
    operation: u16,
    a: [u16; 2],
    b: [u16; 2],
    count: u16,
    memory: &mut [u8],
) -> C {
    let mode = [SOFTWARE_REQUEST, DEMAND_HOLD | operation];
    let table = [0x0382, a[0], a[1], b[0], b[1], count, mode[0], mode[1]];
    chained(&table, memory)
}

fn fetched(upper: UpperChanges) -> Result<Step, Refusal> {
    Ok(Step::Fetched(ONE, upper))
}

fn unit_with(reasons: Reasons, upper: UpperChanges) -> Result<Step, Refusal> {
    Ok(Step::Unit(ONE, reasons, upper))
}

fn unit(reasons: Reasons) -> Result<Step, Refusal> {
    unit_with(reasons, UpperChanges::None)
}

fn words_of_a_chain<C: Chip>(reload: u16) -> u32 {
    let mut memory = [0; 64];
    put_words(&mut memory, &[reload]);
    let run = about_to_chain::<C>()
        .run(100, &mut memory, &mut [])
        .unwrap();
    assert_eq!(run.last, Ok(Step::Idle));
    run.steps
}

fn p1_to_p3_table_lengths<C: Chip>() {
    assert_eq!(words_of_a_chain::<C>(0x0282), 6);
    assert_eq!(words_of_a_chain::<C>(0x03FF), 18);
    assert_eq!(words_of_a_chain::<C>(0xFC00), 1);
}

/// Where a unit leaves A, and that it tells the changes of A's upper byte; B holds.
fn current_a_after_a_unit<C: Chip>(operation: u16, a: [u16; 2], upper: UpperChanges) -> [u16; 2] {
    let mut memory = [0; 64];
    let mut chip = about_to_move::<C>(operation, a, [0x0050, 0x0020], 9, &mut memory);
    assert_eq!(
        chip.step(false, &mut memory, &mut []),
        unit_with(Reasons::default(), upper)
    );
    [port::CURRENT_A_UPPER, port::CURRENT_A_LOWER].map(|port| read(&mut chip, port.of(ONE)))
}

fn p4_to_p6_addresses<C: Chip>() {
    let byte = 1;
    let word = 0;
    assert_eq!(
        current_a_after_a_unit::<C>(byte, [0xFF40, 0xFFFF], UpperChanges::One),
        [0x0040, 0x0000]
    );
    assert_eq!(
        current_a_after_a_unit::<C>(word, [0x0048, 0x0000], UpperChanges::One),
        [0xFF48, 0xFFFE]
    );
    assert_eq!(
        current_a_after_a_unit::<C>(byte, [0x0000, 0x0010], UpperChanges::None),
        [0x0000, 0x0012]
    );
}

fn p7_and_p8_counts<C: Chip>() {
    for (count, left, reasons) in [
        (0x0000, 0xFFFF, Reasons::default()),
        (0x0001, 0x0000, Reasons::TC),
    ] {
        let mut memory = [0; 64];
        let mut chip = about_to_move::<C>(0, [0x40, 0x20], [0x40, 0x30], count, &mut memory);
        assert_eq!(chip.step(false, &mut memory, &mut []), unit(reasons));
        assert_eq!(read(&mut chip, port::CURRENT_COUNT.of(ONE)), left);
    }
}

fn p9_and_p10_funnelling<C: Chip>() {
    for (b_tag, datum) in [(0x0040, [0x12, 0x34]), (0x0048, [0x34, 0x12])] {
        let mut memory = [0; 64];
        let mut chip = about_to_move::<C>(8, [0x40, 0x20], [b_tag, 0x30], 1, &mut memory);
        memory[0x20..0x22].copy_from_slice(&[0x12, 0x34]);
        assert_eq!(chip.step(false, &mut memory, &mut []), unit(Reasons::TC));
        assert_eq!(memory[0x30..0x32], datum);
    }
}

/// A search of 20h for 12xxh, which is the second word there.
fn about_to_search<C: Chip>(count: u16, memory: &mut [u8]) -> C {
    let mode = [SOFTWARE_REQUEST | STOP_ON_MATCH, DEMAND_HOLD | 0xE];
    let table = [
        0x028A, 0x0040, 0x0020, count, 0x1200, 0x00FF, mode[0], mode[1],
    ];
    put_words(&mut memory[0x20..], &[0x1300, 0x12AA]);
    chained(&table, memory)
}

fn p11_search<C: Chip>() {
    let mut memory = [0; 64];
    let mut chip = about_to_search::<C>(5, &mut memory);
    assert_eq!(
        chip.step(false, &mut memory, &mut []),
        unit(Reasons::default())
    );
    assert_eq!(chip.step(false, &mut memory, &mut []), unit(Reasons::MC));
    assert_eq!(read(&mut chip, port::CURRENT_COUNT.of(ONE)), 3);
}

fn match_at_terminal_count<C: Chip>() {
    let mut memory = [0; 64];
    let mut chip = about_to_search::<C>(2, &mut memory);
    let run = chip.run(2, &mut memory, &mut []).unwrap();
    assert_eq!(run.last, unit(Reasons::TC | Reasons::MC));
    assert_eq!(run.steps, 2);
}

/// Pattern and datum: both halves match, the high one alone, the low one alone, neither. A byte datum is the high half.
const WORDS: [[u16; 2]; 4] = [
    [0x1234, 0x1234],
    [0x1234, 0x1256],
    [0x1234, 0x5634],
    [0x1234, 0x5678],
];
const BYTES: [[u16; 2]; 4] = [
    [0x1212, 0x1200],
    [0x1234, 0x1200],
    [0x1234, 0x3400],
    [0x1234, 0x5600],
];

/// MCH, MCL and MC of a unit of count 1 over such a pair, as the status has them; the interrupt save has the same.
fn compared<C: Chip>(mode: [u16; 2], [pattern, datum]: [u16; 2]) -> u16 {
    const INTERRUPT_ON_TC: u16 = 0x80;
    let table = [
        0x038A,
        0x0040,
        0x0030,
        0x0040,
        0x0038,
        1,
        pattern,
        0,
        SOFTWARE_REQUEST | mode[0],
        INTERRUPT_ON_TC | DEMAND_HOLD | mode[1],
    ];
    let mut memory = [0; 64];
    // The datum stands on both sides, so that either may be the source.
    put_words(&mut memory[0x30..], &[datum]);
    put_words(&mut memory[0x38..], &[datum]);
    let mut chip = chained::<C>(&table, &mut memory);
    chip.step(false, &mut memory, &mut []).expect("a unit");
    let status = read(&mut chip, port::STATUS.of(ONE));
    let save = read(&mut chip, port::INTERRUPT_SAVE.of(ONE));
    assert_eq!(save >> 11 & 6 | save >> 10 & 1, status >> 2 & 7);
    status >> 2 & 7
}

/// Under match control 0 to 3, each of these operations tells this of the pairs.
fn each_tells<C: Chip>(operations: &[u16], pairs: [[u16; 2]; 4], told: [[u16; 4]; 4]) {
    for &operation in operations {
        for (control, told) in (0..).zip(told) {
            let mode = [control, operation];
            assert_eq!(
                pairs.map(|pair| compared::<C>(mode, pair)),
                told,
                "{mode:X?}"
            );
        }
    }
}

fn e2_words_tell_each_half<C: Chip>() {
    let flipped_or_not = [0x04, 0x14, 0x0C, 0x1C, 0x0D, 0x1D, 0x0E, 0x1E];
    let told = [
        [0b110, 0b101, 0b011, 0b001],
        [0b110, 0b101, 0b011, 0b001],
        [0b111, 0b100, 0b010, 0b000],
        [0b111, 0b101, 0b011, 0b000],
    ];
    each_tells::<C>(&flipped_or_not, WORDS, told);
}

fn e2_bytes_keep_their_rule<C: Chip>() {
    let told = [
        [0b110, 0b001, 0b001, 0b001],
        [0b110, 0b001, 0b001, 0b001],
        [0b111, 0b000, 0b000, 0b000],
        [0b111, 0b000, 0b000, 0b000],
    ];
    each_tells::<C>(&[0x05, 0x15, 0x0F, 0x1F], BYTES, told);
}

/// An address register: its address, and a tag.
fn at(address: u32, tag: u16) -> [u16; 2] {
    [(address >> 8) as u16 & 0xFF00 | tag, address as u16]
}

/// What a unit of this operation tells of the upper byte, from these addresses of A and B.
fn upper_of_a_unit<C: Chip>(operation: u16, a: [u16; 2], b: [u16; 2]) -> u8 {
    let mut memory = [0; 64];
    let mut chip = about_to_move::<C>(operation, a, b, 9, &mut memory);
    match chip.step(false, &mut memory, &mut []) {
        Ok(Step::Unit(ONE, _, upper)) => upper.number(),
        answer => panic!("{answer:?}"),
    }
}

const MEMORY_UP: u16 = 0x40;
const MEMORY_DOWN: u16 = 0x48;
const MEMORY_HOLD: u16 = 0x50;
const IO_UP: u16 = 0x00;
const IO_DOWN: u16 = 0x08;

/// With both sides at each address, upwards and then downwards, the operations tell this; a search steps its source alone.
fn each_changes<C: Chip>(operations: &[u16], addresses: [u32; 4], told: [[u8; 4]; 2]) {
    for &operation in operations {
        for flip in [0, 0x10] {
            for (tags, told) in [[MEMORY_UP, IO_UP], [MEMORY_DOWN, IO_DOWN]]
                .iter()
                .zip(told)
            {
                for &tag in tags {
                    let upper = |address| {
                        let both = at(address, tag);
                        upper_of_a_unit::<C>(operation | flip, both, both)
                    };
                    assert_eq!(addresses.map(upper), told, "{operation:X} {flip:X} {tag:X}");
                }
            }
        }
    }
}

const WORDS_AROUND: [u32; 4] = [0x00_FFFE, 0x01_0000, 0xFF_FFFE, 0x00_0000];

fn e5_units_around_the_upper_byte<C: Chip>() {
    let bytes_around = [0x00_FFFF, 0x01_0000, 0xFF_FFFF, 0x00_0000];
    for (operations, addresses, most) in [
        ([0x0, 0x4].as_slice(), WORDS_AROUND, 2),
        (&[0x1, 0x5], bytes_around, 2),
        (&[0xE], WORDS_AROUND, 1),
        (&[0xF], bytes_around, 1),
        (&[0x8, 0x9, 0xC, 0xD], WORDS_AROUND, 2),
    ] {
        let told = [[most, 0, most, 0], [0, most, 0, most]];
        each_changes::<C>(operations, addresses, told);
    }
}

/// Either step of the byte side counts, but never both.
fn e5_funnelled_bytes<C: Chip>() {
    for operation in [0x08, 0x18, 0x0D, 0x1D] {
        for (bytes, told) in [
            (at(0x00_FFFD, MEMORY_UP), 0),
            (at(0x00_FFFE, MEMORY_UP), 1),
            (at(0x00_FFFF, MEMORY_UP), 1),
            (at(0xFF_FFFE, MEMORY_UP), 1),
            (at(0xFF_FFFF, MEMORY_UP), 1),
            (at(0x01_0002, MEMORY_DOWN), 0),
            (at(0x01_0001, MEMORY_DOWN), 1),
            (at(0x01_0000, MEMORY_DOWN), 1),
            (at(0x00_0001, MEMORY_DOWN), 1),
            (at(0x00_0000, MEMORY_DOWN), 1),
            (at(0x00_FFFB, IO_UP), 0),
            (at(0x00_FFFC, IO_UP), 1),
            (at(0x01_0003, IO_DOWN), 1),
            (at(0x01_0004, IO_DOWN), 0),
        ] {
            let word = at(0x20_0000, MEMORY_UP);
            assert_eq!(
                upper_of_a_unit::<C>(operation, bytes, word),
                told,
                "{operation:X} {bytes:X?}"
            );
        }
    }
}

fn e5_holding_never_changes<C: Chip>() {
    for operation in [0x0, 0x1, 0x8, 0xE, 0xF, 0x1E] {
        for address in WORDS_AROUND {
            let both = at(address, MEMORY_HOLD);
            assert_eq!(upper_of_a_unit::<C>(operation, both, both), 0);
        }
    }
}

/// A chain from 00FFFCh to a new address: the second fetch leaves the page, the third steps nothing.
fn e5_fetches<C: Chip>() {
    let mut memory = vec![0; 0x1_0002];
    put_words(&mut memory[0xFFFC..], &[0x0001, 0x0100, 0xFFFE]);
    let mut chip = about_to_chain_from::<C>(0x00_FFFC);
    for upper in [UpperChanges::None, UpperChanges::One, UpperChanges::None] {
        assert_eq!(chip.step(false, &mut memory, &mut []), fetched(upper));
    }
    assert_eq!(read(&mut chip, port::CHAIN_UPPER.of(ONE)), 0x0100);
    // Beyond memory the word is FFFFh; a fetch past the last address wraps.
    let mut chip = about_to_chain_from::<C>(0xFF_FFFE);
    assert_eq!(
        chip.step(false, &mut [], &mut []),
        fetched(UpperChanges::One)
    );
    assert_eq!(read(&mut chip, port::CHAIN_UPPER.of(ONE)), 0x0000);
}

/// A run tells its last step's changes, and a reload from base is no step.
fn e5_runs_and_reloads<C: Chip>() {
    let reload_on_tc = 0x0400;
    let mut memory = [0; 64];
    let mut chip = about_to_move::<C>(
        reload_on_tc,
        at(0x00_FFFC, MEMORY_UP),
        at(0x00_0020, MEMORY_UP),
        2,
        &mut memory,
    );
    let run = chip.run(2, &mut memory, &mut []).unwrap();
    assert_eq!(run.last, unit_with(Reasons::TC, UpperChanges::One));
    assert_eq!(read(&mut chip, port::CURRENT_A_UPPER.of(ONE)), 0x0000);
    let mut chip = about_to_move::<C>(
        reload_on_tc,
        at(0x01_0000, MEMORY_UP),
        at(0x01_0000, MEMORY_UP),
        1,
        &mut memory,
    );
    assert_eq!(chip.step(false, &mut memory, &mut []), unit(Reasons::TC));
    assert_eq!(read(&mut chip, port::CURRENT_A_UPPER.of(ONE)), 0x0000);
}

fn p12_interrupt_commands<C: Chip>() {
    let mut chip = C::new();
    write(&mut chip, port::COMMAND.of(ONE), 0x36).unwrap();
    assert_eq!(read(&mut chip, port::STATUS.of(ONE)) & 0xA000, 0xA000);
    let before = chip.words();
    write(&mut chip, port::COMMAND.of(ONE), 0x20).unwrap();
    assert_eq!(chip.words(), before);
}

fn refused_commands<C: Chip>() {
    let mut chip = C::new();
    assert_eq!(write(&mut chip, 0x2E, 0xC0), Err(Refusal::NoCommand));
    assert_eq!(write(&mut chip, 0x2C, 0x26), Err(Refusal::WrongPort));
}

fn pointer<C: Chip>() {
    let mut chip = C::new();
    chip.write_pointer(0x00FF);
    assert_eq!(chip.read_pointer(), 0x007E);
    assert_eq!(chip.read(), Err(Refusal::NoRegister));
    assert_eq!(chip.write(0), Err(Refusal::NoRegister));
}

fn runs_at_their_bounds<C: Chip>() {
    let mut memory = [0; 64];
    let mut chip = about_to_chain::<C>();
    let before = chip.words();
    let nothing = chip.run(0, &mut memory, &mut []).unwrap();
    assert_eq!((nothing.last, nothing.steps), (Ok(Step::Idle), 0));
    assert_eq!(
        chip.run(65_537, &mut memory, &mut []),
        Err(Refusal::RunTooLong)
    );
    assert_eq!(chip.words(), before);
}

fn lines_of_no_channel<C: Chip>() {
    let mut chip = C::new();
    let before = chip.words();
    for channel in [0, 3, 255, 257, 258, u32::MAX] {
        assert_eq!(chip.line(channel, true), Err(Refusal::NoChannel));
    }
    assert_eq!(chip.words(), before);
}

/// The words of each reason stand once more in the header and in the console, under the same number and in the same order.
#[test]
fn e4_words_are_those_of_the_header_and_the_console() {
    const HEADER: &str = include_str!("../../include/einflyga.h");
    const CONSOLE: &str = include_str!("../../../crates/console_answer/src/lib.rt");
    let enumeration = HEADER.split("enum einflyga_cause {").nth(1).expect("it");
    let numbers = enumeration.split('}').next().expect("it").split(" = ");
    let numbers: Vec<u8> = numbers
        .skip(1)
        .map(|rest| rest.split([' ', ',', '\n']).next().expect("a number"))
        .map(|number| number.parse().expect("a number"))
        .collect();
    assert_eq!(numbers, Cause::ALL.map(Cause::number));
    for text in [HEADER, CONSOLE] {
        let places = Cause::ALL.map(|cause| text.find(&format!("\"{cause}\"")));
        assert!(places.iter().all(Option::is_some), "{places:?}");
        assert!(places.is_sorted(), "{places:?}");
    }
}

macro_rules! on_both_sides {
    ($($point:ident)*) => {
        mod plain {
            $(#[test] fn $point() { super::$point::<einflyga::plain::Plain>() })*
        }
        mod proved {
            $(#[test] fn $point() { super::$point::<super::Controller>() })*
        }
    };
}

on_both_sides! {
    p1_to_p3_table_lengths
    p4_to_p6_addresses
    p7_and_p8_counts
    p9_and_p10_funnelling
    p11_search
    match_at_terminal_count
    e2_words_tell_each_half
    e2_bytes_keep_their_rule
    e5_units_around_the_upper_byte
    e5_funnelled_bytes
    e5_holding_never_changes
    e5_fetches
    e5_runs_and_reloads
    p12_interrupt_commands
    refused_commands
    pointer
    runs_at_their_bounds
    lines_of_no_channel
}
