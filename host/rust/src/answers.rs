//! What the calls answer.

use std::fmt;

/// The words of a controller's state.
pub const WORDS: usize = 72;

/// The greatest budget of a run; a greater one is refused.
pub const LONGEST_RUN: u32 = 65_536;

/// One of the two channels.
#[derive(Clone, Copy, Debug, PartialEq, Eq, Hash)]
pub enum Channel {
    One,
    Two,
}

impl Channel {
    /// Both channels, the lower numbered first.
    pub const BOTH: [Channel; 2] = [Channel::One, Channel::Two];

    /// The channel of this number, 1 or 2.
    pub const fn from_number(number: u32) -> Option<Channel> {
        match number {
            1 => Some(Channel::One),
            2 => Some(Channel::Two),
            _ => None,
        }
    }

    /// The other one.
    pub const fn other(self) -> Channel {
        match self {
            Channel::One => Channel::Two,
            Channel::Two => Channel::One,
        }
    }

    /// Its number, 1 or 2.
    pub const fn number(self) -> u8 {
        match self {
            Channel::One => 1,
            Channel::Two => 2,
        }
    }
}

impl From<Channel> for u32 {
    fn from(channel: Channel) -> u32 {
        channel.number().into()
    }
}

/// The set of reasons that ended an operation; empty where it goes on.
#[derive(Clone, Copy, Debug, Default, PartialEq, Eq, Hash)]
pub struct Reasons(u8);

impl Reasons {
    /// Terminal count: the count reached 0.
    pub const TC: Reasons = Reasons(1);
    /// Match condition: the datum met the match control.
    pub const MC: Reasons = Reasons(2);
    /// End of process: EOP was given.
    pub const EOP: Reasons = Reasons(4);

    /// The set whose bits 0, 1 and 2 are TC, MC and EOP.
    pub const fn from_bits(bits: u8) -> Reasons {
        Reasons(bits & 7)
    }

    /// Bits 0, 1 and 2: TC, MC and EOP.
    pub const fn bits(self) -> u8 {
        self.0
    }

    /// Whether the count reached 0.
    pub const fn tc(self) -> bool {
        self.0 & Reasons::TC.0 != 0
    }

    /// Whether the datum met the match control.
    pub const fn mc(self) -> bool {
        self.0 & Reasons::MC.0 != 0
    }

    /// Whether EOP was given.
    pub const fn eop(self) -> bool {
        self.0 & Reasons::EOP.0 != 0
    }

    /// Whether the operation goes on.
    pub const fn is_empty(self) -> bool {
        self.0 == 0
    }
}

impl std::ops::BitOr for Reasons {
    type Output = Reasons;

    fn bitor(self, other: Reasons) -> Reasons {
        Reasons(self.0 | other.0)
    }
}

/// How many of the addresses that stepped changed their upper byte, bits 23-16; a wrap past either end counts.
#[derive(Clone, Copy, Debug, Default, PartialEq, Eq, PartialOrd, Ord, Hash)]
#[repr(u8)]
pub enum UpperChanges {
    #[default]
    None = 0,
    One = 1,
    Two = 2,
}

impl UpperChanges {
    /// The changes of this number, 0 to 2.
    pub const fn from_number(number: u8) -> Option<UpperChanges> {
        match number {
            0 => Some(UpperChanges::None),
            1 => Some(UpperChanges::One),
            2 => Some(UpperChanges::Two),
            _ => None,
        }
    }

    /// Their number, 0 to 2.
    pub const fn number(self) -> u8 {
        self as u8
    }
}

/// What a step did.
#[derive(Clone, Copy, Debug, PartialEq, Eq, Hash)]
pub enum Step {
    /// Nothing: master mode does not enable the controller.
    Disabled,
    /// Nothing: no channel wants the bus.
    Idle,
    /// The give-back note was cleared.
    NoteGivenBack,
    /// The channel that kept the bus gave it back.
    BusGivenBack,
    /// The channel keeps the bus without a request.
    Holding(Channel),
    /// The channel fetched one word of its chain; at most one change, of the chain address.
    Fetched(Channel, UpperChanges),
    /// EOP ended the channel's chain.
    Dropped(Channel),
    /// The channel did one unit; the reasons say whether it ended the operation.
    Unit(Channel, Reasons, UpperChanges),
    /// EOP ended the operation of the holding channel.
    Ended(Channel),
}

/// What a run did.
#[derive(Clone, Copy, Debug, PartialEq, Eq, Hash)]
pub struct Run {
    /// The last step's answer; idle for a run of 0.
    pub last: Result<Step, Refusal>,
    /// The steps before the answer that stopped the run, or else the whole budget.
    pub steps: u32,
}

/// An acknowledged interrupt.
#[derive(Clone, Copy, Debug, PartialEq, Eq, Hash)]
pub struct Interrupt {
    pub channel: Channel,
    /// The channel's interrupt save word; none where master mode says no vector.
    pub save: Option<u16>,
}

/// Why a channel stands still, in document 02's order; it displays as document 02's words.
#[derive(Clone, Copy, Debug, PartialEq, Eq, Hash)]
#[repr(u8)]
pub enum Cause {
    /// The next step without EOP fetches a word or does a unit for the channel.
    NothingWrong = 0,
    /// Master mode does not enable the controller.
    Disabled = 1,
    /// A chain is under way on the other channel.
    OthersChain = 2,
    /// The next step clears the give-back note.
    Note = 3,
    /// The other channel keeps the bus.
    OthersBus = 4,
    /// Chain aborted: write the chain address, then Start Chain.
    Ca = 5,
    /// A second interrupt waits for an acknowledge.
    Sip = 6,
    /// The operation has ended without reload or chain: Start Chain.
    Nac = 7,
    /// Clearing the hardware mask would make the request active.
    Masked = 8,
    /// The request is not active, and clearing the hardware mask would not help.
    NoRequest = 9,
    /// The first fetch of the chain would be refused.
    OddChain = 10,
    /// The unit would be refused for its operation.
    Operation = 11,
    /// The unit would be refused for a word side at an odd address.
    OddWord = 12,
    /// Both channels want the bus, and the other comes first.
    OthersTurn = 16,
}

impl Cause {
    /// Every reason, nothing wrong and then the others in document 02's order.
    pub const ALL: [Cause; 14] = [
        Cause::NothingWrong,
        Cause::Disabled,
        Cause::OthersChain,
        Cause::Note,
        Cause::OthersBus,
        Cause::Ca,
        Cause::Sip,
        Cause::Nac,
        Cause::Masked,
        Cause::NoRequest,
        Cause::OddChain,
        Cause::Operation,
        Cause::OddWord,
        Cause::OthersTurn,
    ];

    /// The reason of this number.
    pub fn from_number(number: u8) -> Option<Cause> {
        Cause::ALL
            .into_iter()
            .find(|cause| cause.number() == number)
    }

    /// Its number, as in `host/include/einflyga.h`.
    pub const fn number(self) -> u8 {
        self as u8
    }
}

impl fmt::Display for Cause {
    fn fmt(&self, f: &mut fmt::Formatter) -> fmt::Result {
        f.write_str(match self {
            Cause::NothingWrong => "nothing wrong",
            Cause::Disabled => "disabled",
            Cause::OthersChain => "chain under way on the other channel",
            Cause::Note => "give-back note",
            Cause::OthersBus => "bus kept by the other channel",
            Cause::Ca => "CA",
            Cause::Sip => "SIP",
            Cause::Nac => "NAC",
            Cause::Masked => "masked with the line active",
            Cause::NoRequest => "no request",
            Cause::OddChain => "odd chain address",
            Cause::Operation => "operation not carried",
            Cause::OddWord => "odd word address",
            Cause::OthersTurn => "other channel's turn",
        })
    }
}

/// Why a call was refused; a refused call changes nothing.
#[derive(Clone, Copy, Debug, PartialEq, Eq, Hash)]
#[repr(u8)]
pub enum Refusal {
    /// No register at the pointer for this direction.
    NoRegister = 1,
    /// A register write, other than Reset, while a channel keeps the bus or a chain is under way.
    BusInUse = 2,
    /// Command kind 6 or 7.
    NoCommand = 3,
    /// IP named at the other channel's port.
    WrongPort = 4,
    /// Start Chain with CA or SIP set.
    ChainBarred = 5,
    /// The first fetch of a chain from an odd address.
    OddChain = 6,
    /// A unit with a flyby or illegal operation.
    NoOperation = 7,
    /// A unit with a word side at an odd address.
    OddWord = 8,
    /// Nothing to acknowledge.
    NothingToAcknowledge = 9,
    /// A channel other than 1 or 2.
    NoChannel = 10,
    /// A run of more than 65,536.
    RunTooLong = 11,
}

impl Refusal {
    /// Every refusal, in the order of the numbers.
    pub const ALL: [Refusal; 11] = [
        Refusal::NoRegister,
        Refusal::BusInUse,
        Refusal::NoCommand,
        Refusal::WrongPort,
        Refusal::ChainBarred,
        Refusal::OddChain,
        Refusal::NoOperation,
        Refusal::OddWord,
        Refusal::NothingToAcknowledge,
        Refusal::NoChannel,
        Refusal::RunTooLong,
    ];

    /// Its number, 1 to 11.
    pub const fn number(self) -> u8 {
        self as u8
    }
}
