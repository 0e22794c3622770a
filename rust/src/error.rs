//! What a call fails by.

use core::fmt;

/// What a call fails by: a variant for each number of `enum kelifandro_result`, and from [`Full`] to [`Closed`] for each of
/// `enum kelifandro_queue_result`, which the calls of a [queue](crate::queue) answer besides.
///
/// A request that is refused by one of the first seven was told neither to the card nor to its host. Which one comes is the first of
/// these that holds: [`NoPartition`] where there can't be such a one, [`NotOpen`], [`NoBaseClock`], [`NoPartition`] where this card
/// hasn't it, [`Count`], [`OutOfRange`], of all but a read [`ReadOnly`], of an erase or a trim [`NotErasable`].
///
/// [`NoPartition`]: Error::NoPartition
/// [`NotOpen`]: Error::NotOpen
/// [`NoBaseClock`]: Error::NoBaseClock
/// [`Count`]: Error::Count
/// [`OutOfRange`]: Error::OutOfRange
/// [`ReadOnly`]: Error::ReadOnly
/// [`NotErasable`]: Error::NotErasable
/// [`Full`]: Error::Full
/// [`Closed`]: Error::Closed
#[derive(Clone, Copy, Debug, PartialEq, Eq, Hash)]
#[non_exhaustive]
pub enum Error {
    /// The card isn't open: [`SdCard::open`](crate::SdCard::open) comes first.
    NotOpen,
    /// The card has no such partition.
    NoPartition,
    /// Sectors that are named lie past the partition's end.
    OutOfRange,
    /// No sector is named, or more than 65,535 of a read or a write, by a queue more than 1,024.
    Count,
    /// The card is write protected.
    ReadOnly,
    /// The card can't erase, or trim, these sectors.
    NotErasable,
    /// Neither a host nor registers are given, which doesn't happen from here.
    NoHost,
    /// All attempts have failed, four unless [`set_attempts`](crate::SdCard::set_attempts) says how many, the last one because no
    /// response was heard. This holds of all five `Failed..`: each sector of a write, an erase or a trim is old or new, and all others
    /// are unchanged. The card stays open: the next request settles it first, or resets it.
    FailedAnswer,
    /// All attempts have failed, the last one because a block was bad, missing or rejected.
    FailedData,
    /// All attempts have failed, the last one because a status showed an error.
    FailedStatus,
    /// All attempts have failed, the last one because the card was busy for too long.
    FailedBusy,
    /// All attempts have failed, and the last one couldn't even settle the card, as where it was taken out or has lost its power.
    FailedRecovery,
    /// There is no card, or it doesn't answer; or its first blocks (SCR, switch status, EXT_CSD) don't come.
    NoCard,
    /// The card says what no card that is served may say: a register, or how it is addressed. Of a card that works elsewhere look at
    /// the words of R2.
    Unsupported,
    /// The controller has no 3.3 V (SD Host Controller Simplified Specification 3.00, section 2.2.26, bit 24).
    NoVoltage,
    /// The controller doesn't tell its base clock (the same register, bits 15 to 8).
    NoBaseClock,
    /// No card is in the slot.
    NotInserted,
    /// The card doesn't work from 3.2 to 3.4 V (SD Physical Layer Simplified Specification 6.00, section 5.1; JESD84-B51, section 7.1).
    CardVoltage,
    /// The card is locked by a password (SD Physical Layer Simplified Specification 6.00, section 4.3.7).
    Locked,
    /// All slots of a queue are taken: the request may be submitted again once something is answered.
    Full,
    /// What a request asks is none of the four kinds, or one that the library was built without.
    Kind,
    /// A pointer is null that has to lead to something, which doesn't happen from here.
    NoPointer,
    /// A queue has no slot, or more than 256.
    Slots,
    /// A queue's memory to gather in has no sector.
    Gather,
    /// A request that is to be given back has its answer.
    NotWaiting,
    /// It is in service: the request that is to be given back, or the queue that is to be opened, which has a worker.
    InService,
    /// The answer of a request that its client took back.
    GivenBack,
    /// The answer of a request that waited when the queue was closed.
    Closed,
    /// A number that this crate doesn't know, of a library that is newer.
    Unknown(i32),
}

impl Error {
    /// The number of `enum kelifandro_result`, which is less than 0.
    pub const fn number(self) -> i32 {
        match self {
            Error::NotOpen => -1,
            Error::NoPartition => -2,
            Error::OutOfRange => -3,
            Error::Count => -4,
            Error::ReadOnly => -5,
            Error::NotErasable => -6,
            Error::NoHost => -7,
            Error::FailedAnswer => -10,
            Error::FailedData => -11,
            Error::FailedStatus => -12,
            Error::FailedBusy => -13,
            Error::FailedRecovery => -14,
            Error::NoCard => -20,
            Error::Unsupported => -21,
            Error::NoVoltage => -22,
            Error::NoBaseClock => -23,
            Error::NotInserted => -24,
            Error::CardVoltage => -25,
            Error::Locked => -26,
            Error::Full => -8,
            Error::Kind => -9,
            Error::NoPointer => -27,
            Error::Slots => -28,
            Error::Gather => -29,
            Error::NotWaiting => -30,
            Error::InService => -31,
            Error::GivenBack => -32,
            Error::Closed => -33,
            Error::Unknown(number) => number,
        }
    }

    /// All that are known.
    pub(crate) const ALL: [Error; 28] = [
        Error::NotOpen,
        Error::NoPartition,
        Error::OutOfRange,
        Error::Count,
        Error::ReadOnly,
        Error::NotErasable,
        Error::NoHost,
        Error::FailedAnswer,
        Error::FailedData,
        Error::FailedStatus,
        Error::FailedBusy,
        Error::FailedRecovery,
        Error::NoCard,
        Error::Unsupported,
        Error::NoVoltage,
        Error::NoBaseClock,
        Error::NotInserted,
        Error::CardVoltage,
        Error::Locked,
        Error::Full,
        Error::Kind,
        Error::NoPointer,
        Error::Slots,
        Error::Gather,
        Error::NotWaiting,
        Error::InService,
        Error::GivenBack,
        Error::Closed,
    ];

    /// What a call of the library has answered.
    pub(crate) fn told(number: i32) -> Result<(), Error> {
        if number == 0 {
            return Ok(());
        }
        Err(Error::of(number))
    }

    /// The one of this number, which isn't 0.
    pub(crate) fn of(number: i32) -> Error {
        let known = Error::ALL
            .into_iter()
            .find(|error| error.number() == number);
        known.unwrap_or(Error::Unknown(number))
    }
}

impl fmt::Display for Error {
    fn fmt(&self, f: &mut fmt::Formatter<'_>) -> fmt::Result {
        f.write_str(match self {
            Error::NotOpen => "the card isn't open",
            Error::NoPartition => "the card has no such partition",
            Error::OutOfRange => "sectors past the partition's end",
            Error::Count => "no sector, or more than 65,535",
            Error::ReadOnly => "the card is write protected",
            Error::NotErasable => "the card can't erase these sectors so",
            Error::NoHost => "neither a host nor registers are given",
            Error::FailedAnswer => "failed: a response",
            Error::FailedData => "failed: a block",
            Error::FailedStatus => "failed: the card's status",
            Error::FailedBusy => "failed: busy for too long",
            Error::FailedRecovery => "failed: recovery",
            Error::NoCard => "no card answers",
            Error::Unsupported => "the card isn't supported",
            Error::NoVoltage => "the controller has no 3.3 V",
            Error::NoBaseClock => "the controller doesn't tell its base clock",
            Error::NotInserted => "no card is inserted",
            Error::CardVoltage => "the card doesn't work at 3.3 V",
            Error::Locked => "the card is locked",
            Error::Full => "too many requests wait",
            Error::Kind => "no such kind of request",
            Error::NoPointer => "a pointer is null",
            Error::Slots => "no slot, or more than 256",
            Error::Gather => "no sector to gather in",
            Error::NotWaiting => "no such request waits",
            Error::InService => "in service",
            Error::GivenBack => "given back",
            Error::Closed => "the queue was closed",
            Error::Unknown(_) => "no such result",
        })
    }
}

impl core::error::Error for Error {}

/// What a long request fails by, and how far it came.
#[derive(Clone, Copy, Debug, PartialEq, Eq, Hash)]
pub struct LongError {
    /// What the part that wasn't done failed by.
    pub error: Error,
    /// How many sectors, from the first on, are done before that part. None after it has changed.
    pub done: usize,
}

impl fmt::Display for LongError {
    fn fmt(&self, f: &mut fmt::Formatter<'_>) -> fmt::Result {
        write!(f, "{}, after {} sectors", self.error, self.done)
    }
}

impl core::error::Error for LongError {
    fn source(&self) -> Option<&(dyn core::error::Error + 'static)> {
        Some(&self.error)
    }
}
