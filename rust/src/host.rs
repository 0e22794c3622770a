//! A host controller, as the library tells it of decoded commands.

/// How many data lines are in use, or wired.
#[derive(Clone, Copy, Debug, PartialEq, Eq, Hash)]
pub enum Lines {
    /// DAT0 alone.
    One,
    /// DAT0 to DAT3.
    Four,
    /// DAT0 to DAT7, which eMMC devices have.
    Eight,
}

impl Lines {
    /// 1, 4 or 8.
    pub const fn count(self) -> u8 {
        match self {
            Lines::One => 1,
            Lines::Four => 4,
            Lines::Eight => 8,
        }
    }

    /// Any other number is as one line, as in C.
    pub(crate) fn of(count: u32) -> Lines {
        match count {
            4 => Lines::Four,
            8 => Lines::Eight,
            _ => Lines::One,
        }
    }
}

/// Whether a host moves blocks by whole transfers.
#[derive(Clone, Copy, Debug, PartialEq, Eq, Hash, Default)]
pub enum Transfers {
    /// By none: [`Host::transfer`] isn't called.
    #[default]
    None,
    /// By some: what [`Host::transfer`] leaves is asked for by [`Host::read_block`] and [`Host::write_block`]. Commands without
    /// sectors, and those of registers, come by [`Host::send`].
    Some,
    /// By all: every command and every block comes by [`Host::transfer`], and the three others aren't called. What it leaves is as a
    /// block that didn't come. [`ByTransfer`](crate::ByTransfer) is for such hosts.
    All,
}

/// What a host controller can, and which of the functions that may be left out it has.
#[derive(Clone, Copy, Debug, PartialEq, Eq, Hash)]
#[must_use]
pub struct Abilities {
    pub(crate) lines: Lines,
    pub(crate) high_speed: bool,
    pub(crate) transfers: Transfers,
    pub(crate) switches_power: bool,
}

impl Abilities {
    /// A controller that has so many data lines wired, default speed (25 MHz), and nothing that may be left out.
    pub const fn new(lines: Lines) -> Abilities {
        Abilities {
            lines,
            high_speed: false,
            transfers: Transfers::None,
            switches_power: false,
        }
    }

    /// It has high speed: 50 MHz (SD Physical Layer Simplified Specification 6.00, section 6.6.7), 52 MHz of an eMMC device.
    pub const fn with_high_speed(mut self) -> Abilities {
        self.high_speed = true;
        self
    }

    /// It has [`Host::transfer`].
    pub const fn with_transfers(mut self, transfers: Transfers) -> Abilities {
        self.transfers = transfers;
        self
    }

    /// It has [`Host::set_power`].
    pub const fn with_power_switch(mut self) -> Abilities {
        self.switches_power = true;
        self
    }
}

/// Which response a command has (SD Physical Layer Simplified Specification 6.00, section 4.9).
#[derive(Clone, Copy, Debug, PartialEq, Eq, Hash)]
pub enum ResponseKind {
    /// None.
    None,
    /// 48 bits, with an index and a check.
    R1,
    /// The same. The card may be busy after it, which [`Host::is_busy`] asks for.
    R1b,
    /// 136 bits.
    R2,
    /// 48 bits, without an index and a check.
    R3,
    /// 48 bits, with an index and a check.
    R6,
    /// 48 bits, with an index and a check.
    R7,
}

/// Where the data after a command goes.
#[derive(Clone, Copy, Debug, PartialEq, Eq, Hash)]
pub enum DataKind {
    /// The command has no data.
    None,
    /// From the card.
    Read,
    /// To the card.
    Write,
}

/// A command, decoded.
#[derive(Clone, Copy, Debug, PartialEq, Eq, Hash)]
pub struct Command {
    /// 0 to 63.
    pub index: u8,
    /// The response that is awaited.
    pub response: ResponseKind,
    /// The data after the command, whose blocks [`Host::transfer`] moves, or [`Host::read_block`] and [`Host::write_block`].
    pub data: DataKind,
    /// Bits 39 to 8 of its frame.
    pub argument: u32,
    /// Bytes: 8, 64 or 512.
    pub block_length: u16,
    /// How many are moved, which a controller's block count is set to: 1 of a register. CMD12, which ends a CMD18 or CMD25, and CMD23
    /// before one, come as commands of their own: the controller's automatic ones are off.
    pub blocks: u16,
}

/// A response that was heard, without index and check.
#[derive(Clone, Copy, Debug, PartialEq, Eq, Hash)]
pub enum Response {
    /// The command has none.
    None,
    /// Bits 39 to 8 of 48.
    Short(u32),
    /// Of R2 bits 127 to 96 first. Bits 7 to 0, the check, aren't used.
    Long([u32; 4]),
}

/// Why no response was heard. Each is a response that was lost: who can't tell gives `Timeout`. It is the response's alone: whose
/// controller tells of the response and of the blocks by one number answers that the response came, and tells of the blocks apart.
#[derive(Clone, Copy, Debug, PartialEq, Eq, Hash)]
pub enum Fault {
    /// None came.
    Timeout,
    /// Its CRC7 is wrong.
    BadCheck,
    /// Its end bit is wrong.
    BadEndBit,
    /// It has another command's index.
    OtherIndex,
}

/// What became of a block that isn't good.
#[derive(Clone, Copy, Debug, PartialEq, Eq, Hash)]
pub enum BlockFault {
    /// A block that was read has a wrong check; one that was written was rejected.
    Bad,
    /// None came within 100 ms; of a write, no status.
    Missing,
}

/// What became of the blocks of a transfer.
#[derive(Clone, Copy, Debug, PartialEq, Eq, Hash)]
pub enum Moved {
    /// So many were good or accepted, and none failed.
    Good(u16),
    /// One failed, and those before it don't count.
    Failed(BlockFault),
}

/// The memory of the blocks that are moved with a command: whole blocks of [`Command::block_length`] bytes, one after the other.
#[derive(Debug)]
pub enum Blocks<'a> {
    /// None.
    None,
    /// They are read into this.
    Read(&'a mut [u8]),
    /// They are written.
    Write(&'a [u8]),
}

/// Data lines, timing and clock.
#[derive(Clone, Copy, Debug, PartialEq, Eq, Hash)]
pub struct Ios {
    /// How many data lines are in use.
    pub lines: Lines,
    /// Whether the timing is that of high speed.
    pub high_speed: bool,
    /// The clock, at most.
    pub hertz: u32,
}

/// A host controller, which moves a block a call.
///
/// Before [`SdCard::open`](crate::SdCard::open) the card has had 3.3 V and a clock of at most 400 kHz for a millisecond and 74 clocks
/// (SD Physical Layer Simplified Specification 6.00, section 6.4.1), on one data line: by what the board does before, or by
/// [`set_power`](Host::set_power). Each function has a time to keep, which `docs/PORTING.md` has in a table, "Pace".
///
/// Whatever the functions answer, a call of the library ends after a counted number of exchanges, and nothing is read or written out
/// of bounds. What is written and read is right where they keep to what stands at each of them. A function that panics doesn't unwind
/// through the library: the program is aborted.
///
/// # Examples
/// A host of which no response is heard:
/// ```
/// use kelifandro::{Abilities, BlockFault, Command, Error, Fault, Host, Ios, Lines, Response, SdCard};
///
/// struct Port; // the addresses of a controller of yours
///
/// impl Host for Port {
///     fn abilities(&self) -> Abilities {
///         Abilities::new(Lines::Four).with_high_speed()
///     }
///
///     fn send(&mut self, command: &Command) -> Result<Response, Fault> {
///         let _ = (command.index, command.argument, command.response, command.data, command.blocks);
///         Err(Fault::Timeout)
///     }
///
///     fn read_block(&mut self, block: &mut [u8]) -> Result<(), BlockFault> {
///         block.fill(0);
///         Err(BlockFault::Missing)
///     }
///
///     fn write_block(&mut self, _block: &[u8; 512]) -> Result<(), BlockFault> {
///         Err(BlockFault::Missing)
///     }
///
///     fn is_busy(&mut self, _microseconds: u32) -> bool {
///         false
///     }
///
///     fn set_ios(&mut self, ios: Ios) {
///         let _ = (ios.lines, ios.high_speed, ios.hertz);
///     }
///
///     fn pause(&mut self, _microseconds: u32) {}
/// }
///
/// assert_eq!(SdCard::new(Port).open(), Err(Error::NoCard));
/// ```
///
/// A controller that moves all blocks of a command by one call, as one with DMA, is better a
/// [`TransferHost`](crate::TransferHost), and an SD host controller is given by its [`Registers`](crate::Registers).
pub trait Host {
    /// What the controller can. It is asked at the begin of each call, and always has to say the same.
    fn abilities(&self) -> Abilities;

    /// Sends a command and waits for its response, for 64 clocks at least.
    ///
    /// Data of an earlier command may have been given up: what is left of it in the controller is dropped first. It judges checks and
    /// indexes. A command is sent though the card holds DAT0 low (CMD13, CMD12, CMD0 come then), and the end of that isn't waited for:
    /// [`is_busy`](Host::is_busy) does.
    ///
    /// # Errors
    /// Why the response wasn't heard.
    fn send(&mut self, command: &Command) -> Result<Response, Fault>;

    /// Reads the next block, of 8, 64 or 512 bytes.
    ///
    /// # Errors
    /// [`BlockFault::Bad`] where its check is wrong, [`BlockFault::Missing`] where none came within 100 ms (SD Physical Layer
    /// Simplified Specification 6.00, section 4.6.2.1).
    fn read_block(&mut self, block: &mut [u8]) -> Result<(), BlockFault>;

    /// Writes the next block.
    ///
    /// # Errors
    /// [`BlockFault::Bad`] where the card's status says rejected, [`BlockFault::Missing`] where no status came.
    fn write_block(&mut self, block: &[u8; 512]) -> Result<(), BlockFault>;

    /// Whether the card holds DAT0 low: `false` as soon as it has let it go; `true` where it is low still once so many microseconds,
    /// at most 900,000,000, are over.
    ///
    /// It is asked after each block that was accepted, and after each R1b; up to sixteen times where the answer is `true`. The card's
    /// clock runs on meanwhile.
    fn is_busy(&mut self, microseconds: u32) -> bool;

    /// Sets data lines, timing and clock. No data is under way then. It is told before the first command of each call, mostly what is
    /// set already.
    fn set_ios(&mut self, ios: Ios);

    /// Waits so long at least.
    fn pause(&mut self, microseconds: u32);

    /// A command and its blocks by one call, where the abilities have [`Transfers`].
    ///
    /// It sends the command as [`send`](Host::send) does, and answers as that. Where the response was heard it moves the first of the
    /// blocks, one after the other; it may move fewer, as the controller can, even none. It ends after a block that isn't good or
    /// accepted. Between two that it writes it waits until the card is no longer busy, for 512 ms at most, and ends where that takes
    /// longer, without a fault; after the last one [`is_busy`](Host::is_busy) is asked. The memory has any alignment.
    ///
    /// # Errors
    /// Why the response wasn't heard; what became of the blocks is in [`Moved`].
    fn transfer(
        &mut self,
        command: &Command,
        blocks: Blocks<'_>,
    ) -> Result<(Response, Moved), Fault> {
        let _ = blocks;
        self.send(command)
            .map(|response| (response, Moved::Good(0)))
    }

    /// Switches the card's 3.3 V on or off, where the abilities say that it does, and returns once that is done: on, when the card has
    /// had them and a clock of at most 400 kHz for a millisecond and 74 clocks, on one data line; off, when it has had less than 0.5 V
    /// for a millisecond (SD Physical Layer Simplified Specification 6.00, sections 6.4.1 and 6.4.2).
    ///
    /// Opening switches on before the first command; where no card answers it switches off and on again, and tries once more; closing
    /// switches off.
    fn set_power(&mut self, is_on: bool) {
        let _ = is_on;
    }

    /// Whether a card is in the slot, by its switch; `None` where there is no such switch. Opening looks at it.
    fn is_inserted(&mut self) -> Option<bool> {
        None
    }

    /// Whether the card's slide stands at "lock", by the slot's switch; `None` where there is no such switch. Nothing looks at it but
    /// [`SdCard::is_write_protected`](crate::SdCard::is_write_protected).
    fn is_write_protected(&mut self) -> Option<bool> {
        None
    }
}

/// A host that is borrowed.
impl<H: Host + ?Sized> Host for &mut H {
    fn abilities(&self) -> Abilities {
        (**self).abilities()
    }

    fn send(&mut self, command: &Command) -> Result<Response, Fault> {
        (**self).send(command)
    }

    fn read_block(&mut self, block: &mut [u8]) -> Result<(), BlockFault> {
        (**self).read_block(block)
    }

    fn write_block(&mut self, block: &[u8; 512]) -> Result<(), BlockFault> {
        (**self).write_block(block)
    }

    fn is_busy(&mut self, microseconds: u32) -> bool {
        (**self).is_busy(microseconds)
    }

    fn set_ios(&mut self, ios: Ios) {
        (**self).set_ios(ios);
    }

    fn pause(&mut self, microseconds: u32) {
        (**self).pause(microseconds);
    }

    fn transfer(
        &mut self,
        command: &Command,
        blocks: Blocks<'_>,
    ) -> Result<(Response, Moved), Fault> {
        (**self).transfer(command, blocks)
    }

    fn set_power(&mut self, is_on: bool) {
        (**self).set_power(is_on);
    }

    fn is_inserted(&mut self) -> Option<bool> {
        (**self).is_inserted()
    }

    fn is_write_protected(&mut self) -> Option<bool> {
        (**self).is_write_protected()
    }
}
