//! A card in memory, an SD card of high capacity or an eMMC device, for the tests and examples of `kelifandro`: the repository's
//! `c/examples/card.c`, behind a host of decoded commands, or behind the SD host controller of `c/examples/controller.c`.
//!
//! ```
//! use kelifandro::{Partition, SdCard};
//! use memory_card::{MemoryCard, MemoryController};
//!
//! let mut card = SdCard::over_registers(MemoryController::new(MemoryCard::emmc()));
//! card.open()?;
//! assert_eq!(card.sectors(Partition::Boot1), memory_card::BOOT_SECTORS);
//! # Ok::<(), kelifandro::Error>(())
//! ```

#![no_std]
#![deny(
    missing_docs,
    unsafe_op_in_unsafe_fn,
    clippy::undocumented_unsafe_blocks
)]

extern crate alloc;

mod sys;

use core::fmt;

use kelifandro::{
    Abilities, BlockFault, Blocks, BusAddress, Command, DataKind, Dma, Fault, Host, Ios, Lines,
    Moved, Partition, Registers, Response, ResponseKind, Size, TransferHost, Transfers,
};

use sys::Memory;

/// How many sectors the user partition has.
pub const USER_SECTORS: u64 = 2048;

/// How many sectors each boot partition of an eMMC device has.
pub const BOOT_SECTORS: u64 = 256;

/// A card in memory behind a host that moves a block a call.
pub struct MemoryCard(Memory);

impl fmt::Debug for MemoryCard {
    fn fmt(&self, f: &mut fmt::Formatter<'_>) -> fmt::Result {
        f.debug_struct("MemoryCard")
            .field("answers", &self.answers())
            .finish_non_exhaustive()
    }
}

impl MemoryCard {
    /// An SD card of 1 MiB, of zeros.
    pub fn sd() -> MemoryCard {
        MemoryCard(Memory::new(false))
    }

    /// An eMMC device of 1 MiB with two boot partitions, of zeros.
    pub fn emmc() -> MemoryCard {
        MemoryCard(Memory::new(true))
    }

    /// Loses the answer with this number, counted from 0, a response, a block, a block's status or a look at DAT0; `None` loses none
    /// any more.
    pub fn lose(&mut self, answer: Option<u64>) {
        self.0.lose(answer, false);
    }

    /// The same, of an answer that is damaged: a response comes with a bad check, a block that is read with other bytes and a bad
    /// check, and one that is written is rejected.
    pub fn damage(&mut self, answer: u64) {
        self.0.lose(Some(answer), true);
    }

    /// How many answers there were.
    pub fn answers(&self) -> u64 {
        self.0.answers()
    }

    /// The card loses its power, and has it again.
    pub fn lose_power(&mut self) {
        self.0.lose_power();
    }

    /// The next busy time takes so long.
    pub fn slow(&mut self, microseconds: u32) {
        self.0.slow(microseconds);
    }

    /// An SD card has so many sectors beyond those in memory, a multiple of 1,024, in which those in memory come again.
    pub fn enlarge(&mut self, sectors: u32) {
        self.0.enlarge(sectors);
    }

    /// What a sector holds; `None` where there is none.
    pub fn sector(&self, partition: Partition, sector: u64) -> Option<&[u8; 512]> {
        self.0.sector(partition, sector)
    }

    /// The same, to be planted.
    pub fn sector_mut(&mut self, partition: Partition, sector: u64) -> Option<&mut [u8; 512]> {
        self.0.sector_mut(partition, sector)
    }
}

/// A block's number in C.
fn passed(number: i32) -> Result<(), BlockFault> {
    match number {
        0 => Ok(()),
        1 => Err(BlockFault::Bad),
        _ => Err(BlockFault::Missing),
    }
}

impl Host for MemoryCard {
    fn abilities(&self) -> Abilities {
        Abilities::new(Lines::Eight).with_high_speed()
    }

    fn send(&mut self, command: &Command) -> Result<Response, Fault> {
        let words = self.0.send(command).map_err(|number| match number {
            2 => Fault::BadCheck,
            3 => Fault::BadEndBit,
            4 => Fault::OtherIndex,
            _ => Fault::Timeout,
        })?;
        Ok(match command.response {
            ResponseKind::None => Response::None,
            ResponseKind::R2 => Response::Long(words),
            _ => Response::Short(words[0]),
        })
    }

    fn read_block(&mut self, block: &mut [u8]) -> Result<(), BlockFault> {
        passed(self.0.read_block(block))
    }

    fn write_block(&mut self, block: &[u8; 512]) -> Result<(), BlockFault> {
        passed(self.0.write_block(block))
    }

    fn is_busy(&mut self, microseconds: u32) -> bool {
        self.0.is_busy(microseconds)
    }

    fn set_ios(&mut self, ios: Ios) {
        self.0.set_ios(ios);
    }

    fn pause(&mut self, _: u32) {}
}

/// A card in memory behind a host of which one function moves all, as one with DMA.
#[derive(Debug)]
pub struct Whole(pub MemoryCard);

/// Moves so many blocks at most.
fn moved(card: &mut Memory, command: &Command, blocks: Blocks<'_>, most: usize) -> Moved {
    let length = usize::from(command.block_length);
    let mut moved = 0;
    let mut told = 0;
    match blocks {
        Blocks::None => {}
        Blocks::Read(bytes) => {
            for block in bytes.chunks_exact_mut(length).take(most) {
                told = card.read_block(block);
                if told != 0 {
                    break;
                }
                moved += 1;
            }
        }
        Blocks::Write(bytes) => {
            for block in bytes.chunks_exact(length).take(most) {
                told = card.write_block(block);
                if told != 0 {
                    break;
                }
                moved += 1;
            }
        }
    }
    passed(told).map_or_else(Moved::Failed, |()| Moved::Good(moved))
}

impl TransferHost for Whole {
    fn abilities(&self) -> Abilities {
        self.0.abilities()
    }

    fn transfer(
        &mut self,
        command: &Command,
        blocks: Blocks<'_>,
    ) -> Result<(Response, Moved), Fault> {
        let response = self.0.send(command)?;
        Ok((response, moved(&mut self.0 .0, command, blocks, usize::MAX)))
    }

    fn is_busy(&mut self, microseconds: u32) -> bool {
        self.0.is_busy(microseconds)
    }

    fn set_ios(&mut self, ios: Ios) {
        self.0.set_ios(ios);
    }

    fn pause(&mut self, microseconds: u32) {
        self.0.pause(microseconds);
    }
}

/// A card in memory behind a host that moves some of a command's blocks by one call, and the others each by one.
#[derive(Debug)]
pub struct Both {
    /// The card.
    pub card: MemoryCard,
    /// How many blocks a call moves at most.
    pub most: usize,
    /// How many calls have moved some.
    pub calls: u64,
}

impl Both {
    /// A host that moves so many blocks a call at most.
    pub fn new(card: MemoryCard, most: usize) -> Both {
        Both {
            card,
            most,
            calls: 0,
        }
    }
}

impl Host for Both {
    fn abilities(&self) -> Abilities {
        self.card.abilities().with_transfers(Transfers::Some)
    }

    fn send(&mut self, command: &Command) -> Result<Response, Fault> {
        self.card.send(command)
    }

    fn read_block(&mut self, block: &mut [u8]) -> Result<(), BlockFault> {
        self.card.read_block(block)
    }

    fn write_block(&mut self, block: &[u8; 512]) -> Result<(), BlockFault> {
        self.card.write_block(block)
    }

    fn is_busy(&mut self, microseconds: u32) -> bool {
        self.card.is_busy(microseconds)
    }

    fn set_ios(&mut self, ios: Ios) {
        self.card.set_ios(ios);
    }

    fn pause(&mut self, microseconds: u32) {
        self.card.pause(microseconds);
    }

    fn transfer(
        &mut self,
        command: &Command,
        blocks: Blocks<'_>,
    ) -> Result<(Response, Moved), Fault> {
        let response = self.card.send(command)?;
        self.calls += 1;
        Ok((
            response,
            moved(&mut self.card.0, command, blocks, self.most),
        ))
    }
}

/// A card in memory behind an SD host controller in memory, by its registers.
#[derive(Debug)]
pub struct MemoryController {
    /// The card.
    pub card: MemoryCard,
}

impl MemoryController {
    /// A controller without DMA.
    pub fn new(card: MemoryCard) -> MemoryController {
        MemoryController::with_capabilities(card, 0)
    }

    /// A controller with these bits of Capabilities (40h) beside its own: 22 for SDMA, 19 for ADMA2, 28 for addresses of 64 bits.
    pub fn with_capabilities(mut card: MemoryCard, capabilities: u32) -> MemoryController {
        card.0.control(capabilities);
        MemoryController { card }
    }

    /// The slide of the card stands at "lock", or not.
    pub fn lock(&mut self, is_locked: bool) {
        self.card.0.lock(is_locked);
    }

    /// The slot's switches see no card any more.
    pub fn take_out(&mut self) {
        self.card.0.take_out();
    }

    /// The controller takes accesses of words alone, and its Capabilities read 0.
    pub fn bare(&mut self) {
        self.card.0.bare();
    }

    /// How many blocks were moved by DMA.
    pub fn moved(&self) -> u64 {
        self.card.0.moved()
    }

    /// How often the controller was told what its registers don't allow at that time.
    pub fn misuses(&self) -> u64 {
        self.card.0.misuses()
    }
}

impl Registers for MemoryController {
    fn read(&mut self, offset: u32, size: Size) -> u32 {
        self.card.0.read_register(offset, size)
    }

    fn write(&mut self, offset: u32, size: Size, value: u32) {
        self.card.0.write_register(offset, size, value);
    }

    fn pause(&mut self, _: u32) {}
}

// SAFETY: the controller in memory copies from and to just the bytes that are lent, until they are taken back.
unsafe impl Dma for MemoryController {
    /// All controllers in memory share one place for a table: those with ADMA2 aren't for several threads.
    unsafe fn lend(
        &mut self,
        bytes: *mut u8,
        length: usize,
        is_written: bool,
    ) -> Option<BusAddress> {
        // SAFETY: the caller's
        BusAddress::new(unsafe { self.card.0.lend(bytes, length, is_written) })
    }

    unsafe fn take_back(&mut self, bytes: *mut u8, length: usize, is_written: bool) {
        // SAFETY: the caller's
        unsafe { self.card.0.take_back(bytes, length, is_written) }
    }
}

fn number_of_data(data: DataKind) -> u8 {
    match data {
        DataKind::None => 0,
        DataKind::Read => 1,
        DataKind::Write => 2,
    }
}

fn number_of_response(response: ResponseKind) -> u8 {
    match response {
        ResponseKind::None => 0,
        ResponseKind::R1 => 1,
        ResponseKind::R1b => 2,
        ResponseKind::R2 => 3,
        ResponseKind::R3 => 4,
        ResponseKind::R6 => 5,
        ResponseKind::R7 => 6,
    }
}
