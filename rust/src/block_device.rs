//! A block device of embedded-sdmmc's shape, without a dependency on it.
//!
//! The names and functions are those of `embedded-sdmmc` from 0.9 on; in some versions before that its `read` has a text beside, which
//! says why. Its trait is implemented in a few lines, of a type of your own:
//!
//! ```
//! # mod embedded_sdmmc { pub use kelifandro::block_device::{Block, BlockCount, BlockDevice, BlockIdx}; }
//! use core::slice;
//! use kelifandro::block_device::Device;
//! use kelifandro::{Error, Host};
//!
//! struct Volume<H: Host>(Device<H>);
//!
//! impl<H: Host> embedded_sdmmc::BlockDevice for Volume<H> {
//!     type Error = Error;
//!
//!     fn read(&self, blocks: &mut [embedded_sdmmc::Block], start: embedded_sdmmc::BlockIdx) -> Result<(), Error> {
//!         for (block, at) in blocks.iter_mut().zip(u64::from(start.0)..) {
//!             self.0.read_sectors(at, slice::from_mut(&mut block.contents))?;
//!         }
//!         Ok(())
//!     }
//!
//!     fn write(&self, blocks: &[embedded_sdmmc::Block], start: embedded_sdmmc::BlockIdx) -> Result<(), Error> {
//!         for (block, at) in blocks.iter().zip(u64::from(start.0)..) {
//!             self.0.write_sectors(at, slice::from_ref(&block.contents))?;
//!         }
//!         Ok(())
//!     }
//!
//!     fn num_blocks(&self) -> Result<embedded_sdmmc::BlockCount, Error> {
//!         Ok(embedded_sdmmc::BlockCount(self.0.sectors()))
//!     }
//! }
//! ```

use core::cell::RefCell;
use core::fmt;
use core::ops::{Deref, DerefMut};

use crate::sys::{as_arrays, as_arrays_mut};
use crate::{Error, Partition, SdCard, Sector, Way};

/// A block of 512 bytes.
#[derive(Clone, PartialEq, Eq)]
#[repr(transparent)]
pub struct Block {
    /// Its bytes.
    pub contents: Sector,
}

impl Block {
    /// How many bytes a block has.
    pub const LEN: usize = 512;

    /// How many bytes a block has.
    pub const LEN_U32: u32 = 512;

    /// A block of zeros.
    pub const fn new() -> Block {
        Block { contents: [0; 512] }
    }
}

impl Default for Block {
    fn default() -> Block {
        Block::new()
    }
}

impl Deref for Block {
    type Target = Sector;

    fn deref(&self) -> &Sector {
        &self.contents
    }
}

impl DerefMut for Block {
    fn deref_mut(&mut self) -> &mut Sector {
        &mut self.contents
    }
}

impl fmt::Debug for Block {
    fn fmt(&self, f: &mut fmt::Formatter<'_>) -> fmt::Result {
        f.debug_struct("Block").finish_non_exhaustive()
    }
}

/// The number of a block, from 0 on.
#[derive(Clone, Copy, Debug, Default, PartialEq, Eq, PartialOrd, Ord, Hash)]
pub struct BlockIdx(pub u32);

/// A number of blocks.
#[derive(Clone, Copy, Debug, Default, PartialEq, Eq, PartialOrd, Ord, Hash)]
pub struct BlockCount(pub u32);

/// What has blocks that are read and written.
pub trait BlockDevice {
    /// What a call fails by.
    type Error: fmt::Debug;

    /// Reads blocks, from the one with this number on.
    ///
    /// # Errors
    /// Why they weren't read.
    fn read(&self, blocks: &mut [Block], start_block_idx: BlockIdx) -> Result<(), Self::Error>;

    /// Writes blocks, from the one with this number on.
    ///
    /// # Errors
    /// Why they weren't all written.
    fn write(&self, blocks: &[Block], start_block_idx: BlockIdx) -> Result<(), Self::Error>;

    /// How many blocks there are.
    ///
    /// # Errors
    /// Why that isn't known.
    fn num_blocks(&self) -> Result<BlockCount, Self::Error>;
}

/// The user partition of a card as a block device, which is called by `&self`.
///
/// A call out of a function of its own host panics, which ends the program.
///
/// # Examples
/// ```
/// use kelifandro::SdCard;
/// use kelifandro::block_device::{Block, BlockCount, BlockDevice, BlockIdx, Device};
/// use memory_card::MemoryCard;
///
/// let mut card = SdCard::new(MemoryCard::sd());
/// card.open()?;
/// let device = Device::new(card);
/// let mut blocks = [Block::new(), Block::new()];
/// blocks[1].contents = [7; 512];
/// device.write(&blocks, BlockIdx(100))?;
/// device.read(&mut blocks, BlockIdx(101))?;
/// assert_eq!(blocks[0].contents, [7; 512]);
/// assert_eq!(device.num_blocks()?, BlockCount(2048));
/// # Ok::<(), kelifandro::Error>(())
/// ```
#[derive(Debug)]
pub struct Device<W: Way>(RefCell<SdCard<W>>);

impl<W: Way> Device<W> {
    /// Of a card, which is opened before.
    pub const fn new(card: SdCard<W>) -> Device<W> {
        Device(RefCell::new(card))
    }

    /// The card.
    pub fn card(&mut self) -> &mut SdCard<W> {
        self.0.get_mut()
    }

    /// The card.
    pub fn into_card(self) -> SdCard<W> {
        self.0.into_inner()
    }

    /// Reads sectors, any number of them, from `start` on.
    ///
    /// # Errors
    /// Those of [`SdCard::read_long`].
    pub fn read_sectors(&self, start: u64, blocks: &mut [Sector]) -> Result<(), Error> {
        let mut card = self.0.borrow_mut();
        card.read_long(Partition::User, start, blocks)
            .map_err(|long| long.error)
    }

    /// Writes sectors, any number of them, from `start` on.
    ///
    /// # Errors
    /// Those of [`SdCard::write_long`].
    pub fn write_sectors(&self, start: u64, blocks: &[Sector]) -> Result<(), Error> {
        let mut card = self.0.borrow_mut();
        card.write_long(Partition::User, start, blocks)
            .map_err(|long| long.error)
    }

    /// How many sectors there are, 0 where the card isn't open; the largest number for a card of 2 TiB, which has one more.
    pub fn sectors(&self) -> u32 {
        let sectors = self.0.borrow().sectors(Partition::User);
        u32::try_from(sectors).unwrap_or(u32::MAX)
    }
}

impl<W: Way> BlockDevice for Device<W> {
    type Error = Error;

    fn read(&self, blocks: &mut [Block], start_block_idx: BlockIdx) -> Result<(), Error> {
        self.read_sectors(start_block_idx.0.into(), as_arrays_mut(blocks))
    }

    fn write(&self, blocks: &[Block], start_block_idx: BlockIdx) -> Result<(), Error> {
        self.write_sectors(start_block_idx.0.into(), as_arrays(blocks))
    }

    fn num_blocks(&self) -> Result<BlockCount, Error> {
        Ok(BlockCount(self.sectors()))
    }
}
