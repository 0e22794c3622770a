//! A card, and the requests that it takes.

use core::fmt;
use core::num::NonZeroU16;

use crate::error::{Error, LongError};
use crate::host::{Host, Lines};
use crate::registers::{ByDma, ByRegisters, Registers};
use crate::sys::{At, Dma, Raw, Way};
use crate::transfer::{ByTransfer, TransferHost};
use crate::{Healed, Info, Kind, Partition, Sector};

/// An SD card or an eMMC device, with the way to it: a [`Host`], a [`TransferHost`], or the registers of an SD host controller.
///
/// It owns the way, or borrows it: `&mut H` is a host, too. One call is made at a time, which `&mut self` sees to; those for several
/// cards may be made at the same time, by threads, or out of a function of a host. A card may be moved between two calls, and to
/// another thread where the way may. It keeps 776 bytes beside the way, where addresses have 64 bits; a call needs less than 9 KiB of
/// stack, and no heap.
///
/// Nothing has to be flushed: what a call says is done is on the card, whose cache stays off (JESD84-B51, section 6.6.31).
///
/// # Examples
/// Over the card in memory that the tests have:
/// ```
/// use kelifandro::{Partition, SdCard};
/// use memory_card::MemoryCard;
///
/// let mut card = SdCard::new(MemoryCard::sd());
/// card.open()?;
/// card.write(Partition::User, 7, &[[0xa5; 512]; 2])?;
/// let mut back = [[0; 512]; 2];
/// card.read(Partition::User, 7, &mut back)?;
/// assert_eq!(back, [[0xa5; 512]; 2]);
/// # Ok::<(), kelifandro::Error>(())
/// ```
pub struct SdCard<W> {
    way: W,
    raw: Raw,
}

impl<H: Host> SdCard<H> {
    /// A card that isn't open yet, over a host.
    pub const fn new(host: H) -> SdCard<H> {
        SdCard {
            way: host,
            raw: Raw::new(),
        }
    }
}

impl<T: TransferHost> SdCard<ByTransfer<T>> {
    /// A card that isn't open yet, over a host of which one function has all commands and blocks.
    pub const fn by_transfer(host: T) -> SdCard<ByTransfer<T>> {
        SdCard {
            way: ByTransfer(host),
            raw: Raw::new(),
        }
    }
}

impl<R: Registers> SdCard<ByRegisters<R>> {
    /// A card that isn't open yet, over the registers of its SD host controller.
    pub const fn over_registers(registers: R) -> SdCard<ByRegisters<R>> {
        SdCard {
            way: ByRegisters(registers),
            raw: Raw::new(),
        }
    }
}

impl<'t, R: Dma> SdCard<ByDma<'t, R>> {
    /// The same, where the controller moves blocks by DMA.
    ///
    /// `table` is memory for a table that ADMA2 wants, which is lent by [`Dma::lend`] too: 8 bytes for each 64 sectors of a request, or
    /// 12 where the request's memory lies beyond 32 bits; 8,192 serve each request there. Where it is shorter than a request wants,
    /// that goes through the Buffer Data Port; [`read_long`](SdCard::read_long) makes parts that fit.
    pub fn over_dma(registers: R, table: &'t mut [u8]) -> SdCard<ByDma<'t, R>> {
        SdCard {
            way: ByDma { registers, table },
            raw: Raw::new(),
        }
    }
}

impl<W: Way> SdCard<W> {
    /// Opens the card, whatever became of it before, in 24 rounds at most, and counts from zero what is healed.
    ///
    /// It takes at most 2,352 exchanges: a command, a block and a look at DAT0 are one each; twice as many where the card's power is
    /// switched off and on. A card that is exchanged or loses its power has to be opened again.
    ///
    /// # Errors
    /// [`NoCard`](Error::NoCard), [`Unsupported`](Error::Unsupported), [`NoVoltage`](Error::NoVoltage),
    /// [`NoBaseClock`](Error::NoBaseClock), [`NotInserted`](Error::NotInserted), [`CardVoltage`](Error::CardVoltage) or
    /// [`Locked`](Error::Locked). The card isn't open then.
    pub fn open(&mut self) -> Result<(), Error> {
        self.raw.open(&mut self.way, None)
    }

    /// Opens the card as [`open`](SdCard::open) does, and copies the EXT_CSD of an eMMC device as it came (JESD84-B51, section 7.4);
    /// of an SD card these bytes become 0.
    ///
    /// # Errors
    /// Those of [`open`](SdCard::open).
    ///
    /// # Examples
    /// ```
    /// use kelifandro::SdCard;
    /// use memory_card::MemoryCard;
    ///
    /// let mut card = SdCard::new(MemoryCard::emmc());
    /// let mut ext_csd = [0; 512];
    /// card.open_with_ext_csd(&mut ext_csd)?;
    /// assert_eq!(ext_csd[192], 6); // EXT_CSD_REV: version 4.5
    /// # Ok::<(), kelifandro::Error>(())
    /// ```
    pub fn open_with_ext_csd(&mut self, ext_csd: &mut Sector) -> Result<(), Error> {
        self.raw.open(&mut self.way, Some(ext_csd))
    }

    /// The card isn't open any more, and without power: by [`Host::set_power`], where the host has it, or by the controller's Power
    /// Control (SD Host Controller Simplified Specification 3.00, section 2.2.11). Nothing is lost where it isn't called.
    pub fn close(&mut self) {
        self.raw.close(&mut self.way);
    }

    /// The size of a partition in sectors of 512 bytes, 0 where there is no such one, or the card isn't open.
    pub fn sectors(&self, partition: Partition) -> u64 {
        self.raw.sectors(partition)
    }

    /// Reads as many sectors as `blocks` has, 1 to 65,535, from sector `start` on. `blocks` holds them once this is done; after a
    /// failure it may hold anything.
    ///
    /// # Errors
    /// [`NotOpen`](Error::NotOpen), [`NoPartition`](Error::NoPartition), [`Count`](Error::Count) or [`OutOfRange`](Error::OutOfRange),
    /// and then nothing was sent; by registers [`NoBaseClock`](Error::NoBaseClock); one of the five `Failed..` once all attempts have failed.
    pub fn read(
        &mut self,
        partition: Partition,
        start: u64,
        blocks: &mut [Sector],
    ) -> Result<(), Error> {
        self.raw
            .read(&mut self.way, At { partition, start }, blocks)
    }

    /// Writes as many sectors as `blocks` has, 1 to 65,535, from sector `start` on.
    ///
    /// # Errors
    /// Those of [`read`](SdCard::read), and [`ReadOnly`](Error::ReadOnly). After one of the five `Failed..` each sector of them is old
    /// or new, and all others are unchanged.
    pub fn write(
        &mut self,
        partition: Partition,
        start: u64,
        blocks: &[Sector],
    ) -> Result<(), Error> {
        self.raw
            .write(&mut self.way, At { partition, start }, blocks)
    }

    /// Reads any number of sectors but 0, in requests of 65,535 at most, by DMA as many as a table has lines for, from the first on;
    /// none where they don't all lie in the partition.
    ///
    /// # Errors
    /// Those of [`read`](SdCard::read), with how many sectors are read before the request that wasn't done.
    pub fn read_long(
        &mut self,
        partition: Partition,
        start: u64,
        blocks: &mut [Sector],
    ) -> Result<(), LongError> {
        self.raw
            .read_long(&mut self.way, At { partition, start }, blocks)
    }

    /// Writes any number of sectors but 0, as [`read_long`](SdCard::read_long) reads them.
    ///
    /// # Errors
    /// Those of [`write`](SdCard::write), with how many sectors are written before the request that wasn't done: each sector of that
    /// one is old or new then, and none after it has changed.
    pub fn write_long(
        &mut self,
        partition: Partition,
        start: u64,
        blocks: &[Sector],
    ) -> Result<(), LongError> {
        self.raw
            .write_long(&mut self.way, At { partition, start }, blocks)
    }

    /// Erases `count` sectors from sector `start` on, which are whole erase units ([`Info::erase_unit`]). Each byte of them is
    /// [`Info::erased_byte`] then (SD Physical Layer Simplified Specification 6.00, section 4.3.5; JESD84-B51, section 6.6.9).
    ///
    /// # Errors
    /// Those of [`write`](SdCard::write), of which [`Count`](Error::Count) is that of no sector alone, and
    /// [`NotErasable`](Error::NotErasable).
    ///
    /// # Examples
    /// ```
    /// use kelifandro::{Error, Partition, SdCard};
    /// use memory_card::MemoryCard;
    ///
    /// let mut card = SdCard::new(MemoryCard::sd());
    /// card.open()?;
    /// card.erase(Partition::User, 8, 2)?;
    /// assert_eq!(card.trim(Partition::User, 8, 2), Err(Error::NotErasable)); // no SD card trims
    /// # Ok::<(), kelifandro::Error>(())
    /// ```
    pub fn erase(&mut self, partition: Partition, start: u64, count: u64) -> Result<(), Error> {
        self.raw
            .erase(&mut self.way, At { partition, start }, count)
    }

    /// Trims `count` sectors from sector `start` on, of an eMMC device that can ([`Info::trims`]): each byte of them is
    /// [`Info::erased_byte`] then (JESD84-B51, section 6.6.10).
    ///
    /// # Errors
    /// Those of [`erase`](SdCard::erase).
    pub fn trim(&mut self, partition: Partition, start: u64, count: u64) -> Result<(), Error> {
        self.raw.trim(&mut self.way, At { partition, start }, count)
    }

    /// What is known of the card; `None` where it isn't open.
    ///
    /// # Examples
    /// ```
    /// use kelifandro::{Kind, SdCard};
    /// use memory_card::MemoryCard;
    ///
    /// let mut card = SdCard::new(MemoryCard::sd());
    /// assert!(card.info().is_none());
    /// card.open()?;
    /// let info = card.info().expect("it is open");
    /// assert_eq!(info.kind, Kind::Sd);
    /// assert_eq!(&info.cid[3..8], b"KELIF"); // PNM, the product's name
    /// # Ok::<(), kelifandro::Error>(())
    /// ```
    pub fn info(&self) -> Option<Info> {
        self.raw.card().map(|card| Info {
            kind: if card.kind == 0 { Kind::Sd } else { Kind::Emmc },
            lines: Lines::of(card.lines.into()),
            high_speed: card.high_speed != 0,
            read_only: card.read_only != 0,
            trims: card.trims != 0,
            cmd23: card.cmd23 != 0,
            erased_byte: card.erased_byte,
            erase_unit: card.erase_unit,
            rca: card.rca,
            cid: card.cid,
            csd: card.csd,
            scr: self.raw.scr(),
        })
    }

    /// How many attempts a request has from now on, each of which may fail; four where this wasn't called. After each that fails the card
    /// is settled. Requests that a queue serves together have two, and each of them so many once it is served alone.
    pub fn set_attempts(&mut self, attempts: NonZeroU16) {
        self.raw.set_attempts(attempts.get());
    }

    /// What was met and healed since the card was opened.
    pub fn healed(&self) -> Healed {
        self.raw.healed()
    }

    /// Whether the card was reset and identified anew within a call, since it was opened or this was asked last. Its registers said
    /// that it is the same card: who keeps blocks of it elsewhere and can't rely on that drops them.
    pub fn take_was_reset(&mut self) -> bool {
        self.raw.take_was_reset()
    }

    /// Whether a card is in the slot, by [`Host::is_inserted`], or by Present State of a controller whose registers are given (SD Host
    /// Controller Simplified Specification 3.00, section 2.2.9); `None` where there is no such switch.
    pub fn is_inserted(&mut self) -> Option<bool> {
        self.raw.is_inserted(&mut self.way)
    }

    /// Whether the slide of the card stands at "lock", by [`Host::is_write_protected`], or by Present State; `None` where there is no
    /// such switch. A write is refused only where the card itself is protected: whoever wants the switch to count asks here first.
    pub fn is_write_protected(&mut self) -> Option<bool> {
        self.raw.is_write_protected(&mut self.way)
    }

    /// The way to the card.
    pub fn way(&self) -> &W {
        &self.way
    }

    /// The way to the card. What it tells the controller or the card meanwhile is as a fault that the next call heals, or meets.
    pub fn way_mut(&mut self) -> &mut W {
        &mut self.way
    }

    /// Both, for a call of a queue.
    pub(crate) fn parts(&mut self) -> (&mut W, &mut Raw) {
        (&mut self.way, &mut self.raw)
    }

    /// The way to the card, which isn't known any more then.
    pub fn into_way(self) -> W {
        self.way
    }
}

impl<W: Way> fmt::Debug for SdCard<W> {
    fn fmt(&self, f: &mut fmt::Formatter<'_>) -> fmt::Result {
        f.debug_struct("SdCard")
            .field("info", &self.info())
            .field("healed", &self.healed())
            .finish_non_exhaustive()
    }
}
