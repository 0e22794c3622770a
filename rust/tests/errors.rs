//! What is refused, by name, and what fails by name; nothing is told to a card or a host of what is refused.

mod common;

use core::num::NonZeroU16;

use common::{by_blocks, by_registers, by_transfer, sectors, HasCard};
use kelifandro::{
    Abilities, BlockFault, Blocks, Command, Error, Fault, Host, Ios, Lines, LongError, Moved,
    Partition, Response, SdCard, TransferHost,
};

/// A card that isn't open, before and after.
fn is_closed<W: HasCard>(card: &mut SdCard<W>) {
    let mut block = [[0; 512]; 2];
    assert_eq!(
        card.read(Partition::User, 0, &mut block),
        Err(Error::NotOpen)
    );
    assert_eq!(card.write(Partition::Boot1, 0, &block), Err(Error::NotOpen));
    assert_eq!((card.info(), card.sectors(Partition::User)), (None, 0));
}

fn refuses_ranges<W: HasCard>(card: &mut SdCard<W>) {
    let mut block = [[0; 512]; 2];
    assert_eq!(
        card.read(Partition::Boot1, 0, &mut block),
        Err(Error::NoPartition)
    );
    assert_eq!(card.sectors(Partition::Boot1), 0);
    assert_eq!(
        card.read(Partition::User, 2047, &mut block),
        Err(Error::OutOfRange)
    );
    assert_eq!(
        card.read(Partition::User, 1 << 32, &mut block),
        Err(Error::OutOfRange)
    );
    assert_eq!(
        card.read(Partition::User, u64::MAX, &mut block),
        Err(Error::OutOfRange)
    );
    assert_eq!(
        card.write(Partition::User, 2048, &block[..1]),
        Err(Error::OutOfRange)
    );
    assert_eq!(
        card.erase(Partition::User, 0, (1 << 32) + 1),
        Err(Error::OutOfRange)
    );
    let long = LongError {
        error: Error::OutOfRange,
        done: 0,
    };
    assert_eq!(card.write_long(Partition::User, 2047, &block), Err(long));
}

fn refuses_counts<W: HasCard>(card: &mut SdCard<W>) {
    assert_eq!(card.write(Partition::User, 0, &[]), Err(Error::Count));
    assert_eq!(card.read(Partition::User, 0, &mut []), Err(Error::Count));
    assert_eq!(
        card.read(Partition::User, 0, &mut vec![[0; 512]; 65_536]),
        Err(Error::Count)
    );
    assert_eq!(card.erase(Partition::User, 0, 0), Err(Error::Count));
    assert_eq!(card.trim(Partition::User, 0, 1), Err(Error::NotErasable));
    let long = LongError {
        error: Error::Count,
        done: 0,
    };
    assert_eq!(card.write_long(Partition::User, 0, &[]), Err(long));
}

fn refusals<W: HasCard>(mut card: SdCard<W>) {
    is_closed(&mut card);
    card.open().expect("open");
    let before = card.way().card().answers();
    refuses_ranges(&mut card);
    refuses_counts(&mut card);
    assert_eq!(card.way().card().answers(), before, "nothing is sent");
    card.close();
    is_closed(&mut card);
}

#[test]
fn what_is_refused() {
    refusals(by_blocks(false));
    refusals(by_transfer(false));
    refusals(by_registers(false));
}

#[test]
fn an_emmc_device_erases_whole_units() {
    let mut card = by_blocks(true);
    card.open().expect("open");
    assert_eq!(card.info().expect("open").erase_unit, 1024);
    assert_eq!(card.erase(Partition::User, 8, 2), Err(Error::NotErasable));
    card.erase(Partition::User, 1024, 1024).expect("a unit");
}

/// A host of which nothing is heard, or blocks fail, once it is told so; it counts what it was asked.
struct Fails {
    card: memory_card::MemoryCard,
    how: Option<How>,
    asked: u32,
    read: u32,
}

#[derive(Clone, Copy, Debug, PartialEq)]
enum How {
    Silent(Fault),
    Blocks(BlockFault),
    /// No block comes any more after so many.
    After(u32),
    Busy,
}

impl Host for Fails {
    fn abilities(&self) -> Abilities {
        self.card.abilities()
    }

    fn send(&mut self, command: &Command) -> Result<Response, Fault> {
        self.asked += 1;
        match self.how {
            Some(How::Silent(fault)) => Err(fault),
            _ => self.card.send(command),
        }
    }

    fn read_block(&mut self, block: &mut [u8]) -> Result<(), BlockFault> {
        self.asked += 1;
        self.read += 1;
        match self.how {
            Some(How::Blocks(fault)) => Err(fault),
            Some(How::After(most)) if self.read > most => Err(BlockFault::Missing),
            _ => self.card.read_block(block),
        }
    }

    fn write_block(&mut self, block: &[u8; 512]) -> Result<(), BlockFault> {
        self.asked += 1;
        match self.how {
            Some(How::Blocks(fault)) => Err(fault),
            _ => self.card.write_block(block),
        }
    }

    fn is_busy(&mut self, microseconds: u32) -> bool {
        self.asked += 1;
        self.how == Some(How::Busy) || self.card.is_busy(microseconds)
    }

    fn set_ios(&mut self, ios: Ios) {
        self.card.set_ios(ios);
    }

    fn pause(&mut self, _: u32) {}
}

fn failing(how: Option<How>) -> SdCard<Fails> {
    SdCard::new(Fails {
        card: memory_card::MemoryCard::sd(),
        how,
        asked: 0,
        read: 0,
    })
}

fn fails_for_good(how: How, errors: &[Error]) {
    fails_after(None, how, errors);
    for attempts in [1, 7] {
        fails_after(NonZeroU16::new(attempts), how, errors);
    }
}

/// So many attempts fail, or four, and each takes a counted number of exchanges (docs/ARCHITECTURE.md: 17 for each block and 19 more,
/// and 158 for a settle and a select); then each sector is old or new, and the next request heals.
fn fails_after(attempts: Option<NonZeroU16>, how: How, errors: &[Error]) {
    let most = attempts.map_or(4, |n| u32::from(n.get()));
    let new = sectors(2, 1);
    let mut card = failing(None);
    card.open().expect("open");
    if let Some(attempts) = attempts {
        card.set_attempts(attempts);
    }
    card.way_mut().how = Some(how);
    card.way_mut().asked = 0;
    let told = card.write(Partition::User, 7, &new).expect_err("it fails");
    assert!(errors.contains(&told), "{how:?}: {told}");
    assert_eq!(card.healed().attempts, u64::from(most), "{how:?}");
    assert!(
        card.way().asked <= most * (17 * 2 + 19 + 158),
        "{how:?}: asked {} times",
        card.way().asked
    );
    for (sector, block) in (7..).zip(&new) {
        let held = card
            .way()
            .card
            .sector(Partition::User, sector)
            .expect("it is there");
        assert!(
            held == block || *held == [0; 512],
            "{how:?}: neither old nor new"
        );
    }
    card.way_mut().how = None;
    card.write(Partition::User, 7, &new)
        .expect("it is healed by the next request");
}

#[test]
fn what_fails_for_good() {
    for fault in [
        Fault::Timeout,
        Fault::BadCheck,
        Fault::BadEndBit,
        Fault::OtherIndex,
    ] {
        fails_for_good(
            How::Silent(fault),
            &[Error::FailedAnswer, Error::FailedRecovery],
        );
    }
    for fault in [BlockFault::Bad, BlockFault::Missing] {
        fails_for_good(How::Blocks(fault), &[Error::FailedData]);
    }
    fails_for_good(How::Busy, &[Error::FailedBusy, Error::FailedRecovery]);
}

/// A long request ends with the part that isn't done, and says how much is done before it.
#[test]
fn a_long_request_that_fails() {
    let mut card = failing(None);
    card.way_mut().card.enlarge(128 * 1024);
    card.open().expect("open");
    card.way_mut().read = 0;
    card.way_mut().how = Some(How::After(65_535 + 3));
    let told = card.read_long(Partition::User, 0, &mut vec![[0; 512]; 65_535 + 9]);
    let long = LongError {
        error: Error::FailedData,
        done: 65_535,
    };
    assert_eq!(told, Err(long));
}

/// No card at all: opening ends, after a counted number of exchanges.
#[test]
fn no_card_answers() {
    for fault in [
        Fault::Timeout,
        Fault::BadCheck,
        Fault::BadEndBit,
        Fault::OtherIndex,
    ] {
        let mut card = failing(Some(How::Silent(fault)));
        assert_eq!(card.open(), Err(Error::NoCard));
        assert!(card.way().asked <= 2352, "asked {} times", card.way().asked);
        assert!(card.info().is_none());
    }
}

/// A host with power and the switches of a slot.
#[derive(Default)]
struct Slot {
    has_card: bool,
    is_locked: bool,
    is_hanging: bool,
    power: String,
    card: Option<memory_card::Whole>,
}

impl TransferHost for Slot {
    fn abilities(&self) -> Abilities {
        Abilities::new(Lines::Four).with_power_switch()
    }

    fn transfer(
        &mut self,
        command: &Command,
        blocks: Blocks<'_>,
    ) -> Result<(Response, Moved), Fault> {
        match &mut self.card {
            Some(card) if !self.is_hanging => card.transfer(command, blocks),
            _ => Err(Fault::Timeout),
        }
    }

    fn is_busy(&mut self, microseconds: u32) -> bool {
        self.card
            .as_mut()
            .is_some_and(|card| card.is_busy(microseconds))
    }

    fn set_ios(&mut self, ios: Ios) {
        if let Some(card) = &mut self.card {
            card.set_ios(ios);
        }
    }

    fn pause(&mut self, _: u32) {}

    fn set_power(&mut self, is_on: bool) {
        self.power.push(if is_on { '1' } else { '0' });
        self.is_hanging = self.is_hanging && is_on;
    }

    fn is_inserted(&mut self) -> Option<bool> {
        Some(self.has_card)
    }

    fn is_write_protected(&mut self) -> Option<bool> {
        Some(self.is_locked)
    }
}

#[test]
fn a_slot_with_switches_and_power() {
    let mut card = SdCard::by_transfer(Slot::default());
    assert_eq!(card.open(), Err(Error::NotInserted));
    assert_eq!(
        (card.is_inserted(), card.is_write_protected()),
        (Some(false), Some(false))
    );
    assert_eq!(card.way().0.power, "", "without a card nothing is switched");
    card.way_mut().0 = Slot {
        has_card: true,
        is_locked: true,
        is_hanging: true,
        power: String::new(),
        card: Some(memory_card::Whole(memory_card::MemoryCard::sd())),
    };
    card.open()
        .expect("a card that hangs is without power once");
    assert_eq!(card.way().0.power, "101");
    assert_eq!(
        (card.is_inserted(), card.is_write_protected()),
        (Some(true), Some(true))
    );
    card.close();
    assert_eq!(card.way().0.power, "1010");
}

#[test]
fn a_host_without_switches_says_nothing() {
    let mut card = by_blocks(false);
    assert_eq!(
        (card.is_inserted(), card.is_write_protected()),
        (None, None)
    );
}

#[test]
fn errors_are_errors() {
    let error: Box<dyn std::error::Error> = Box::new(LongError {
        error: Error::ReadOnly,
        done: 3,
    });
    assert_eq!(
        error.to_string(),
        "the card is write protected, after 3 sectors"
    );
    assert_eq!(
        error.source().expect("why").to_string(),
        "the card is write protected"
    );
    assert_eq!(Error::NotOpen.number(), -1);
    assert_eq!(Error::Locked.number(), -26);
}
