//! Cards of both kinds: their registers and partitions; moved, borrowed, in threads, and out of each other's hosts.

mod common;

use std::thread;

use common::{by_blocks, by_dma, by_registers, by_transfer, sectors, ADMA2, SDMA};
use kelifandro::{
    Abilities, BlockFault, Command, Error, Fault, Host, Ios, Kind, Lines, Partition, Response,
    SdCard, Way,
};
use memory_card::{Both, MemoryCard, MemoryController, Whole, BOOT_SECTORS, USER_SECTORS};

/// Bits 127 to 8 of the registers that c/examples/card.c has.
const SD_CID: [u8; 15] = *b"\x01KFKELIF\x10\0\0\0\x01\x01\x81";
const SD_CSD: [u8; 15] = [
    0x40, 0x0e, 0, 0x32, 0x5b, 0x59, 0, 0, 0, 0x01, 0x7f, 0x80, 0x0a, 0x40, 0,
];
const SCR: [u8; 8] = [0x02, 0x05, 0x80, 0x02, 0, 0, 0, 0];
const EMMC_CID: [u8; 15] = *b"\x01\x01\0KELIFA\x10\0\0\0\x01\x1b";

fn registers_of_an_sd_card<W: Way>(mut card: SdCard<W>) {
    let mut ext_csd = [1; 512];
    card.open_with_ext_csd(&mut ext_csd).expect("open");
    assert_eq!(ext_csd, [0; 512], "an SD card has none");
    let info = card.info().expect("it is open");
    assert_eq!(
        (info.kind, info.lines, info.high_speed),
        (Kind::Sd, Lines::Four, true)
    );
    assert_eq!(
        (&info.cid[..15], &info.csd[..15], info.scr),
        (&SD_CID[..], &SD_CSD[..], SCR)
    );
    assert_eq!(
        (info.read_only, info.trims, info.cmd23, info.erased_byte),
        (false, false, true, 0)
    );
    for partition in Partition::ALL {
        let size = if partition == Partition::User {
            USER_SECTORS
        } else {
            0
        };
        assert_eq!(card.sectors(partition), size);
    }
}

fn registers_of_an_emmc_device<W: Way>(mut card: SdCard<W>) {
    let mut ext_csd = [1; 512];
    card.open_with_ext_csd(&mut ext_csd).expect("open");
    assert_eq!(
        (ext_csd[192], ext_csd[213], ext_csd[511]),
        (6, 2048_u16.to_le_bytes()[1], 0)
    );
    let info = card.info().expect("it is open");
    assert_eq!(
        (info.kind, info.lines, info.high_speed),
        (Kind::Emmc, Lines::Eight, true)
    );
    assert_eq!((&info.cid[..15], info.scr), (&EMMC_CID[..], [0; 8]));
    assert_eq!(
        (
            info.read_only,
            info.trims,
            info.erased_byte,
            info.erase_unit
        ),
        (false, true, 0, 1024)
    );
    for partition in Partition::ALL {
        let size = match partition {
            Partition::User => USER_SECTORS,
            Partition::Boot1 | Partition::Boot2 => BOOT_SECTORS,
            _ => 0,
        };
        assert_eq!(card.sectors(partition), size);
    }
}

#[test]
fn registers() {
    registers_of_an_sd_card(by_blocks(false));
    registers_of_an_sd_card(by_transfer(false));
    registers_of_an_sd_card(by_registers(false));
    registers_of_an_sd_card(by_dma(false, SDMA, &mut []));
    registers_of_an_emmc_device(by_blocks(true));
    registers_of_an_emmc_device(by_transfer(true));
    registers_of_an_emmc_device(by_registers(true));
    registers_of_an_emmc_device(by_dma(true, SDMA, &mut []));
}

#[test]
fn boot_partitions_are_apart() {
    let mut memory = MemoryCard::emmc();
    for (partition, byte) in [
        (Partition::User, 1),
        (Partition::Boot1, 2),
        (Partition::Boot2, 3),
    ] {
        *memory.sector_mut(partition, 9).expect("it is there") = [byte; 512];
    }
    let mut card = SdCard::new(memory);
    card.open().expect("open");
    for (partition, byte) in [
        (Partition::Boot2, 3),
        (Partition::User, 1),
        (Partition::Boot1, 2),
    ] {
        let mut block = [[0; 512]];
        card.read(partition, 9, &mut block).expect("read");
        assert_eq!(block, [[byte; 512]]);
        card.write(partition, 10, &[[byte + 10; 512]])
            .expect("write");
    }
    let memory = card.into_way();
    for (partition, byte) in [
        (Partition::User, 11),
        (Partition::Boot1, 12),
        (Partition::Boot2, 13),
    ] {
        assert_eq!(memory.sector(partition, 10), Some(&[byte; 512]));
    }
}

#[test]
fn long_requests() {
    let mut memory = MemoryCard::sd();
    memory.enlarge(128 * 1024); // the sectors in memory come again
    for sector in 0..USER_SECTORS {
        memory
            .sector_mut(Partition::User, sector)
            .expect("it is there")[..8]
            .copy_from_slice(&sector.to_le_bytes());
    }
    let mut card = SdCard::new(memory);
    card.open().expect("open");
    assert_eq!(card.sectors(Partition::User), USER_SECTORS + 128 * 1024);
    let mut many = vec![[0; 512]; 65_535 + 9];
    assert_eq!(
        card.read(Partition::User, 2040, &mut many),
        Err(Error::Count)
    );
    card.read_long(Partition::User, 2040, &mut many)
        .expect("in two requests");
    for (block, sector) in many.iter().zip(2040_u64..) {
        assert_eq!(block[..8], (sector % USER_SECTORS).to_le_bytes());
    }
    let data = sectors(1500, 9);
    card.write_long(Partition::User, 100, &data)
        .expect("in one");
    let memory = card.into_way();
    for (block, sector) in data.iter().zip(100..) {
        assert_eq!(memory.sector(Partition::User, sector), Some(block));
    }
}

#[test]
fn slow_cards() {
    let mut card = by_blocks(false);
    card.open().expect("open");
    card.way_mut().slow(400_000);
    card.write(Partition::User, 3, &sectors(2, 3))
        .expect("0.4 s after a write");
    card.way_mut().slow(100_000_000);
    card.erase(Partition::User, 8, 8)
        .expect("100 s after an erase");
    assert_eq!(card.healed().failures(), 0);
}

/// A card goes on wherever it lies, and whoever holds it.
#[test]
fn cards_that_are_moved() {
    let data = sectors(4, 5);
    let mut card = by_blocks(false);
    card.open().expect("open");
    card.write(Partition::User, 7, &data).expect("write");
    let mut boxed = Box::new(card);
    let mut back = [[0; 512]; 4];
    boxed
        .read(Partition::User, 7, &mut back)
        .expect("read by a card that was moved to the heap");
    assert_eq!(back, data[..]);
    let mut cards = vec![*boxed];
    for _ in 0..9 {
        cards.push(by_blocks(true)); // the vector grows, and moves the first one
    }
    let mut first = cards.swap_remove(0);
    cards.clear();
    first.write(Partition::User, 20, &data).expect("write");
    let sent = thread::spawn(move || {
        let mut back = [[0; 512]; 4];
        first
            .read(Partition::User, 20, &mut back)
            .map(|()| (first, back))
    });
    let (mut card, back) = sent
        .join()
        .expect("the thread")
        .expect("read in another thread");
    assert_eq!(back, data[..]);
    assert_eq!(card.healed().attempts, 4);
    card.read(Partition::User, 7, &mut [[0; 512]])
        .expect("and in this one");
}

#[test]
fn a_host_that_is_borrowed_or_of_any_type() {
    let mut memory = MemoryCard::sd();
    let mut card = SdCard::new(&mut memory);
    card.open().expect("open");
    card.write(Partition::User, 7, &[[8; 512]]).expect("write");
    assert_eq!(memory.sector(Partition::User, 7), Some(&[8; 512]));
    let any: &mut dyn Host = &mut memory;
    let mut card = SdCard::new(any);
    let mut block = [[0; 512]];
    card.open().expect("open");
    card.read(Partition::User, 7, &mut block).expect("read");
    assert_eq!(block, [[8; 512]]);
}

/// Writes and reads back by a way that is borrowed.
fn serves<W: Way>(mut card: SdCard<W>) {
    let data = sectors(4, 6);
    let mut back = vec![[0; 512]; 4];
    card.open().expect("open");
    card.write(Partition::User, 7, &data).expect("write");
    card.read(Partition::User, 7, &mut back).expect("read");
    assert_eq!(back, data);
}

#[test]
fn ways_that_are_borrowed() {
    let mut both = Both::new(MemoryCard::sd(), 4);
    serves(SdCard::new(&mut both));
    assert_eq!(both.calls, 2, "a write and a read by one call each");
    let mut whole = Whole(MemoryCard::emmc());
    serves(SdCard::by_transfer(&mut whole));
    let mut controller = MemoryController::with_capabilities(MemoryCard::sd(), SDMA);
    serves(SdCard::over_registers(&mut controller));
    assert_eq!(controller.moved(), 0, "no DMA");
    serves(SdCard::over_dma(&mut controller, &mut []));
    assert_eq!(controller.moved(), 8, "by DMA");
}

/// Four threads, each with a card of its own, whose calls overlap.
#[test]
fn threads() {
    fn work<W: Way>(mut card: SdCard<W>, own: u8) -> u64 {
        card.open().expect("open");
        for round in 0..2000 {
            let data = [[own * 16 + (round % 16) as u8; 512]; 8];
            let mut back = [[0; 512]; 8];
            card.write(Partition::User, round % 1024, &data)
                .expect("write");
            card.read(Partition::User, round % 1024, &mut back)
                .expect("read");
            assert_eq!(back, data, "thread {own}, round {round}");
        }
        card.healed().attempts
    }
    thread::scope(|scope| {
        let threads = [
            scope.spawn(|| work(by_blocks(false), 1)),
            scope.spawn(|| work(by_blocks(true), 2)),
            scope.spawn(|| work(by_transfer(false), 3)),
            scope.spawn(|| work(by_registers(true), 4)),
        ];
        for thread in threads {
            assert_eq!(thread.join().expect("a thread"), 4000);
        }
    });
}

/// A host of which each command reads a sector of another card first.
struct Nested {
    outer: MemoryCard,
    inner: SdCard<MemoryCard>,
}

impl Host for Nested {
    fn abilities(&self) -> Abilities {
        self.outer.abilities()
    }

    fn send(&mut self, command: &Command) -> Result<Response, Fault> {
        let mut block = [[0; 512]];
        self.inner
            .read(Partition::Boot1, 9, &mut block)
            .expect("the inner card");
        assert_eq!(block, [[99; 512]]);
        self.outer.send(command)
    }

    fn read_block(&mut self, block: &mut [u8]) -> Result<(), BlockFault> {
        self.outer.read_block(block)
    }

    fn write_block(&mut self, block: &[u8; 512]) -> Result<(), BlockFault> {
        self.outer.write_block(block)
    }

    fn is_busy(&mut self, microseconds: u32) -> bool {
        self.outer.is_busy(microseconds)
    }

    fn set_ios(&mut self, ios: Ios) {
        self.outer.set_ios(ios);
    }

    fn pause(&mut self, _: u32) {}
}

#[test]
fn a_card_within_the_host_of_another() {
    let mut inner = MemoryCard::emmc();
    *inner.sector_mut(Partition::Boot1, 9).expect("it is there") = [99; 512];
    let mut inner = SdCard::new(inner);
    inner.open().expect("open");
    let mut card = SdCard::new(Nested {
        outer: MemoryCard::sd(),
        inner,
    });
    let data = sectors(3, 1);
    card.open().expect("open, with another card within");
    card.write(Partition::User, 7, &data).expect("write");
    let mut back = vec![[0; 512]; 3];
    card.read(Partition::User, 7, &mut back).expect("read");
    assert_eq!(back, data);
}

#[test]
fn switches_of_a_slot_by_registers() {
    let mut card = by_registers(false);
    assert_eq!(
        (card.is_inserted(), card.is_write_protected()),
        (Some(true), Some(false))
    );
    card.way_mut().0.lock(true);
    assert_eq!(card.is_write_protected(), Some(true));
    card.way_mut().0.take_out();
    assert_eq!(card.is_inserted(), Some(false));
    assert_eq!(card.open(), Err(Error::NotInserted));
}

/// What DMA moves, and what goes by the port: without a table there is no ADMA2.
#[test]
fn dma() {
    let data = sectors(4, 7);
    for (capabilities, table, is_moved) in [
        (SDMA, 0, true),
        (ADMA2, 128, true),
        (ADMA2, 7, false),
        (0, 128, false),
    ] {
        let mut table = vec![0; table];
        let mut card = by_dma(false, capabilities, &mut table);
        card.open().expect("open");
        card.write(Partition::User, 7, &data).expect("write");
        let mut back = vec![[0; 512]; 4];
        card.read(Partition::User, 7, &mut back).expect("read");
        assert_eq!(back, data);
        let controller: &MemoryController = &card.way().registers;
        assert_eq!(
            controller.moved(),
            if is_moved { 8 } else { 0 },
            "{capabilities:x}"
        );
        assert_eq!(controller.misuses(), 0, "{capabilities:x}");
    }
}

fn is_send<T: Send>(_: &T) {}

#[test]
fn cards_are_sent_where_their_ways_are() {
    is_send(&by_blocks(false));
    is_send(&by_registers(false));
}
