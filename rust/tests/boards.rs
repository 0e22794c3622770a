//! What a board says in place of its SD host controller, and what passes through the port by one call.

mod common;

use common::sectors;
use kelifandro::{
    Board, ByRegisters, Error, Lines, Partition, Registers, SdCard, Size, BUFFER_DATA_PORT,
};
use memory_card::{MemoryCard, MemoryController};

/// Bits of Capabilities (SD Host Controller Simplified Specification 3.00, 40h).
const CLOCK_50_MHZ: u32 = 50 << 8;
const HIGH_SPEED: u32 = 1 << 21;
const HAS_3_3_V: u32 = 1 << 24;

/// A controller on a board, which counts what passes through the port by one call.
struct OnBoard {
    controller: MemoryController,
    board: Board,
    read: u32,
    written: u32,
}

impl Registers for OnBoard {
    fn read(&mut self, offset: u32, size: Size) -> u32 {
        self.controller.read(offset, size)
    }

    fn write(&mut self, offset: u32, size: Size, value: u32) {
        self.controller.write(offset, size, value);
    }

    fn pause(&mut self, _: u32) {}

    fn board(&self) -> Board {
        self.board
    }

    fn read_port(&mut self, bytes: &mut [u8]) {
        self.read += 1;
        for word in bytes.chunks_exact_mut(4) {
            word.copy_from_slice(&self.read(BUFFER_DATA_PORT, Size::Word).to_le_bytes());
        }
    }

    fn write_port(&mut self, bytes: &[u8]) {
        self.written += 1;
        self.controller.write_port(bytes);
    }
}

fn card(board: Board) -> SdCard<ByRegisters<OnBoard>> {
    SdCard::over_registers(OnBoard {
        controller: MemoryController::new(MemoryCard::sd()),
        board,
        read: 0,
        written: 0,
    })
}

fn serves(card: &mut SdCard<ByRegisters<OnBoard>>) {
    let data = sectors(3, 2);
    let mut back = vec![[0; 512]; 3];
    card.open().expect("open");
    card.write(Partition::User, 7, &data).expect("write");
    card.read(Partition::User, 7, &mut back).expect("read");
    assert_eq!(back, data);
    let registers = &card.way().0;
    assert_eq!(registers.controller.misuses(), 0);
    assert_eq!(registers.written, 3, "each block by one call");
    assert!(
        registers.read >= 3,
        "each block by one call, and registers of the card"
    );
}

#[test]
fn as_the_registers_say() {
    let mut card = card(Board::new());
    serves(&mut card);
    let info = card.info().expect("it is open");
    assert_eq!((info.lines, info.high_speed), (Lines::Four, true));
}

#[test]
fn one_line_is_wired() {
    let mut card = card(Board::new().with_one_line());
    serves(&mut card);
    assert_eq!(card.info().expect("it is open").lines, Lines::One);
}

#[test]
fn a_slot_without_switches() {
    let mut empty = card(Board::new());
    empty.way_mut().0.controller.take_out();
    assert_eq!(
        (empty.open(), empty.is_inserted()),
        (Err(Error::NotInserted), Some(false))
    );
    let mut there = card(Board::new().with_card_there());
    there.way_mut().0.controller.take_out();
    serves(&mut there);
    assert_eq!(
        (there.is_inserted(), there.is_write_protected()),
        (Some(true), Some(false))
    );
}

#[test]
fn words_alone() {
    let capabilities = CLOCK_50_MHZ | HIGH_SPEED | HAS_3_3_V;
    let mut card = card(
        Board::new()
            .with_words_alone()
            .with_capabilities(capabilities),
    );
    card.way_mut().0.controller.bare();
    serves(&mut card);
    assert!(card.info().expect("it is open").high_speed);
}

#[test]
fn capabilities_of_the_board() {
    let mut slow = card(Board::new().with_capabilities(CLOCK_50_MHZ | HAS_3_3_V));
    serves(&mut slow);
    assert!(!slow.info().expect("it is open").high_speed);
    assert_eq!(
        card(Board::new().with_capabilities(CLOCK_50_MHZ)).open(),
        Err(Error::NoVoltage)
    );
    assert_eq!(
        card(Board::new().with_capabilities(HAS_3_3_V)).open(),
        Err(Error::NoBaseClock)
    );
}

/// A controller whose Interrupt Status shows nothing of a command until it is waited for.
struct Asleep {
    controller: MemoryController,
    is_awake: bool,
    waits: u32,
}

const COMMAND: u32 = 0x0c;
const INTERRUPT_STATUS: u32 = 0x30;
const STATUS_ENABLE: u32 = 0x34;

/// Card Insertion and Card Removal.
const OF_THE_SLOT: u32 = 0xc0;

impl Registers for Asleep {
    fn read(&mut self, offset: u32, size: Size) -> u32 {
        if offset == INTERRUPT_STATUS && !self.is_awake {
            return 0;
        }
        self.controller.read(offset, size)
    }

    fn write(&mut self, offset: u32, size: Size, value: u32) {
        self.is_awake &= offset != COMMAND;
        self.controller.write(offset, size, value);
    }

    fn pause(&mut self, _: u32) {}

    fn wait(&mut self, interrupts: u32, microseconds: u32) {
        assert_eq!((interrupts, microseconds), (0x000f_0001, 10_000));
        self.is_awake = true;
        self.waits += 1;
    }

    fn board(&self) -> Board {
        Board::new()
            .with_interrupts()
            .with_kept_interrupts(OF_THE_SLOT)
    }
}

#[test]
fn interrupts_are_waited_for() {
    let data = sectors(3, 2);
    let mut back = vec![[0; 512]; 3];
    let mut card = SdCard::over_registers(Asleep {
        controller: MemoryController::new(MemoryCard::sd()),
        is_awake: false,
        waits: 0,
    });
    card.open().expect("open");
    let before = card.way().0.waits;
    card.write(Partition::User, 7, &data).expect("write");
    card.read(Partition::User, 7, &mut back).expect("read");
    assert_eq!(back, data);
    let registers = &mut card.way_mut().0;
    assert!(registers.waits > before, "once for each command");
    assert_eq!(registers.controller.misuses(), 0);
    let shown = registers.read(STATUS_ENABLE, Size::Word);
    assert_eq!(shown & OF_THE_SLOT, OF_THE_SLOT);
}
