//! The block device of embedded-sdmmc's shape.
#![cfg(feature = "embedded-sdmmc")]

mod common;

use common::{by_blocks, by_registers};
use kelifandro::block_device::{Block, BlockCount, BlockDevice, BlockIdx, Device};
use kelifandro::{Error, Partition, SdCard, Way};
use memory_card::MemoryCard;

fn serves<W: Way>(mut card: SdCard<W>) {
    card.open().expect("open");
    let device = Device::new(card);
    assert_eq!(device.num_blocks(), Ok(BlockCount(2048)));
    let mut blocks: Vec<Block> = (0..3)
        .map(|byte| Block {
            contents: [byte + 1; 512],
        })
        .collect();
    device.write(&blocks, BlockIdx(2045)).expect("write");
    device.read(&mut blocks[..2], BlockIdx(2046)).expect("read");
    assert_eq!(
        blocks.iter().map(|block| block[511]).collect::<Vec<_>>(),
        [2, 3, 3]
    );
    assert_eq!(
        device.read(&mut blocks, BlockIdx(2046)),
        Err(Error::OutOfRange)
    );
    assert_eq!(
        device.write(&blocks, BlockIdx(u32::MAX)),
        Err(Error::OutOfRange)
    );
    let mut card = device.into_card();
    card.close();
    assert_eq!(Device::new(card).num_blocks(), Ok(BlockCount(0)));
}

#[test]
fn over_a_host_and_over_registers() {
    serves(by_blocks(false));
    serves(by_registers(true));
}

/// A card of 2 TiB has one block more than a number of them can say.
#[test]
fn the_largest_card() {
    let mut memory = MemoryCard::sd();
    memory.enlarge(u32::MAX - 2047);
    let mut card = SdCard::new(memory);
    card.open().expect("open");
    assert_eq!(card.sectors(Partition::User), 1 << 32);
    assert_eq!(Device::new(card).num_blocks(), Ok(BlockCount(u32::MAX)));
}
