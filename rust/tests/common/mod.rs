//! What several tests share: ways to one card, and data.

#![allow(dead_code)]

use kelifandro::{ByDma, ByRegisters, ByTransfer, SdCard, Sector, Way};
use memory_card::{Both, MemoryCard, MemoryController, Whole};

/// Capabilities of a controller (SD Host Controller Simplified Specification 3.00, 40h).
pub const SDMA: u32 = 1 << 22;
pub const ADMA2: u32 = 1 << 19;

/// A way that has a card in memory.
pub trait HasCard: Way {
    fn card(&self) -> &MemoryCard;
    fn card_mut(&mut self) -> &mut MemoryCard;
}

impl HasCard for MemoryCard {
    fn card(&self) -> &MemoryCard {
        self
    }

    fn card_mut(&mut self) -> &mut MemoryCard {
        self
    }
}

impl HasCard for Both {
    fn card(&self) -> &MemoryCard {
        &self.card
    }

    fn card_mut(&mut self) -> &mut MemoryCard {
        &mut self.card
    }
}

impl HasCard for ByTransfer<Whole> {
    fn card(&self) -> &MemoryCard {
        &self.0 .0
    }

    fn card_mut(&mut self) -> &mut MemoryCard {
        &mut self.0 .0
    }
}

impl HasCard for ByRegisters<MemoryController> {
    fn card(&self) -> &MemoryCard {
        &self.0.card
    }

    fn card_mut(&mut self) -> &mut MemoryCard {
        &mut self.0.card
    }
}

impl HasCard for ByDma<'_, MemoryController> {
    fn card(&self) -> &MemoryCard {
        &self.registers.card
    }

    fn card_mut(&mut self) -> &mut MemoryCard {
        &mut self.registers.card
    }
}

pub fn memory(is_emmc: bool) -> MemoryCard {
    if is_emmc {
        MemoryCard::emmc()
    } else {
        MemoryCard::sd()
    }
}

pub fn by_blocks(is_emmc: bool) -> SdCard<MemoryCard> {
    SdCard::new(memory(is_emmc))
}

pub fn by_transfer(is_emmc: bool) -> SdCard<ByTransfer<Whole>> {
    SdCard::by_transfer(Whole(memory(is_emmc)))
}

pub fn by_registers(is_emmc: bool) -> SdCard<ByRegisters<MemoryController>> {
    SdCard::over_registers(MemoryController::new(memory(is_emmc)))
}

pub fn by_dma(
    is_emmc: bool,
    capabilities: u32,
    table: &mut [u8],
) -> SdCard<ByDma<'_, MemoryController>> {
    let controller = MemoryController::with_capabilities(memory(is_emmc), capabilities);
    SdCard::over_dma(controller, table)
}

/// Sectors of which no two are the same, nor any byte 0 but few.
pub fn sectors(count: usize, seed: u8) -> Vec<Sector> {
    let byte = |at: usize| (at * 5 + at / 512 * 3) as u8 ^ seed;
    (0..count)
        .map(|sector| core::array::from_fn(|at| byte(sector * 512 + at)))
        .collect()
}
