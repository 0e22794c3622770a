//! A program without an operating system and without a C library, which linkers show nothing else than the crate needs: each answer of
//! a card in memory is lost, and damaged, in turn, and what is done has to be there.
//!
//! It ends with status 0 where nothing was wrong, by the call of Linux, as QEMU's user mode takes it; on a board the three functions of
//! `system` would be others.

#![no_std]
#![no_main]

mod system;

use kelifandro::{Error, Partition, SdCard, Way};
use memory_card::{MemoryCard, MemoryController};

/// A way to a card in memory.
trait HasCard: Way {
    fn card(&mut self) -> &mut MemoryCard;
}

impl HasCard for MemoryCard {
    fn card(&mut self) -> &mut MemoryCard {
        self
    }
}

impl HasCard for kelifandro::ByRegisters<MemoryController> {
    fn card(&mut self) -> &mut MemoryCard {
        &mut self.0.card
    }
}

/// Opens, writes, reads back and erases; answers how many answers the card gave, 0 where something is wrong.
fn whole<W: HasCard>(card: &mut SdCard<W>, data: &[[u8; 512]; 3]) -> Result<u64, Error> {
    let mut back = [[0; 512]; 3];
    card.open()?;
    card.write(Partition::User, 7, data)?;
    card.read(Partition::User, 7, &mut back)?;
    card.erase(Partition::User, 1024, 1024)?;
    let memory = card.way_mut().card();
    let is_there = (7..)
        .zip(data)
        .all(|(at, block)| memory.sector(Partition::User, at) == Some(block));
    Ok(if is_there && back == *data {
        memory.answers()
    } else {
        0
    })
}

/// How many answers were lost in turn, and whether all was right.
fn each_in_turn<W: HasCard>(make: impl Fn() -> SdCard<W>) -> (u64, bool) {
    let data =
        core::array::from_fn(|sector| core::array::from_fn(|at| (at * 5 + sector * 3) as u8));
    let answers = whole(&mut make(), &data).unwrap_or(0);
    let mut is_right = answers > 0;
    for answer in 0..answers {
        let mut card = make();
        card.way_mut().card().lose(Some(answer));
        is_right &= whole(&mut card, &data).is_ok_and(|answers| answers > 0);
        let mut card = make();
        card.way_mut().card().damage(answer);
        is_right &= whole(&mut card, &data).is_ok_and(|answers| answers > 0);
        drop(card);
    }
    (answers, is_right)
}

/// Called by `system` once there is a stack.
fn run() -> bool {
    let by_blocks = [false, true].map(|is_emmc| {
        each_in_turn(|| {
            SdCard::new(if is_emmc {
                MemoryCard::emmc()
            } else {
                MemoryCard::sd()
            })
        })
    });
    let by_registers =
        each_in_turn(|| SdCard::over_registers(MemoryController::new(MemoryCard::sd())));
    let ways = [by_blocks[0], by_blocks[1], by_registers];
    let is_tried = ways.iter().all(|(answers, _)| *answers > 30);
    is_tried && ways.iter().all(|(_, is_right)| *is_right)
}
