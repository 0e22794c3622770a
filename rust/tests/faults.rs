//! Each answer lost, and damaged, in turn: a call is done all the same, and what is done is there.

mod common;

use common::{by_blocks, by_dma, by_registers, by_transfer, memory, sectors, HasCard, ADMA2, SDMA};
use kelifandro::{Error, Partition, SdCard};
use memory_card::Both;

const RUN: usize = 5;

/// What falls: nothing, or the answer with this number is lost, or damaged.
#[derive(Clone, Copy, Debug)]
enum Falls {
    Nothing,
    Lost(u64),
    Damaged(u64),
}

fn plan<W: HasCard>(card: &mut SdCard<W>, falls: Falls) {
    let memory = card.way_mut().card_mut();
    match falls {
        Falls::Nothing => memory.lose(None),
        Falls::Lost(answer) => memory.lose(Some(answer)),
        Falls::Damaged(answer) => memory.damage(answer),
    }
}

/// What the card holds, as its memory says, and not by the library.
fn holds<W: HasCard>(
    card: &SdCard<W>,
    partition: Partition,
    start: u64,
    wanted: &[[u8; 512]],
) -> bool {
    let memory = card.way().card();
    wanted
        .iter()
        .zip(start..)
        .all(|(block, at)| memory.sector(partition, at) == Some(block))
}

/// A call is done, whatever falls.
fn done(told: Result<(), Error>, what: &str, falls: Falls) {
    assert_eq!(told, Ok(()), "{what}, {falls:?}");
}

/// Opens, writes, reads back, erases or trims; answers how many answers the card gave.
fn whole<W: HasCard>(mut card: SdCard<W>, is_emmc: bool, falls: Falls) -> u64 {
    let data = sectors(RUN, 0x11);
    let mut back = vec![[0; 512]; RUN];
    plan(&mut card, falls);
    done(card.open(), "open", falls);
    assert_eq!(card.sectors(Partition::User), 2048, "{falls:?}");
    done(card.write(Partition::User, 7, &data), "write", falls);
    assert!(
        holds(&card, Partition::User, 7, &data),
        "what was written, {falls:?}"
    );
    done(card.read(Partition::User, 7, &mut back), "read", falls);
    assert_eq!(back, data, "what was read, {falls:?}");
    done(
        card.write(Partition::User, 20, &data[..1]),
        "write of one",
        falls,
    );
    assert!(
        holds(&card, Partition::User, 20, &data[..1]),
        "what was written alone, {falls:?}"
    );
    if is_emmc {
        done(card.write(Partition::Boot2, 3, &data[..2]), "boot 2", falls);
        assert!(
            holds(&card, Partition::Boot2, 3, &data[..2]),
            "boot 2, {falls:?}"
        );
        done(card.trim(Partition::User, 8, 2), "trim", falls);
    } else {
        done(card.erase(Partition::User, 8, 2), "erase", falls);
    }
    assert!(
        holds(&card, Partition::User, 8, &[[0; 512]; 2]),
        "erased, {falls:?}"
    );
    assert!(
        holds(&card, Partition::User, 7, &data[..1]),
        "the sector before, {falls:?}"
    );
    assert!(
        holds(&card, Partition::User, 10, &data[3..]),
        "the sectors after, {falls:?}"
    );
    let healed = card.healed();
    let requests = if is_emmc { 5 } else { 4 };
    assert_eq!(healed.attempts, requests + healed.failures(), "{falls:?}");
    assert_eq!(healed.settlings, healed.failures(), "{falls:?}");
    card.way().card().answers()
}

fn each_in_turn<W: HasCard>(make: impl Fn(bool) -> SdCard<W>) {
    for is_emmc in [false, true] {
        let answers = whole(make(is_emmc), is_emmc, Falls::Nothing);
        assert!(answers > 30, "{answers} answers");
        for answer in 0..answers {
            whole(make(is_emmc), is_emmc, Falls::Lost(answer));
            whole(make(is_emmc), is_emmc, Falls::Damaged(answer));
        }
    }
}

#[test]
fn by_a_host_of_blocks() {
    each_in_turn(by_blocks);
}

#[test]
fn by_a_host_of_transfers() {
    each_in_turn(by_transfer);
}

/// The transfer moves all, some or none of a command's blocks.
#[test]
fn by_a_host_of_both() {
    for most in [usize::MAX, 2, 0] {
        each_in_turn(|is_emmc| SdCard::new(Both::new(memory(is_emmc), most)));
    }
}

#[test]
fn by_registers_alone() {
    each_in_turn(by_registers);
}

/// Controllers with ADMA2 in memory share a table, and so are one after the other.
#[test]
fn by_dma_of_both_kinds() {
    for capabilities in [SDMA, ADMA2] {
        for is_emmc in [false, true] {
            let run = |falls| {
                let mut table = [0; 128];
                whole(by_dma(is_emmc, capabilities, &mut table), is_emmc, falls)
            };
            for answer in 0..run(Falls::Nothing) {
                run(Falls::Lost(answer));
                run(Falls::Damaged(answer));
            }
        }
    }
}

/// Of a card whose answers are all lost from some place on each call ends, by name, and a write leaves sectors old or new.
#[test]
fn a_card_that_is_gone() {
    let (old, new) = (sectors(RUN, 0x33), sectors(RUN, 0x77));
    let mut card = by_blocks(false);
    card.open().expect("open");
    card.write(Partition::User, 7, &old).expect("write");
    card.way_mut().lose_power();
    card.write(Partition::User, 7, &new)
        .expect("a card that has lost its power is opened again");
    assert!(card.take_was_reset() && !card.take_was_reset());
    assert_eq!(card.healed().resets, 1);
    assert!(holds(&card, Partition::User, 7, &new));
}
