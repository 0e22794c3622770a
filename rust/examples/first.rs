//! Counts in sector 1 of a card how often it was opened, as a program that boots would, and tells what became of two faults.
//!
//!     cargo run --example first

use kelifandro::{Error, Host, Partition, SdCard};
use memory_card::MemoryCard;

/// Opens the card, counts in the first byte of sector 1, and answers the count.
fn boot<H: Host>(card: &mut SdCard<H>) -> Result<u8, Error> {
    let mut sector = [[0; 512]];
    card.open()?;
    card.read(Partition::User, 1, &mut sector)?;
    sector[0][0] += 1;
    card.write(Partition::User, 1, &sector)?;
    Ok(sector[0][0])
}

fn main() -> Result<(), Error> {
    let mut memory = MemoryCard::sd();
    for number in 1..=3 {
        // the card goes on; what is known of it is forgotten, as by a reset
        let mut card = SdCard::new(&mut memory);
        let count = boot(&mut card)?;
        println!(
            "boot {number}: the card counts {count}, of {} sectors",
            card.sectors(Partition::User)
        );
    }

    let mut card = SdCard::new(&mut memory);
    card.open()?;
    let next = card.way().answers();
    card.way_mut().lose(Some(next)); // the next response is lost
    card.write(Partition::User, 7, &[[7; 512]; 16])?;
    let healed = card.healed();
    println!(
        "16 sectors, a response lost: done, after {} attempts",
        healed.attempts
    );

    match card.write(Partition::User, 2040, &[[7; 512]; 16]) {
        Err(fault) => println!("16 sectors from 2040 on: {fault}"),
        Ok(()) => println!("16 sectors from 2040 on: done"),
    }
    Ok(())
}
