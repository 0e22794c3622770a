//! One SD card or eMMC device, behind a host controller of yours: a safe crate over Kelifandro's library for C, whose stack is proved.
//!
//! A card is reached in one of these ways, each a trait that needs no `unsafe` but the last one:
//!
//! | The controller | Its trait | The card |
//! |---|---|---|
//! | moves a block a call | [`Host`]: six functions | [`SdCard::new`] |
//! | moves all blocks of a command by one call | [`TransferHost`]: four functions | [`SdCard::by_transfer`] |
//! | is an SD host controller | [`Registers`]: three functions | [`SdCard::over_registers`] |
//! | is one that has DMA | [`Dma`], beside it | [`SdCard::over_dma`] |
//!
//! ```
//! use kelifandro::{Partition, SdCard};
//! use memory_card::MemoryCard; // a host in memory: yours comes in its place
//!
//! let mut card = SdCard::new(MemoryCard::sd());
//! card.open()?;
//! let mut sector = [[0; 512]];
//! card.read(Partition::User, 7, &mut sector)?;
//! sector[0][0] += 1;
//! card.write(Partition::User, 7, &sector)?;
//! assert_eq!(card.sectors(Partition::User), 2048);
//! # Ok::<(), kelifandro::Error>(())
//! ```
//!
//! # What is proved
//!
//! The library, which was C's before: over any answers of a host each call returns, after a counted number of exchanges, and nothing
//! overflows or is indexed out of range. Where controller and card conform to the card relation (`docs/STANDARD.md`, "The card"), a
//! request that is done has exactly its effect, and one that failed leaves each sector that it names old or new and all others
//! unchanged. This crate isn't proved, nor are `c/kelifandro.c` and `c/kelifandro_queue.c`, nor what makes C of the proved library.
//!
//! # Threads, moves and panics
//!
//! All that the library keeps is in the [`SdCard`], and no two calls for one overlap, since each takes it by `&mut`: so a card is [`Send`]
//! where the way to it is, calls for several may be made at the same time, and a host may call another card. C's pointers to a way are
//! set at each call and gone after it: a card may be moved. A call stays on the stack that it was made on.
//!
//! A function of a host that panics doesn't unwind through C: the program is aborted, as `extern "C"` functions do since Rust 1.81,
//! which is the oldest that this crate is built by.
//!
//! # Several clients
//!
//! A [`queue`] takes requests of several clients, in threads or interrupts, for one card: clients go on, and one worker serves them,
//! neighbours together.
//!
//! # Features
//!
//! - `embedded-sdmmc`: block devices of the shape that the crate of this name has (`block_device`).

#![no_std]
#![deny(
    missing_docs,
    unsafe_code,
    unsafe_op_in_unsafe_fn,
    clippy::undocumented_unsafe_blocks
)]

mod card;
mod error;
mod host;
mod info;
pub mod queue;
mod registers;
#[allow(unsafe_code)]
mod sys;
mod transfer;

#[cfg(feature = "embedded-sdmmc")]
pub mod block_device;

pub use card::SdCard;
pub use error::{Error, LongError};
pub use host::{
    Abilities, BlockFault, Blocks, Command, DataKind, Fault, Host, Ios, Lines, Moved, Response,
    ResponseKind, Transfers,
};
pub use info::{Healed, Info, Kind, Partition, Sector};
pub use registers::{Board, BusAddress, ByDma, ByRegisters, Registers, Size, BUFFER_DATA_PORT};
pub use sys::{Dma, Way};
pub use transfer::{ByTransfer, TransferHost};

/// The code of the README is built, too.
#[cfg(doctest)]
#[doc = include_str!("../README.md")]
struct Readme;

/// A card over what isn't `Send` isn't it either:
/// ```
/// fn is_send<T: Send>() {}
/// is_send::<kelifandro::SdCard<std::sync::Arc<()>>>();
/// ```
/// ```compile_fail
/// fn is_send<T: Send>() {}
/// is_send::<kelifandro::SdCard<std::rc::Rc<()>>>();
/// ```
#[cfg(doctest)]
struct Sent;
