//! A host controller of which one function has all commands and all blocks.

use crate::host::{
    Abilities, BlockFault, Blocks, Command, Fault, Host, Ios, Moved, Response, Transfers,
};

/// A host controller that moves all blocks of a command by one call, as one with DMA does: four functions beside what it can.
///
/// The rules are those of [`Host`], of which each function here is the one with the same name.
///
/// # Examples
/// A host of which no response is heard:
/// ```
/// use kelifandro::{Abilities, Blocks, Command, Error, Fault, Ios, Lines, Moved, Response, SdCard, TransferHost};
///
/// struct Port; // the addresses of a controller of yours
///
/// impl TransferHost for Port {
///     fn abilities(&self) -> Abilities {
///         Abilities::new(Lines::Four)
///     }
///
///     fn transfer(&mut self, _command: &Command, blocks: Blocks<'_>) -> Result<(Response, Moved), Fault> {
///         match blocks {
///             Blocks::None => {}
///             Blocks::Read(bytes) => bytes.fill(0),
///             Blocks::Write(bytes) => assert_eq!(bytes.len() % 512, 0),
///         }
///         Err(Fault::Timeout)
///     }
///
///     fn is_busy(&mut self, _microseconds: u32) -> bool {
///         false
///     }
///
///     fn set_ios(&mut self, _ios: Ios) {}
///
///     fn pause(&mut self, _microseconds: u32) {}
/// }
///
/// assert_eq!(SdCard::by_transfer(Port).open(), Err(Error::NoCard));
/// ```
pub trait TransferHost {
    /// What the controller can; that it moves all blocks needn't be said.
    fn abilities(&self) -> Abilities;

    /// Sends a command and waits for its response; where that was heard, moves its blocks: sectors, and registers too (SCR, switch
    /// status, EXT_CSD: one of 8, 64 or 512 bytes). [`Host::transfer`] says how.
    ///
    /// # Errors
    /// Why the response wasn't heard; what became of the blocks is in [`Moved`].
    fn transfer(
        &mut self,
        command: &Command,
        blocks: Blocks<'_>,
    ) -> Result<(Response, Moved), Fault>;

    /// See [`Host::is_busy`].
    fn is_busy(&mut self, microseconds: u32) -> bool;

    /// See [`Host::set_ios`].
    fn set_ios(&mut self, ios: Ios);

    /// See [`Host::pause`].
    fn pause(&mut self, microseconds: u32);

    /// See [`Host::set_power`].
    fn set_power(&mut self, is_on: bool) {
        let _ = is_on;
    }

    /// See [`Host::is_inserted`].
    fn is_inserted(&mut self) -> Option<bool> {
        None
    }

    /// See [`Host::is_write_protected`].
    fn is_write_protected(&mut self) -> Option<bool> {
        None
    }
}

/// A host that is borrowed.
impl<T: TransferHost + ?Sized> TransferHost for &mut T {
    fn abilities(&self) -> Abilities {
        (**self).abilities()
    }

    fn transfer(
        &mut self,
        command: &Command,
        blocks: Blocks<'_>,
    ) -> Result<(Response, Moved), Fault> {
        (**self).transfer(command, blocks)
    }

    fn is_busy(&mut self, microseconds: u32) -> bool {
        (**self).is_busy(microseconds)
    }

    fn set_ios(&mut self, ios: Ios) {
        (**self).set_ios(ios);
    }

    fn pause(&mut self, microseconds: u32) {
        (**self).pause(microseconds);
    }

    fn set_power(&mut self, is_on: bool) {
        (**self).set_power(is_on);
    }

    fn is_inserted(&mut self) -> Option<bool> {
        (**self).is_inserted()
    }

    fn is_write_protected(&mut self) -> Option<bool> {
        (**self).is_write_protected()
    }
}

/// The way to a card over a [`TransferHost`]; [`SdCard::by_transfer`](crate::SdCard::by_transfer) makes it.
#[derive(Clone, Copy, Debug, Default)]
pub struct ByTransfer<T>(pub T);

impl<T: TransferHost> Host for ByTransfer<T> {
    fn abilities(&self) -> Abilities {
        self.0.abilities().with_transfers(Transfers::All)
    }

    fn send(&mut self, command: &Command) -> Result<Response, Fault> {
        self.0
            .transfer(command, Blocks::None)
            .map(|(response, _)| response)
    }

    /// What a transfer leaves doesn't come.
    fn read_block(&mut self, _: &mut [u8]) -> Result<(), BlockFault> {
        Err(BlockFault::Missing)
    }

    /// What a transfer leaves doesn't come.
    fn write_block(&mut self, _: &[u8; 512]) -> Result<(), BlockFault> {
        Err(BlockFault::Missing)
    }

    fn is_busy(&mut self, microseconds: u32) -> bool {
        self.0.is_busy(microseconds)
    }

    fn set_ios(&mut self, ios: Ios) {
        self.0.set_ios(ios);
    }

    fn pause(&mut self, microseconds: u32) {
        self.0.pause(microseconds);
    }

    fn transfer(
        &mut self,
        command: &Command,
        blocks: Blocks<'_>,
    ) -> Result<(Response, Moved), Fault> {
        self.0.transfer(command, blocks)
    }

    fn set_power(&mut self, is_on: bool) {
        self.0.set_power(is_on);
    }

    fn is_inserted(&mut self) -> Option<bool> {
        self.0.is_inserted()
    }

    fn is_write_protected(&mut self) -> Option<bool> {
        self.0.is_write_protected()
    }
}
