//! What is known of a card.

use crate::host::Lines;

/// A sector, which is 512 bytes on each card that is served.
pub type Sector = [u8; 512];

/// A partition. SD cards have the user's alone; eMMC devices have two boot partitions, and up to four general purpose ones (JESD84-B51,
/// section 6.2).
#[derive(Clone, Copy, Debug, PartialEq, Eq, Hash, PartialOrd, Ord)]
#[repr(u32)]
pub enum Partition {
    /// The user's, which every card has.
    User = 0,
    /// The first boot partition.
    Boot1 = 1,
    /// The second boot partition.
    Boot2 = 2,
    /// The first general purpose partition.
    Gp1 = 3,
    /// The second one.
    Gp2 = 4,
    /// The third one.
    Gp3 = 5,
    /// The fourth one.
    Gp4 = 6,
}

impl Partition {
    /// All, in the order of their numbers.
    pub const ALL: [Partition; 7] = [
        Partition::User,
        Partition::Boot1,
        Partition::Boot2,
        Partition::Gp1,
        Partition::Gp2,
        Partition::Gp3,
        Partition::Gp4,
    ];
}

/// The kind of a card.
#[derive(Clone, Copy, Debug, PartialEq, Eq, Hash)]
pub enum Kind {
    /// An SD card: SDSC, SDHC or SDXC.
    Sd,
    /// An eMMC device.
    Emmc,
}

/// What is known of a card that is open.
#[derive(Clone, Copy, Debug, PartialEq, Eq)]
#[non_exhaustive]
pub struct Info {
    /// Its kind.
    pub kind: Kind,
    /// How many data lines are in use.
    pub lines: Lines,
    /// Whether its timing is that of high speed.
    pub high_speed: bool,
    /// Whether it is write protected, by its CSD.
    pub read_only: bool,
    /// Whether it can trim. It is `false` of a device, too, that is known to lose data by trims, by its CID.
    pub trims: bool,
    /// Whether it knows CMD23, and isn't known to lock up at it.
    pub cmd23: bool,
    /// What each byte of an erased sector holds.
    pub erased_byte: u8,
    /// An erase unit, in sectors.
    pub erase_unit: u64,
    /// Its relative address.
    pub rca: u16,
    /// The CID, bits 127 to 120 first (SD Physical Layer Simplified Specification 6.00, section 5.2; JESD84-B51, section 7.2). The last
    /// byte isn't what the card has sent.
    pub cid: [u8; 16],
    /// The CSD, bits 127 to 120 first (SD Physical Layer Simplified Specification 6.00, section 5.3; JESD84-B51, section 7.3). The last
    /// byte isn't what the card has sent.
    pub csd: [u8; 16],
    /// The SCR of an SD card as it came, bits 63 to 56 first (SD Physical Layer Simplified Specification 6.00, section 5.6); 0 of an
    /// eMMC device.
    pub scr: [u8; 8],
}

/// What was met and healed since the card was opened, counted: by the answers alone a card that fails at every tenth command looks
/// healthy.
///
/// Attempts of requests that failed for good are among them; what opening met isn't. Each count stays at its largest number once it is
/// there.
#[derive(Clone, Copy, Debug, Default, PartialEq, Eq)]
#[non_exhaustive]
#[repr(C)]
pub struct Healed {
    /// Attempts at requests, four at most each, with success or without.
    pub attempts: u64,
    /// How many of them failed because a response wasn't heard,
    pub by_answer: u64,
    /// because a block was bad, missing or rejected,
    pub by_data: u64,
    /// because a status showed an error,
    pub by_status: u64,
    /// because the card was busy for too long,
    pub by_busy: u64,
    /// because the card couldn't be settled.
    pub by_recovery: u64,
    /// How often the card was settled, which an attempt after a failure begins with; with success or without.
    pub settlings: u64,
    /// How many of these settlings reset the card.
    pub resets: u64,
}

impl Healed {
    pub(crate) const NONE: Healed = Healed {
        attempts: 0,
        by_answer: 0,
        by_data: 0,
        by_status: 0,
        by_busy: 0,
        by_recovery: 0,
        settlings: 0,
        resets: 0,
    };

    /// How many attempts failed.
    pub const fn failures(&self) -> u64 {
        self.by_answer
            .saturating_add(self.by_data)
            .saturating_add(self.by_status)
            .saturating_add(self.by_busy)
            .saturating_add(self.by_recovery)
    }
}
